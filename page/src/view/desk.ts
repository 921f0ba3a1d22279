/** The page's side of the worker: questions, each with its answer, and rows as they come. */
import type { Rows } from '../model/packets.js';
import type { UnreadCounts } from '../model/unread.js';

/** What comes while a file is read. */
export interface News {
    opened: number; // which of the files that were opened
    done: number; // how many bytes are read
    size: number; kind: 'frames' | 'lines' | 'table'; rows: Rows;
    counts: Counts;
}
export interface Counts {
    frames: number; packets: number; refused: number; leftOut: number;
    names: number; refusals: number; unread: UnreadCounts;
}

export class Desk {
    place = URL.createObjectURL(new Blob([this.code], { type: 'text/javascript' }));
    worker?: Worker;
    loaded?: Promise<any>;
    waiting = new Map<number, { done: (answer: any) => void, failed: (fault: Error) => void }>();
    asked = 0;

    /** @param code the worker's
     * @param module the library's
     * @param complain is called where the library can't be loaded */
    constructor(public code: string, public module: Uint8Array, public tell: (news: News) => void, public complain: (words: string) => void) {
        this.start();
    }

    start() {
        this.worker = new Worker(this.place);
        this.worker.onmessage = ({ data }) => this.hear(data);
        this.worker.onerror = (event) => {
            event.preventDefault();
            this.fail(event.message || 'the worker ended');
        };
        this.loaded = this.ask('load', { module: this.module });
        this.loaded.catch((error) => this.complain(error.message));
    }

    hear(data: any) {
        if (data.id === undefined) {
            this.tell(data);
            return;
        }
        const waiting = this.waiting.get(data.id);
        this.waiting.delete(data.id);
        if (data.fault === undefined) waiting?.done(data.answer);
        else waiting?.failed(new Error(data.fault));
    }

    ask(what: string, asked: object = {}): Promise<any> {
        this.asked += 1;
        const id = this.asked;
        return new Promise((done, failed) => {
            this.waiting.set(id, { done, failed });
            this.worker?.postMessage({ id, what, ...asked });
        });
    }

    /** Ends what the worker does, and begins with a new one: nothing is open then. */
    restart(why: string) {
        this.worker?.terminate();
        this.fail(why);
        this.start();
    }

    fail(why: string) {
        for (const { failed } of this.waiting.values()) failed(new Error(why));
        this.waiting.clear();
    }
}
