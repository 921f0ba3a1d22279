/** What is left out of a file: its frames, each once and for the first reason, and comments on them, in words. */

import { CUT, SHORT } from '../made/reasons.js';

/** A frame, as far as it is named: addresses with ports, where they are known. */
export interface Mark {
    frame: number; time: bigint | null; source: string; destination: string;
    captured: number; size: number;
    counted: boolean; // whether something of it is left out
}
export type LeftOut = { kind: 'left out', mark: Mark, why: string };
export type Comment = { kind: 'comment', text: string };

export class Report {
    /** the latest frame */
    mark: Mark = { frame: 0, time: null, source: '', destination: '', captured: 0, size: 0, counted: false };
    /** Why bytes are missing at its end. */
    cut = CUT;

    constructor(public give: (item: LeftOut | Comment) => void) {}

    get number() {
        return this.mark.frame;
    }

    /** @param mark the next frame */
    begin(mark: Mark) {
        this.mark = mark;
        this.cut = mark.captured < mark.size ? CUT : SHORT;
    }

    /** @param mark a frame of which bytes are in no payload */
    count(mark: Mark, why: string) {
        if (mark.counted) return;
        mark.counted = true;
        this.give({ kind: 'left out', mark, why });
    }

    /** That another frame completes the packet of a frame is nothing of which something is left out. */
    completed() {}

    comment(text: string) {
        this.give({ kind: 'comment', text });
    }

    /** Some of the latest frame's bytes are left out. */
    note(why: string, text: string) {
        this.count(this.mark, why);
        this.comment(text);
    }

    leave_out(why: string, text: string) {
        this.note(why, `frame ${this.mark.frame} is left out: ${text}`);
    }
}
