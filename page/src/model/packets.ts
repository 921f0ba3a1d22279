/** The packets of a file, and the frames that are left out, in the order in which it is known what becomes of them. */
import type { Mark } from '../containers/report.js';
import { Blocks, Column, Texts } from './columns.js';

/** Stands for no time. */
export const NO_TIME = -(2n ** 63n);
/** How much is kept: what comes after that isn't. */
const MOST_ROWS = 2_000_000;
const MOST_BYTES = 512 << 20;
const MOST_TEXTS = 500_000;
const NO_VLAN = 0xffff;
/** The port of what is left out. */
export const LEFT_OUT = 0;

/** A packet as it is kept, or a frame that is left out: then it has no bytes, and `port` is LEFT_OUT. */
export interface Kept {
    frame: number; time: bigint | null; port: number;
    source: string; // an address and a port, where they are known
    destination: string; mac: string; vlan: number | null; captured: number;
    size: number; bytes: Uint8Array;
}
/** Rows, as the page gets them: columns, of which some have numbers of texts. */
export interface Rows {
    frame: Uint32Array; time: BigInt64Array; port: Uint8Array;
    source: Uint32Array; // where a packet comes from, in words
    destination: Uint32Array;
    sender: Uint32Array; // its address
    kinds: Uint32Array; // words with a space between them
    reason: Uint32Array; // why it is refused or left out, without a place; an empty text where it isn't
    said: string; // phrases with a line feed between them
    texts: string[]; // those that have numbers since the rows before
}

/** The columns of rows that have numbers of texts. */
export const WORDED = ['source', 'destination', 'sender', 'kinds', 'reason'] as const;

export function columnsOfRows() {
    return {
        frame: new Column(Uint32Array), time: new Column(BigInt64Array), port: new Column(Uint8Array), source: new Column(Uint32Array),
        destination: new Column(Uint32Array), sender: new Column(Uint32Array), kinds: new Column(Uint32Array), reason: new Column(Uint32Array),
    };
}

export class Packets {
    texts = new Texts();
    columns = {
        frame: new Column(Uint32Array), time: new Column(BigInt64Array), port: new Column(Uint8Array), source: new Column(Uint32Array),
        destination: new Column(Uint32Array), mac: new Column(Uint32Array), vlan: new Column(Uint16Array), captured: new Column(Uint32Array),
        size: new Column(Uint32Array), place: new Column(Float64Array), length: new Column(Uint32Array),
    };
    bytes = new Blocks();
    /** Comments on what is left out, each with the number of rows before it. */
    comments: { before: number, text: string }[] = [];

    get count() {
        return this.columns.frame.length;
    }

    get isFull() {
        return this.count >= MOST_ROWS || this.bytes.size >= MOST_BYTES || this.texts.texts.length >= MOST_TEXTS;
    }

    add(mark: Mark, { port, mac, vlan, bytes }: { port: number, mac: string | null, vlan: number | null, bytes: Uint8Array }) {
        const { columns, texts } = this;
        columns.frame.push(mark.frame);
        columns.time.push(mark.time ?? NO_TIME);
        columns.port.push(port);
        columns.source.push(texts.number(mark.source));
        columns.destination.push(texts.number(mark.destination));
        columns.mac.push(texts.number(mac ?? ''));
        columns.vlan.push(vlan ?? NO_VLAN);
        columns.captured.push(mark.captured);
        columns.size.push(mark.size);
        columns.place.push(this.bytes.add(bytes));
        columns.length.push(bytes.length);
    }

    comment(text: string) {
        this.comments.push({ before: this.count, text });
    }

    at(row: number): Kept {
        const { columns, texts } = this;
        const time = columns.time.at(row);
        const vlan = columns.vlan.at(row);
        return {
            frame: columns.frame.at(row), time: time === NO_TIME ? null : time, port: columns.port.at(row),
            source: texts.texts[columns.source.at(row)], destination: texts.texts[columns.destination.at(row)],
            mac: texts.texts[columns.mac.at(row)], vlan: vlan === NO_VLAN ? null : vlan, captured: columns.captured.at(row),
            size: columns.size.at(row), bytes: this.bytes.at(columns.place.at(row), columns.length.at(row)),
        };
    }
}
