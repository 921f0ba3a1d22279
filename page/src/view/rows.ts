/** The rows of a file as the page has them: columns, and which of them are shown. */
import { Column } from '../model/columns.js';
import { columnsOfRows, type Rows as Batch, type WORDED } from '../model/packets.js';
import type { Filter } from './filter.js';

/** How many rows are judged before the page draws again. */
const PART = 20_000;
/** The bound on rows by which a row's number and its frame's go into one number. */
const ROWS = 2 ** 21;

export type Worded = typeof WORDED[number];

export class Rows {
    columns = columnsOfRows();
    frame = this.columns.frame;
    time = this.columns.time;
    port = this.columns.port;
    said: string[] = [];
    texts: string[] = [];
    /** How many rows have each text as a sender, as kinds, as a reason. */
    counts = { sender: new Map<number, number>(), kinds: new Map<number, number>(), reason: new Map<number, number>() };
    /** The rows that are shown, in order. */
    shown = new Column(Uint32Array);
    filter: Filter | null = null;
    isSorted = true;
    turn = 0;

    get count() {
        return this.frame.length;
    }

    /** Whether the numbers are those of lines: then no packet has ends. */
    get isOfLines() {
        return this.count > 0 && this.text('source', 0) === '-';
    }

    add(batch: Batch) {
        const from = this.count;
        if (!batch.frame.length) return;
        this.texts.push(...batch.texts);
        this.said.push(...batch.said.split('\n'));
        for (const [key, column] of Object.entries(this.columns)) column.extend(Reflect.get(batch, key));
        for (const [key, counts] of Object.entries(this.counts)) count(counts, batch[key as Worded]);
        for (let row = from; row < this.count; row++) {
            if (row && this.frame.at(row) < this.frame.at(row - 1)) this.isSorted = false;
            if (!this.filter || this.filter.wants(this, row)) this.shown.push(row);
        }
    }

    text(key: Worded, row: number) {
        return this.texts[this.columns[key].at(row)];
    }

    /** How many rows have each text of a column; of kinds each word is counted.
     * @returns the most first */
    countsOf(key: 'sender' | 'kinds' | 'reason'): [string, number][] {
        const counts = new Map<string, number>();
        for (const [text, count] of this.counts[key]) {
            for (const each of key === 'kinds' ? this.texts[text].split(' ') : [this.texts[text]]) {
                if (each) counts.set(each, (counts.get(each) ?? 0) + count);
            }
        }
        return [...counts].sort((one, other) => other[1] - one[1]);
    }

    /** All rows by their frames: what was known later comes to its place. */
    order() {
        const keys = Float64Array.from({ length: this.count }, (_, row) => (this.isSorted ? 0 : this.frame.at(row) * ROWS) + row);
        return this.isSorted ? keys : keys.sort().map((key) => key % ROWS);
    }

    /** Chooses the rows that are shown.
     * @param tell is called when some are chosen
     * @returns whether it came to the end; no, where other rows are wanted meanwhile */
    async choose(filter: Filter | null, tell: () => void): Promise<boolean> {
        this.turn += 1;
        const { turn } = this;
        this.filter = filter;
        const order = this.order();
        const shown = new Column(Uint32Array);
        const count = order.length;
        for (let at = 0; at < count; at++) {
            if (!filter || filter.wants(this, order[at])) shown.push(order[at]);
            if ((at + 1) % PART) continue;
            await new Promise((done) => setTimeout(done, 0));
            if (turn !== this.turn) return false;
        }
        for (let row = count; row < this.count; row++) if (!filter || filter.wants(this, row)) shown.push(row);
        this.shown = shown;
        tell();
        return true;
    }

    /** The row of a frame's packet with this number, counted from 1; -1 where there is none. */
    find(frame: number, packet: number) {
        let left = packet;
        for (let row = 0; row < this.count; row++) {
            if (this.frame.at(row) === frame) left -= 1;
            if (left === 0) return row;
        }
        return -1;
    }

    /** Which packet of its frame a row is, counted from 1. */
    packetNumber(row: number) {
        const frame = this.frame.at(row);
        let count = 1;
        for (let at = 0; at < row; at++) if (this.frame.at(at) === frame) count += 1;
        return count;
    }
}

/** Counts each text of a column. */
function count(counts: Map<number, number>, texts: Uint32Array) {
    for (const each of texts) counts.set(each, (counts.get(each) ?? 0) + 1);
}
