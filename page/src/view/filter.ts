/** Which packets are shown: words of a box, and what was chosen of the counts. */
import { KINDS, KIND_SAME, SERVICES } from '../made/vocabulary.js';
import type { Rows } from './rows.js';

/** A whole address of IPv4, which is no part of another one. */
const ADDRESS = /^\d{1,3}(?:\.\d{1,3}){3}$/;

/** What is chosen; an empty text is all. */
export type Chosen = { words: string, kind: string, sender: string, reason: string };

export class Filter {
    kinds: string[];
    ports: number[];
    patterns: RegExp[];
    /** What was found of a text, by its number. */
    found: Map<number, boolean>[];
    fitting = new Map<number, boolean>();

    constructor(public chosen: Chosen) {
        const { words, kind } = chosen;
        const parts = words.trim().split(/\s+/).filter((each) => each !== '');
        this.kinds = parts.flatMap((each) => kindIn(each) ?? []).concat(kind || []);
        this.ports = parts.filter((each) => SERVICES.includes(each)).map(Number);
        this.patterns = parts.filter((each) => !kindIn(each) && !SERVICES.includes(each)).map(patternOf);
        this.found = this.patterns.map(() => new Map());
    }

    get isAll() {
        return !this.kinds.length && !this.ports.length && !this.patterns.length && !this.chosen.sender && !this.chosen.reason;
    }

    wants(rows: Rows, row: number) {
        const { sender, reason } = this.chosen;
        if (this.ports.length && !this.ports.includes(rows.port.at(row))) return false;
        if (this.kinds.length && !this.fits(rows, rows.columns.kinds.at(row))) return false;
        if (sender && rows.text('sender', row) !== sender) return false;
        if (reason && rows.text('reason', row) !== reason) return false;
        return this.patterns.every((pattern, at) => pattern.test(rows.said[row])
            || this.has(rows, at, rows.columns.source.at(row)) || this.has(rows, at, rows.columns.destination.at(row)));
    }

    fits(rows: Rows, text: number) {
        let fits = this.fitting.get(text);
        if (fits === undefined) {
            const kinds = rows.texts[text].split(' ');
            fits = this.kinds.every((each) => kinds.includes(each));
            this.fitting.set(text, fits);
        }
        return fits;
    }

    has(rows: Rows, pattern: number, text: number) {
        const found = this.found[pattern];
        let has = found.get(text);
        if (has === undefined) {
            has = this.patterns[pattern].test(rows.texts[text]);
            found.set(text, has);
        }
        return has;
    }
}

/** The kind that a word is; undefined of any other. */
function kindIn(word: string): string | undefined {
    const plain = word.toLowerCase();
    return KINDS.find((each) => each === (Reflect.get(KIND_SAME, plain) ?? plain));
}

/** What a word has to be a part of; an address has to stand there by itself. */
function patternOf(word: string) {
    const plain = word.replace(/[.*+?^${}()|[\]\\]/g, '\\$&');
    return new RegExp(ADDRESS.test(word) ? `(?<![\\d.])${plain}(?![\\d.]*\\d)` : plain, 'i');
}
