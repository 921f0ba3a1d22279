/** The view of two taps: what comes of them together, and by side what each knows and what only the join does. */
import type { Key } from '../model/keys.js';
import type { App } from './app.js';
import { bar, folded } from './bars.js';
import { byId, counted, element, number, table } from './dom.js';
import { known } from './keys.js';
import { conclusion, sidesOf, type Row, type Sides } from './sides.js';

export class TapsView {
    root = byId('view-taps', HTMLElement);
    /** Of each tap the frames in which keys came first. */
    firsts: Map<string, number>[] = [];

    constructor(public app: App) {}

    async show() {
        const { taps } = this.app;
        const [one, two] = taps;
        if (!one || !two) {
            this.root.replaceChildren(element('p', { class: 'quiet' }, 'Open a second file as a second tap: captures and saved tables of two places are joined here.'));
            return;
        }
        const answer = await this.app.ask('compared');
        if (!answer || this.app.taps[0] !== one || this.app.taps[1] !== two) return;
        const sides = sidesOf(answer);
        this.firsts = answer.firsts;
        this.root.replaceChildren(
            element('p', { class: 'lead' }, conclusion(sides)), this.counts(sides, one.name, two.name),
            ...this.group('whole only when joined', sides.joined), ...this.group('only tap 1 has anything of it', sides.one),
            ...this.group('only tap 2 has anything of it', sides.other), ...this.group('both have it, and not the same', sides.differing),
            element('p', { class: 'quiet' }, `${counted(sides.equal, 'key is', 'keys are')} the same at both taps.`));
    }

    counts({ all }: Sides, one: string, other: string) {
        const row = (title: string, side: 'one' | 'other' | 'both') => {
            const states = all.flatMap((each) => each[side]?.state ?? []);
            return [title, number(states.length), ...['whole', 'partial', 'spoilt'].map((state) => number(states.filter((each) => each === state).length))];
        };
        return table('tables', ['table', 'keys', 'whole', 'partial', 'spoilt'],
            [row(`tap 1: ${one}`, 'one'), row(`tap 2: ${other}`, 'other'), row('the join', 'both')], (each) => each);
    }

    /** A table of keys, with what each side knows. */
    group(title: string, rows: Row[]) {
        if (!rows.length) return [];
        const cells = ({ key, one, other, both }: Row) => {
            const { source, destination, data, wide } = both.state === 'spoilt' ? one ?? other ?? both : both;
            const room = Math.max(wide, one?.wide ?? 0, other?.wide ?? 0, 1);
            const tap = this.firsts.findIndex((each) => each.has(key));
            return [tap < 0 ? key : this.app.link(key, { tap, frame: this.firsts[tap].get(key) }), source || '-', destination || '-', ...[one, other, both].map((each) => side(each, room)),
                both.state === 'whole' ? folded(data) : '-'];
        };
        return [table(title, ['key', 'from', 'to', 'tap 1', 'tap 2', 'the join', 'data'], rows, cells)];
    }
}

/** What a side knows of a key: a bar, and the words that it stands for. */
function side(key: Key | null, wide: number) {
    if (!key) return element('span', { class: 'quiet' }, 'nothing of it');
    const drawn = bar(key, wide);
    drawn.setAttribute('aria-hidden', 'true');
    return element('div', { class: `side ${key.state}` }, drawn, element('span', {}, known(key)));
}
