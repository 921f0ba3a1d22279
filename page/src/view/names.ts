/** The names' view: the tables of a summary, which say what was said, by whom and in which frame (docs/SUMMARY.md). */
import type { App } from './app.js';
import { byId, counted, element, table } from './dom.js';
import { MARK, TABLES, headOf, shownAs } from './tables.js';

/** Columns of which a value leads to the packets with it; those of frames; and a frame in words. */
const FILTERS = ['name', 'calling', 'called', 'address', 'from', 'to', 'by', 'asked'];
const FRAMES = ['frame', 'told_frame', 'first', 'last'];
const FRAME = /frame (\d+)/;
/** What a mark before a row says, by the table. */
const MARKED = { names: 'The latest word isn\'t that the address has the name', several: 'Stations with several MACs say that they have the name' };

export class NamesView {
    root = byId('view-names', HTMLElement);
    asked = 0;

    constructor(public app: App) {}

    async show() {
        const { app } = this;
        if (app.tap?.kind === 'table') {
            this.root.replaceChildren(element('p', { class: 'quiet' }, 'A saved table has datagrams alone: see Reassembly.'));
            return;
        }
        this.asked += 1;
        const { asked } = this;
        this.root.setAttribute('aria-busy', 'true');
        const answer = await app.ask('tables');
        if (answer && asked === this.asked) this.draw(answer);
        // What becomes of datagrams takes longer.
        const more = answer && asked === this.asked ? await app.ask('datagrams') : null;
        if (asked !== this.asked) return;
        this.root.removeAttribute('aria-busy');
        if (more) this.draw({ ...answer, tables: { ...answer.tables, ...more.tables }, notKept: { ...answer.notKept, ...more.notKept } });
    }

    /** Draws the tables that there are, and the notes below them. */
    draw({ tables, notKept, notes }: { tables: Record<string, any[]>, notKept: Record<string, number>, notes: string[] }) {
        const quiet = (text: string) => element('p', { class: 'quiet' }, text);
        const refused = new Set(tables.refusals.map(({ name }) => name)).size;
        const lead = refused ? `There are refusals of ${counted(refused, 'name')}.` : 'There are no refusals.';
        this.root.replaceChildren(element('p', { class: 'lead' }, lead), ...TABLES.flatMap(({ key, title, columns }) => [
            ...(tables[key]?.length ? [this.table(title, columns, tables[key])] : []),
            ...(notKept[key] ? [quiet(`and ${counted(notKept[key], 'packet')} of more than are kept`)] : []),
        ]), ...notes.map(quiet));
    }

    table(title: string, columns: string[], rows: any[]) {
        const head = columns.map((each) => (headOf(each) === 'frame' ? this.app.unit : headOf(each)));
        const cells = (row: any) => columns.map((column) => {
            const cell = this.cell(title, row, column);
            return row.marked && column === 'name' ? element('span', {}, element('b', { class: 'mark', title: Reflect.get(MARKED, title) }, MARK), cell) : cell;
        });
        return table(title, head, rows, cells, () => (title === 'malformed' ? 'bad' : ''));
    }

    cell(title: string, row: any, column: string): Node | string {
        const { app } = this;
        const value = row[column];
        const text = shownAs(title, row, column);
        if (value === null) return text;
        if (FRAMES.includes(column)) return app.link(text, { frame: Number(value) });
        if (column === 'frames' && Array.isArray(value)) return this.frames(value);
        if (column === 'answered') return this.withFrame(text);
        if (column === 'reason' && row.address === undefined) return app.link(text, { filter: row.frames === undefined ? 'malformed' : 'left-out' });
        return FILTERS.includes(column) ? app.link(text, { filter: value }) : text;
    }

    frames(frames: number[]) {
        return element('span', {}, ...frames.flatMap((each, at) => [...(at ? [', '] : []), this.app.link(String(each), { frame: each })]));
    }

    /** A text in which a frame leads to its packet. */
    withFrame(text: string) {
        const parts = text.split(FRAME).map((part, at) => (at % 2 ? this.app.link(`${this.app.unit} ${part}`, { frame: Number(part) }) : part));
        return element('span', {}, ...parts);
    }
}
