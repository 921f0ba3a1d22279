/** The packets' view: a table, a filter with counts, and all of the selected packet. */
import { NO_TIME } from '../model/packets.js';
import { since } from '../model/times.js';
import type { App } from './app.js';
import { byId, counted, element, number, say } from './dom.js';
import { Filter } from './filter.js';
import { Grid } from './grid.js';
import { hintOf } from './hint.js';
import type { Rows } from './rows.js';

const HEADINGS = [
    { name: 'frame', title: 'The number of the frame' }, { name: 'time', title: 'Seconds since the first frame' },
    { name: 'from', title: 'Who sent it; a port where it is not the service\'s own' }, { name: 'to', title: 'To whom' },
    { name: 'port', title: '137 names, 138 datagrams, 139 sessions' }, { name: 'says', title: 'What it says, in words' },
];
const MOST_PRINTED = 2_000;
/** How often the counts of what can be chosen are drawn while rows come, in milliseconds. */
const OFFERING = 2_000;

export class PacketsView {
    words = byId('words', HTMLInputElement);
    hint = byId('hint', HTMLElement);
    selects = { kind: byId('kind', HTMLSelectElement), sender: byId('sender', HTMLSelectElement), reason: byId('reason', HTMLSelectElement) };
    grid = new Grid(byId('grid', HTMLElement), HEADINGS, {
        count: () => this.rows?.shown.length ?? 0, row: (at) => this.row(at), select: (at) => this.chosen(at),
    });
    rows: Rows | null = null;
    selected = -1;
    offered = 0;

    constructor(public app: App) {
        this.words.addEventListener('input', () => this.refilter());
        this.words.form?.addEventListener('submit', (event) => event.preventDefault());
        this.words.addEventListener('keydown', (event) => this.key(event));
        for (const each of Object.values(this.selects)) each.addEventListener('change', () => this.refilter());
        addEventListener('beforeprint', () => this.print());
        addEventListener('afterprint', () => byId('printed', HTMLElement).replaceChildren());
    }

    key(event: KeyboardEvent) {
        if (event.key !== 'Escape' && event.key !== 'ArrowDown') return;
        event.preventDefault();
        if (event.key === 'Escape' && this.words.value) {
            this.words.value = '';
            this.refilter();
        }
        byId('grid', HTMLElement).focus();
    }

    /** A row of those that are shown. */
    row(at: number) {
        const rows = this.rows as Rows;
        const row = rows.shown.at(at);
        const time = rows.time.at(row);
        const port = rows.port.at(row);
        const cells = [
            String(rows.frame.at(row)), since(time === NO_TIME ? null : time, this.app.tap?.first ?? null), rows.text('source', row),
            rows.text('destination', row), port ? String(port) : '', rows.said[row],
        ];
        const kinds = rows.text('kinds', row).split(' ');
        return { cells, kind: ['malformed', 'left-out', 'conflict'].find((each) => kinds.includes(each)) ?? '' };
    }

    /** Shows the rows of another file. */
    show() {
        this.rows = this.app.tap?.rows ?? null;
        this.selected = -1;
        this.grid.scroller.scrollTop = 0;
        this.grid.rename(0, this.app.unit);
        this.grid.mark(-1);
        this.app.panel.clear();
        this.words.value = this.app.place.filter;
        for (const each of Object.values(this.selects)) each.value = '';
        this.refilter();
    }

    /** Shows rows that have come. */
    more() {
        this.grid.rename(0, this.app.unit);
        this.grid.draw();
        this.count();
        if (performance.now() - this.offered > OFFERING) this.offer();
    }

    filter() {
        const { kind, sender, reason } = this.selects;
        const filter = new Filter({ words: this.words.value, kind: kind.value, sender: sender.value, reason: reason.value });
        return filter.isAll ? null : filter;
    }

    async refilter() {
        const { rows } = this;
        this.app.keep({ filter: this.words.value });
        if (!rows) return;
        await rows.choose(this.filter(), () => {
            this.mark(rows, this.selected);
            this.count();
            this.offer();
        });
    }

    count() {
        const { rows } = this;
        const all = rows?.count ?? 0;
        const shown = rows?.shown.length ?? 0;
        say(byId('shown', HTMLElement), shown === all ? counted(all, 'row') : `${number(shown)} of ${counted(all, 'row')}`);
        this.advise(all > 0 && shown === 0 ? this.words.value : null);
        this.tellUnread();
    }

    /** Says of which frames nothing is shown, since this page doesn't read them. */
    tellUnread() {
        const unread = this.app.tap?.counts.unread;
        const line = byId('unread', HTMLElement);
        line.hidden = !unread?.frames;
        if (unread?.frames) say(line, `${counted(unread.frames, 'frame')} of what this page doesn't read: ${unread.whys.join(', ')}. nbt-look-tshark reads them.`);
    }

    /** Says what the box takes, where no row fits.
     * @param words null where some fit */
    advise(words: string | null) {
        this.hint.hidden = words === null;
        if (words === null || this.hint.dataset.words === words) return;
        this.hint.dataset.words = words;
        const { text, instead } = hintOf(words);
        const button = element('button', { type: 'button' }, `Filter by ${instead}`);
        button.addEventListener('click', () => {
            this.words.value = instead;
            this.words.focus();
            this.refilter();
        });
        this.hint.replaceChildren(text, ...(instead ? [' ', button] : []));
    }

    /** Offers what can be chosen, with counts. */
    offer() {
        const { rows, selects } = this;
        if (!rows) return;
        this.offered = performance.now();
        const offers = [['kind', 'kinds', 'Every kind'], ['sender', 'sender', 'Every sender'],
            ['reason', 'reason', 'Every reason']] as const;
        for (const [name, column, all] of offers) {
            const select = selects[name];
            if (document.activeElement === select) continue;
            const counts = rows.countsOf(column).slice(0, 500);
            const signature = JSON.stringify(counts);
            if (select.dataset.counts === signature) continue;
            const chosen = select.value;
            select.dataset.counts = signature;
            select.replaceChildren(element('option', { value: '' }, all),
                ...counts.map(([text, count]) => element('option', { value: text }, `${text} (${number(count)})`)));
            select.value = chosen;
            if (select.value !== chosen) select.value = '';
        }
    }

    /** @param at a place among the rows that are shown */
    chosen(at: number) {
        const rows = this.rows as Rows;
        this.app.panel.tellHidden(false);
        this.open(rows.shown.at(at));
    }

    /** Selects a frame's packet, which the filter may leave out. */
    async select(frame: number, packet: number) {
        const row = this.rows?.find(frame, packet) ?? -1;
        if (!this.rows || row < 0 || row === this.selected) return;
        this.mark(this.rows, row);
        await this.open(row);
    }

    /** Marks the selected row in the list, or says that the list hasn't got it.
     * @param row -1 for none */
    mark(rows: Rows, row: number) {
        const at = row < 0 ? -1 : rows.shown.room.subarray(0, rows.shown.length).indexOf(row);
        this.grid.mark(at);
        this.app.panel.tellHidden(row >= 0 && at < 0);
    }

    async open(row: number) {
        const { app, rows } = this;
        if (!rows) return;
        this.selected = row;
        app.keep({ frame: rows.frame.at(row), packet: rows.packetNumber(row) });
        const packet = await app.ask('packet', { row });
        if (packet && this.selected === row && this.rows === rows) app.panel.show(packet, app.tap?.first ?? null, rows.said[row]);
    }

    /** Puts rows into the page that paper can have: those that are in sight are no table. */
    print() {
        const { rows } = this;
        if (!rows || this.app.place.view !== 'packets') return;
        const count = Math.min(rows.shown.length, MOST_PRINTED);
        const lines = Array.from({ length: count }, (_, at) => element('tr', {}, ...this.row(at).cells.map((cell) => element('td', {}, cell))));
        const rest = rows.shown.length - count;
        byId('printed', HTMLElement).replaceChildren(
            element('table', {}, element('thead', {}, element('tr', {}, ...[this.app.unit, ...HEADINGS.slice(1).map(({ name }) => name)].map((each) => element('th', {}, each)))), element('tbody', {}, ...lines)),
            ...(rest > 0 ? [element('p', {}, `and ${counted(rest, 'row')} more, which a filter makes fewer`)] : []));
    }
}
