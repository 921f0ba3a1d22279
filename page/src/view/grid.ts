/** A table of any number of rows, of which those are in the page that are in sight. */
import { element } from './dom.js';

/** How high a row is, by the size of the page's letters, as style.css has it. */
const HEIGHT = 1.5;
/** No engine lets an element be as high as millions of rows: past this the place of the bar stands for a part of them. */
const MOST_HIGH = 8_000_000;

/** A column: its name, and what stands in it. */
export type Heading = { name: string, title: string };
export interface Source {
    count: () => number; row: (at: number) => { cells: string[], kind: string };
    select: (at: number) => void;
}

export class Grid {
    selected = -1;
    isDrawing = false;
    height = heightOfRow();
    pool: HTMLElement[] = [];
    head = element('div', { role: 'row', class: 'row head', 'aria-rowindex': 1 },
        ...this.headings.map(({ name, title }) => element('span', { role: 'columnheader', class: name, title }, name)));
    size = element('div', { class: 'size', role: 'presentation' });
    sight = element('div', { class: 'sight', role: 'rowgroup' });
    scroller = element('div', { class: 'scroller', role: 'presentation', tabindex: -1 }, this.size, this.sight);

    constructor(public root: HTMLElement, public headings: Heading[], public source: Source) {
        root.append(element('div', { role: 'rowgroup', class: 'heads' }, this.head), this.scroller);
        this.scroller.addEventListener('scroll', () => this.draw());
        new ResizeObserver(() => this.draw()).observe(this.scroller);
        this.sight.addEventListener('click', (event) => this.click(event));
        root.addEventListener('keydown', (event) => this.key(event));
    }

    /** Heads a column with another word. */
    rename(place: number, word: string) {
        const heading = this.head.children[place];
        if (heading.textContent === word) return;
        heading.textContent = word;
        heading.setAttribute('title', `The number of the ${word}`);
    }

    /** How many rows are in sight. */
    get fitting() {
        return Math.max(1, Math.floor(this.scroller.clientHeight / this.height));
    }

    get high() {
        return Math.min(this.source.count() * this.height, MOST_HIGH);
    }

    /** The first row in sight, and how much of it is above. */
    get first() {
        const count = this.source.count();
        const most = Math.max(0, count - this.fitting);
        const way = Math.max(1, this.high - this.scroller.clientHeight);
        const at = count * this.height > MOST_HIGH ? (this.scroller.scrollTop / way) * most : this.scroller.scrollTop / this.height;
        return Math.min(Math.max(0, at), most);
    }

    /** Draws once before the next picture, however often it is called. */
    draw() {
        if (this.isDrawing) return;
        this.isDrawing = true;
        requestAnimationFrame(() => {
            this.isDrawing = false;
            this.drawNow();
        });
    }

    drawNow() {
        this.height = heightOfRow();
        const count = this.source.count();
        this.root.setAttribute('aria-rowcount', String(count + 1));
        this.size.style.height = `${this.high}px`;
        const first = Math.floor(this.first);
        const shown = Math.min(this.fitting + 2, count - first);
        while (this.pool.length < shown) this.pool.push(this.made());
        this.sight.style.transform = `translateY(${this.scroller.scrollTop - (this.first - first) * this.height}px)`;
        for (const [at, row] of this.pool.entries()) this.fill(row, at < shown ? first + at : -1);
        const active = this.selected >= first && this.selected < first + shown ? `row${this.selected}` : '';
        if (active) this.root.setAttribute('aria-activedescendant', active);
        else this.root.removeAttribute('aria-activedescendant');
    }

    made() {
        const row = element('div', { role: 'row', class: 'row' },
            ...this.headings.map(({ name }) => element('span', { role: 'gridcell', class: name })));
        this.sight.append(row);
        return row;
    }

    fill(element: HTMLElement, at: number) {
        element.hidden = at < 0;
        if (at < 0) {
            element.removeAttribute('id');
            return;
        }
        const { cells, kind } = this.source.row(at);
        const isSelected = at === this.selected;
        element.id = `row${at}`;
        element.dataset.at = String(at);
        element.className = `row ${kind}${isSelected ? ' selected' : ''}`;
        element.setAttribute('aria-rowindex', String(at + 2));
        element.setAttribute('aria-selected', String(isSelected));
        for (const [place, text] of cells.entries()) name(element.children[place], text);
    }

    click(event: MouseEvent) {
        const row = event.target instanceof Element ? event.target.closest('.row') : null;
        if (!(row instanceof HTMLElement) || row.dataset.at === undefined) return;
        this.select(Number(row.dataset.at));
        if (!getSelection()?.toString()) this.root.focus({ preventScroll: true });
    }

    key(event: KeyboardEvent) {
        if (event.ctrlKey || event.altKey || event.metaKey) return;
        const last = this.source.count() - 1;
        const places: Record<string, number> = {
            ArrowUp: this.selected < 0 ? last : this.selected - 1, ArrowDown: this.selected + 1, Home: 0, End: last,
            PageUp: this.selected - this.fitting, PageDown: this.selected + this.fitting,
        };
        if (!(event.key in places) || last < 0) return;
        event.preventDefault();
        this.select(Math.min(Math.max(0, places[event.key]), last));
    }

    select(at: number) {
        this.mark(at);
        this.source.select(at);
    }

    /** Marks a row, and brings it in sight.
     * @param at -1 for none */
    mark(at: number) {
        this.selected = at;
        const first = this.first;
        if (at >= 0 && (at < first || at > first + this.fitting - 1)) {
            const count = this.source.count();
            const most = Math.max(1, count - this.fitting);
            const wanted = Math.min(most, Math.max(0, at < first ? at : at - this.fitting + 1));
            const way = this.high - this.scroller.clientHeight;
            this.scroller.scrollTop = count * this.height > MOST_HIGH ? (wanted / most) * way : wanted * this.height;
        }
        this.draw();
    }
}

/** In pixels. */
function heightOfRow() {
    return HEIGHT * parseFloat(getComputedStyle(document.documentElement).fontSize);
}

/** A name as the library writes it: FRED<20>, FRED<20>.NETBIOS.COM. */
const NAME = /([^\s,:<>]+<[0-9a-f]{2}>(?:\.[^\s,:]+)?)/;

/** Sets the text of a cell where it differs, with the names in it in bold. */
function name(cell: Element, text: string) {
    if (cell.textContent === text) return;
    if (!text.includes('<')) cell.textContent = text;
    else cell.replaceChildren(...text.split(NAME).map((part, at) => (at % 2 ? element('b', {}, part) : part)));
}
