/** Elements. Texts are set as text: nothing that stands in a file is ever read as HTML. */

/** An element with attributes and children.
 * @param attributes null and false leave one out, true gives it no value */
export function element<T extends keyof HTMLElementTagNameMap>(
    tag: T, attributes: Record<string, string | number | boolean | null> = {}, ...children: (Node | string)[]
): HTMLElementTagNameMap[T] {
    const made = document.createElement(tag);
    for (const [name, value] of Object.entries(attributes)) {
        if (value !== null && value !== false) made.setAttribute(name, value === true ? '' : String(value));
    }
    made.append(...children);
    return made;
}

/** The element of the page with this name, and of this kind. */
export function byId<T extends HTMLElement>(id: string, kind: new () => T): T {
    const found = document.getElementById(id);
    if (found instanceof kind) return found;
    throw new Error(`the page lacks ${id}`);
}

/** Sets a text where it differs, so that what is selected stays selected. */
export function say(node: Node, text: string) {
    if (node.textContent !== text) node.textContent = text;
}

/** A text whose words between backquotes are code. */
export function withCode(text: string) {
    return text.split('`').map((part, at) => (at % 2 ? element('code', {}, part) : part));
}

/** A table, of which only the first rows are made until more are wanted.
 * @param cells of a row
 * @param kind the class of a row */
export function table<T>(title: string, head: string[], rows: T[], cells: (row: T) => (Node | string)[], kind: (row: T) => string = () => '') {
    const body = element('tbody');
    const made = element('table', {}, element('caption', {}, title),
        element('thead', {}, element('tr', {}, ...head.map((each) => element('th', { scope: 'col' }, each)))), body);
    const scroller = element('div', { class: 'table', tabindex: 0, role: 'region', 'aria-label': title }, made);
    const more = element('button', { type: 'button' });
    const show = (count: number) => {
        for (const row of rows.slice(body.rows.length, count)) {
            body.append(element('tr', { class: kind(row) || null }, ...cells(row).map((cell, place) => element('td', { 'data-column': head[place] }, cell))));
        }
        more.hidden = count >= rows.length;
        more.textContent = `Show ${number(Math.min(MORE_ROWS, rows.length - count))} more of ${number(rows.length)} rows`;
    };
    more.addEventListener('click', () => show(body.rows.length + MORE_ROWS));
    show(MOST_ROWS);
    return element('section', {}, scroller, more);
}

/** How many rows are made at first, and at each click. */
const [MOST_ROWS, MORE_ROWS] = [400, 4_000];

/** A number with a space between thousands, and the word after it. */
export function counted(count: number, one: string, many: string = `${one}s`) {
    return `${number(count)} ${count === 1 ? one : many}`;
}

export function number(count: number) {
    return String(count).replace(/\B(?=(\d{3})+$)/g, ',');
}
