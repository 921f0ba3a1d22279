/** A payload's bytes, sixteen a row, with the one marked at which a fault stands. */
import { DIGITS, printable } from '../containers/digits.js';
import { element } from './dom.js';

const ROW = 16;
/** Where in a row's line its digits begin, and its text. */
const [IN_DIGITS, IN_TEXT] = [6, 6 + 3 * ROW + 3];
/** How many bytes are shown until all are wanted. */
const MOST = 4_096;

export function dumpOf(bytes: Uint8Array, mark: number | null) {
    const pre = element('pre', { class: 'dump', tabindex: 0, role: 'region', 'aria-label': 'Bytes in hexadecimal' });
    const isLong = bytes.length > MOST;
    const start = isLong && mark !== null ? Math.max(0, mark - (mark % ROW) - MOST / 2) : 0;
    const show = (from: number, to: number) => pre.replaceChildren(...rowsOf(bytes, from, to, mark));
    show(start, isLong ? start + MOST : bytes.length);
    if (!isLong) return [pre];
    const all = element('button', { type: 'button' }, `Show all ${bytes.length} bytes`);
    all.addEventListener('click', () => {
        show(0, bytes.length);
        all.remove();
    });
    return [pre, all];
}

function rowsOf(bytes: Uint8Array, from: number, to: number, mark: number | null) {
    const parts: (Node | string)[] = [];
    let text = '';
    const end = Math.min(to, bytes.length) + Number(mark === bytes.length && to >= bytes.length);
    for (let at = from; at < Math.max(end, 1); at += ROW) {
        const row = bytes.subarray(at, Math.min(at + ROW, to));
        text += `${at.toString(16).padStart(5, '0')} ${digits(row).padEnd(3 * ROW + 1)}  ${printable(row)}\n`;
        if (mark === null || mark < at || mark >= at + ROW) continue;
        const line = text.lastIndexOf('\n', text.length - 2) + 1;
        parts.push(text.slice(0, line), ...marked(text.slice(line), mark, mark - at, row.length));
        text = '';
    }
    return [...parts, text];
}

/** The line of a row of so many bytes with the marked one; where that is the place after the last byte, a space is marked. */
function marked(line: string, mark: number, place: number, size: number) {
    const isByte = place < size;
    const at = IN_DIGITS + 3 * place + 1 + Number(place >= ROW / 2);
    const words = isByte ? `the byte of the fault, ${mark}` : `the place of the fault, ${mark}, after the last byte`;
    const text = IN_TEXT + place;
    return [
        line.slice(0, at), element('mark', { title: words }, line.slice(at, at + 2)), line.slice(at + 2, text),
        ...(isByte ? [element('mark', { 'aria-hidden': 'true' }, line[text])] : []), line.slice(text + Number(isByte)),
    ];
}

/** Two digits a byte, each after a space, and one space more in the middle of a row. */
function digits(row: Uint8Array) {
    return Array.from(row, (each, at) => `${at === ROW / 2 ? '  ' : ' '}${DIGITS[each]}`).join('');
}
