/** A datagram as it is known: a bar of its places, and its data as text, with the bytes folded away. */
import { bytesOf, printable } from '../containers/digits.js';
import type { Key } from '../model/keys.js';
import { counted, element } from './dom.js';
import { known } from './keys.js';

const MOST_SHOWN = 48;

/** The places of a datagram as a bar: what is known, gaps, and an open end.
 * @param wide how many bytes all of the bar stands for */
export function bar(key: Key, wide: number = key.wide) {
    const words = known(key);
    const made = element('span', { class: `bar ${key.state}${key.end === null ? ' open' : ''}`, role: 'img', 'aria-label': words, title: words });
    for (const [from, to] of key.places) {
        const part = element('span');
        part.style.left = `${(100 * from) / wide}%`;
        part.style.width = `${(100 * (to - from)) / wide}%`;
        made.append(part);
    }
    return made;
}

/** Data as text, with its bytes to be unfolded. */
export function folded(digits: string) {
    if (!digits) return 'no bytes';
    const bytes = element('code');
    const made = element('details', {}, element('summary', {}, preview(digits)), element('p', {}, `${counted(digits.length / 2, 'byte')}: `, bytes));
    made.addEventListener('toggle', () => {
        bytes.textContent = digits;
    });
    return made;
}

/** The first bytes of data as text. */
export function preview(digits: string) {
    const text = printable(bytesOf(digits.slice(0, 2 * MOST_SHOWN)));
    return digits.length > 2 * MOST_SHOWN ? `${text}..` : text;
}
