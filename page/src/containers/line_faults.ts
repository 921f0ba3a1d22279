/** What is wrong with a line that no capture has, in words. */

const FIRST = ['137', '138', '139', 'tick'];
const MOST_SHOWN = 24;

/** What a line has to be. */
export const FORM = 'A line has a port, a millisecond and bytes in hexadecimal, as 137 0 000301100001';

export function faultOf(text: string): string {
    if (text.endsWith('\r')) return 'it ends in a carriage return, and a line feed alone is wanted';
    if (/^\s*(?:[0-9a-fA-F]{2}[\s:]*){4,}$/.test(text)) return 'it has bytes alone, and a port and a millisecond are wanted before them';
    const [first, moment, ...rest] = text.split(' ');
    if (!FIRST.includes(first)) return `it begins with ${quoted(first)}, and not with 137, 138, 139, tick or #`;
    if (!moment) return `a millisecond and one space before it are wanted after ${first}`;
    if (!/^[0-9]{1,20}$/.test(moment) || BigInt(moment) >= 2n ** 64n) return `${quoted(moment)} is no millisecond`;
    if (first === 'tick') return 'something follows its millisecond';
    return bytesFault(rest);
}

/** @param words what follows the millisecond */
function bytesFault([digits, ...more]: string[]) {
    if (!digits) return 'its bytes are missing: of none the word is empty';
    if (more.length) return 'there is a space between its bytes, or after them';
    const other = /[^0-9a-fA-F]/.exec(digits);
    return other ? `${quoted(other[0])} stands in its bytes, and is no hexadecimal digit` : 'its bytes have an odd number of digits';
}

function quoted(text: string) {
    const plain = text.replace(/[^\x20-\x7e]/g, '.');
    return `“${plain.length > MOST_SHOWN ? `${plain.slice(0, MOST_SHOWN)}..` : plain}”`;
}
