/** Addresses of IP as text: IPv4 with dots, IPv6 as RFC 5952 writes it, with dots where it holds one of IPv4. */
import { word } from './link.js';

/** @param at where its four stand */
export function address4(bytes: Uint8Array, at: number) {
    return `${bytes[at]}.${bytes[at + 1]}.${bytes[at + 2]}.${bytes[at + 3]}`;
}

/** @param bytes sixteen of them */
export function address6(bytes: Uint8Array) {
    const words = Array.from({ length: 8 }, (_, at) => word(bytes, 2 * at));
    const [start, count] = longestZeros(words);
    if (start === 0 && count === 6) return `::${address4(bytes, 12)}`;
    if (start === 0 && count === 5 && words[5] === 0xffff) return `::ffff:${address4(bytes, 12)}`;
    const texts = words.map((each) => each.toString(16));
    if (count < 2) return texts.join(':');
    return `${texts.slice(0, start).join(':')}::${texts.slice(start + count).join(':')}`;
}

/** Where the first of the longest rows of zeros begins, and how many there are. */
function longestZeros(words: number[]) {
    let [start, count] = [0, 0];
    for (let at = 0; at < words.length; at++) {
        const end = words.findIndex((each, index) => index >= at && each !== 0);
        const zeros = (end < 0 ? words.length : end) - at;
        if (zeros > count) [start, count] = [at, zeros];
    }
    return [start, count];
}
