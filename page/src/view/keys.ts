/** What is known of a key, in words. */
import { runs_missing as runsMissing } from '../made/datagrams.js';
import type { Key } from '../model/keys.js';
import { counted } from './dom.js';

/** What is known of a key, in words. */
export function known(key: Key) {
    if (key.state === 'spoilt') return 'its fragments contradict each other';
    if (key.state === 'whole') return key.held ? `all of its ${counted(key.held, 'byte')}` : 'whole, without a byte';
    return `${key.end === null ? counted(key.held, 'byte') : `${key.held} of ${counted(key.end, 'byte')}`}; ${missing(key)}`;
}

/** What is missing of a key that is partial. */
function missing({ places, end }: Key) {
    return `missing ${runsMissing(places, end).map(span).join(', ')}${end === null ? "; its length isn't known" : ''}`;
}

/** @param run of bytes; null where it has no end */
function span({ from, bytes }: { from: number, bytes: number | null }) {
    if (bytes === null) return from ? `what follows byte ${from - 1}` : 'all of them';
    return bytes === 1 ? `byte ${from}` : `bytes ${from} to ${from + bytes - 1}`;
}
