/** What stands of a packet that the snap length cut, or that the library refuses to read: as far as its header, names and records are whole. */

import type { Nbt } from '../../../bindings/javascript/nbt.mjs';
import { DATAGRAM_TYPE, PIECES, PORT, SECTIONS } from '../made/vocabulary.js';
import { keyText } from './keys.js';

/** Of port 137 the header, with its first four bytes, and what follows the name of a question. RFC 1002 section 4.2.1. */
const HEADER = 12;
const ID_AND_WORD = 4;
const TYPE_AND_CLASS = 4;
const CLASS = 2;
const ONE_QUESTION = [0, 1, 0, 0, 0, 0, 0, 0];

/** An object of JSON, as far as the page looks at it: the members are those of docs/FORMATS.md, "JSON". */
export type Question = { name: string, type: string };
export interface Told {
    kind?: string; key?: string; source?: string; destination?: string;
    brief?: string; refused?: string; at?: number;
    questions?: Question[]; answers?: unknown[]; authorities?: unknown[]; additional?: unknown[];
    cut?: boolean; // the snap length cut it, and this is what stands
    about?: { name: string, type?: string }; // the first name of a front in which no question or record stands whole
}
/** What it is read by. */
export type Reader = Pick<Nbt, 'json' | 'readServiceFront' | 'readDatagramFront'>;

/** The members that stand of a payload of port 137; none where its header doesn't stand. */
export function serviceFront(library: Reader, bytes: Uint8Array): Told {
    if (bytes.length < HEADER) return {};
    const { counts, questions, records } = library.readServiceFront(bytes);
    const told: Told = JSON.parse(library.json(PORT.NAMES, withItems(bytes, counts, questions.length + records.length)));
    if (!SECTIONS.some((section) => Reflect.get(told, section)?.length)) Object.assign(told, aboutOf(library, bytes));
    return told;
}

/** A packet whose header says that it has so many items. */
function withItems(bytes: Uint8Array, counts: number[], items: number) {
    const made = bytes.slice();
    let left = items;
    for (const [section, count] of counts.entries()) {
        const kept = Math.min(count, left);
        made.set([kept >> 8, kept & 255], ID_AND_WORD + 2 * section);
        left -= kept;
    }
    return made;
}

/** The name of the first question or record, and its type, as far as they stand: both stand alike in a question, as which it is read. What is
 * missing of the type and class is filled up. */
function aboutOf(library: Reader, bytes: Uint8Array): Told {
    let end = HEADER;
    while (end < bytes.length && bytes[end]) end += 1 + bytes[end];
    const missing = end < bytes.length ? Math.max(end + 1 + TYPE_AND_CLASS - bytes.length, 0) : 0;
    const made = Uint8Array.from([...bytes.subarray(0, ID_AND_WORD), ...ONE_QUESTION, ...bytes.subarray(HEADER), ...new Array(missing).fill(0)]);
    const { questions } = JSON.parse(library.json(PORT.NAMES, made)) as Told;
    if (!questions?.length) return {};
    const [{ name, type }] = questions;
    return { about: missing > CLASS ? { name } : { name, type } };
}

/** The names that stand of a payload of port 138, and the key and the kind of a datagram. */
export function datagramFront(library: Reader, bytes: Uint8Array): Told {
    const front = frontIn(library, bytes);
    const kind = front && PIECES[front.type - DATAGRAM_TYPE.UNIQUE];
    if (!front || !kind) return {};
    return { kind, key: keyText(front), ...(front.source !== null && { source: front.source }), ...(front.destination !== null && { destination: front.destination }) };
}

function frontIn(library: Reader, bytes: Uint8Array) {
    try {
        return library.readDatagramFront(bytes);
    } catch (error) {
        // Not even its header stands.
        if (typeof Reflect.get(Object(error), 'status') === 'string') return null;
        throw error;
    }
}
