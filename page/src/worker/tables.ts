/** Datagrams put together, by the library: the table of a file, what it lists, and what a station with chosen names is handed. */
import type { Delivery, Nbt } from '../../../bindings/javascript/nbt.mjs';
import { digitsOf } from '../containers/digits.js';
import { MOST_KEYS, PORT } from '../made/vocabulary.js';
import { keyText } from '../model/keys.js';
import { MALFORMED, taken, throughStation } from './station.js';
import type { Tap } from './tap.js';

const MOST_DELIVERIES = 10_000;

/** A datagram that a station is handed: by which frame or line, and when. */
export interface Handed {
    row: number | null;
    moment: string; // milliseconds
    key: string; source: string; destination: string;
    data: string; // digits
}

/** The table of all of a file, whatever time its fragments took. */
export async function tableOf(tap: Tap): Promise<Uint8Array> {
    if (tap.table) return tap.table;
    const table = await throughStation(tap, [], (station, line) => {
        if (line.kind === 'payload' && line.port === PORT.DATAGRAMS) taken(station, 0n, line.bytes, MALFORMED);
    }, (station) => station.save());
    if (tap.isRead) tap.table = table;
    return table;
}

/** What a station with these names is handed of a file. */
export async function handedTo(tap: Tap, names: string[]): Promise<{ handed: Handed[], more: number }> {
    const handed: Handed[] = [];
    let more = 0;
    return throughStation(tap, names, (station, line) => {
        if (line.kind === 'tick') station.tick(BigInt(line.moment));
        if (line.kind !== 'payload' || line.port !== PORT.DATAGRAMS) return;
        const { delivery } = taken(station, BigInt(line.moment), line.bytes);
        if (delivery && handed.length === MOST_DELIVERIES) more += 1;
        else if (delivery) handed.push(described(delivery, line.row, line.moment));
    }, () => ({ handed, more }));
}

function described(delivery: Delivery, row: number | null, moment: number | bigint): Handed {
    const { source, destination, data } = delivery;
    return { row, moment: String(moment), key: keyText(delivery), source, destination, data: digitsOf(data) };
}

/** What the library lists of a table: a line a key. */
export function listed(library: Nbt, table: Uint8Array) {
    return library.list(table).split('\n').slice(0, -1);
}

/** How many keys of a file lack a piece. */
export async function incompleteOf(tap: Tap) {
    if (!tap.table && !tap.seen.firsts.entries.size) return 0;
    return listed(tap.library, await tableOf(tap)).filter((line) => line.split(' ', 2)[1] === 'partial').length;
}

/** What two tables list, and their join; and the frames in which keys came first. */
export async function compared(one: Tap, other: Tap) {
    const tables = [await tableOf(one), await tableOf(other)];
    const joined = one.library.merge(tables[0], tables[1], { keys: MOST_KEYS });
    const [first, second, both] = [...tables, joined].map((table) => listed(one.library, table));
    return { first, second, both, firsts: [one, other].map((tap) => new Map(tap.seen.firsts.entries.items())) };
}
