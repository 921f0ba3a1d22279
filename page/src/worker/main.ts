/** The worker: holds the library and the files, and answers what the page asks. */
import { load, type Nbt } from '../../../bindings/javascript/nbt.mjs';
import { LEFT_OUT } from '../model/packets.js';
import { datagramsOf } from './datagrams.js';
import { exportOf } from './export.js';
import { Reading } from './reading.js';
import { compared, handedTo, incompleteOf, listed, tableOf } from './tables.js';
import { Tap } from './tap.js';
import { utc } from '../model/times.js';

/** How many bytes the module's memory may have. */
const LIMIT = 192 << 20;

let library: Nbt;
const taps = new Map<number, Tap>();
const readings = new Map<number, Reading>();

function tapOf(number: number) {
    const tap = taps.get(number);
    if (!tap) throw new Error('no file is open');
    return tap;
}

function packetOf(tap: Tap, row: number) {
    const packet = tap.packets.at(row);
    const isLeftOut = packet.port === LEFT_OUT;
    // A line of a capture without a comment that names its frame has no ends.
    const isFrame = tap.kind === 'frames' || packet.source !== '';
    return {
        ...packet, isFrame, bytes: packet.bytes.slice(), utc: utc(packet.time),
        told: isLeftOut ? null : JSON.parse(library.json(packet.port, packet.bytes)),
        said: isLeftOut ? '' : library.brief(packet.port, packet.bytes),
    };
}

/** What the page may ask, and how that is answered. */
const answers = {
    async load({ module }: { module: ArrayBuffer }) {
        library = await load({ module, limit: LIMIT });
        return { version: library.version() };
    },

    async open({ tap: number, opened, file, name }: { tap: number, opened: number, file: Blob, name: string }) {
        const tap = new Tap(file, name, library);
        const earlier = { tap: taps.get(number), reading: readings.get(number) };
        const replace = () => earlier.reading && Object.assign(earlier.reading, { isStopped: true });
        const reading = new Reading(tap, (done) => {
            if (!tap.isRead && tap.packets.count) replace();
            if (taps.get(number) === tap) postMessage({ opened, done, size: tap.file.size, kind: tap.kind, rows: tap.batch.take(), counts: tap.counts() });
        });
        taps.set(number, tap);
        readings.set(number, reading);
        const fault = await reading.run();
        if (fault === null || tap.packets.count) {
            replace();
        } else if (earlier.tap && earlier.reading && taps.get(number) === tap) {
            taps.set(number, earlier.tap);
            readings.set(number, earlier.reading);
        }
        return { fault, kind: tap.kind, isPacked: tap.isPacked, counts: tap.counts(), first: tap.first };
    },

    close({ tap }: { tap: number }) {
        answers.stop({ tap });
        taps.delete(tap);
        readings.delete(tap);
        return {};
    },

    stop({ tap }: { tap: number }) {
        const reading = readings.get(tap);
        if (reading) reading.isStopped = true;
        return {};
    },

    packet: ({ tap, row }: { tap: number, row: number }) => packetOf(tapOf(tap), row),

    tables({ tap: number }: { tap: number }) {
        const { seen, first } = tapOf(number);
        return { tables: seen.tables(first), notKept: seen.notKept(), notes: seen.summed.notes() };
    },

    async datagrams({ tap }: { tap: number }) {
        const datagrams = await datagramsOf(tapOf(tap));
        return { tables: { datagrams: datagrams.rows(), failed: datagrams.failed.rows() }, notKept: { datagrams: datagrams.room.others, failed: datagrams.failed.room.others } };
    },

    async listed({ tap }: { tap: number }) {
        const of = tapOf(tap);
        return { lines: listed(library, await tableOf(of)), firsts: new Map(of.seen.firsts.entries.items()) };
    },

    incomplete: ({ tap }: { tap: number }) => incompleteOf(tapOf(tap)),

    handed: ({ tap, names }: { tap: number, names: string[] }) => handedTo(tapOf(tap), names),

    compared: () => compared(tapOf(0), tapOf(1)),

    async export({ tap, form }: { tap: number, form: 'json' | 'capture' | 'table' }) {
        return { blob: await exportOf(tapOf(tap), form) };
    },
};

self.onmessage = async ({ data }) => {
    const { id, what, ...asked } = data;
    try {
        const answer = Reflect.get(answers, what) as (asked: any) => any;
        postMessage({ id, answer: await answer(asked) });
    } catch (error) {
        postMessage({ id, fault: error instanceof Error ? error.message : String(error) });
    }
};
