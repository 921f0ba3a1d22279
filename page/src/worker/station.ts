/** Stations of the library over the lines of a tap. */
import type { Station } from '../../../bindings/javascript/nbt.mjs';
import { MOST_KEYS } from '../made/vocabulary.js';
import type { CaptureLine } from '../model/capture.js';
import { pause } from './pause.js';
import type { Tap } from './tap.js';

/** How many lines are looked at before the worker looks whether something is wanted of it. */
const PART = 256;

/** Why a station doesn't take a fragment: for what stands in it, or also for keys that there are. */
export const MALFORMED = ['MISPLACED_FIRST', 'LONG'];
const REFUSED = [...MALFORMED, 'FULL', 'FULL_SOURCE'];

/** Hands the lines of a tap to what uses a station with these names, and answers what comes of that at the end. */
export async function throughStation<T>(
    tap: Tap, names: string[], take: (station: Station, line: CaptureLine) => void, end: (station: Station) => T,
): Promise<T> {
    const station = new tap.library.Station(names, '0.0.0.0', { keys: MOST_KEYS });
    let count = 0;
    try {
        for (const line of tap.capture()) {
            take(station, line);
            count += 1;
            if (count % PART === 0) await pause();
        }
        return end(station);
    } finally {
        station.close();
    }
}

/** What becomes of a payload at a station: what that answers, or the words with which it refuses it by one of these statuses. */
export function taken(station: Station, moment: bigint, bytes: Uint8Array, statuses = REFUSED) {
    try {
        return { ...station.take(moment, bytes), refused: null };
    } catch (fault) {
        if (!statuses.includes(Reflect.get(Object(fault), 'status'))) throw fault;
        return { outcome: '', delivery: null, refused: (fault as Error).message };
    }
}
