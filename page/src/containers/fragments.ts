/** Fragments of IP, put together where all of a packet came within 60 seconds (RFC 8200 section 4.5) and none contradicts another. */
import { FRAGMENTS_CUT, FRAGMENTS_MISSING, FRAGMENTS_UNKNOWN } from '../made/reasons.js';
import type { Internet } from './internet.js';
import type { Mark, Report } from './report.js';

const TIMER = 60_000_000_000n;
/** How many packets wait for fragments at a time, and how many bytes of them. */
const MOST_WAITING = 4_096;
const MOST_HELD = 64 << 20;
const MOST_PACKET = 65_535;
/** A packet of more fragments never comes together. */
const MOST_PARTS = 8_192;
const DIFFER = 'its fragments differ where they overlap';

export type Part = { offset: number, bytes: Uint8Array };
export interface Waiting {
    first: bigint | null; // when the first fragment came of which the file has all
    last: bigint | null; marks: { mark: Mark, isCut: boolean }[];
    parts: Part[];
    end: number | null; // where the packet ends, once its last fragment came
    why: string | null; // why it can't be taken
    protocol: number;
}

/** The packets that wait for fragments. */
export class Fragments {
    waiting = new Map<string, Waiting>();
    held = 0;

    /** @param isOurs whether what begins so is of these ports; null where that isn't known */
    constructor(public report: Report, public isOurs: (packet: { protocol: number, payload: Uint8Array }) => boolean | null) {}

    /** Takes a fragment. One of which the file has a part is as one that isn't there.
     * @returns the packet that is whole by it, and why it can't be taken */
    take(packet: Internet, fragment: NonNullable<Internet['fragment']>, time: bigint): { packet: Internet, why: string | null } | null {
        const entry = this.entry(fragment.key, packet);
        const isCut = packet.payload.length < packet.size;
        entry.marks.push({ mark: this.report.mark, isCut });
        if (!isCut) {
            note(entry, time);
            if (entry.parts.length < MOST_PARTS) this.place(entry, fragment, packet.payload);
        }
        const payload = joined(entry);
        if (!payload) {
            this.passOver();
            return null;
        }
        this.forget(fragment.key, entry);
        if (entry.parts.some((part) => part.offset + part.bytes.length > payload.length)) entry.why ??= DIFFER;
        if (isLate(entry)) entry.why ??= 'its fragments lie more than 60 s apart';
        return { packet: { ...packet, protocol: entry.protocol, payload, size: payload.length, fragment: null }, why: entry.why };
    }

    /** Says what never came together. */
    finish() {
        for (const entry of this.waiting.values()) this.tell(entry);
    }

    entry(key: string, packet: Internet) {
        const held = this.waiting.get(key);
        if (held) return held;
        const entry: Waiting = { first: null, last: null, marks: [], parts: [], end: null, why: null, protocol: packet.protocol };
        this.waiting.set(key, entry);
        return entry;
    }

    place(entry: Waiting, fragment: { offset: number, more: boolean }, bytes: Uint8Array) {
        const end = fragment.offset + bytes.length;
        const isLast = !fragment.more;
        if (end > MOST_PACKET || (isLast && entry.end !== null && entry.end !== end)) entry.why ??= DIFFER;
        if (isLast) entry.end ??= end;
        if (entry.parts.some((part) => contradicts(part, fragment.offset, bytes))) entry.why ??= DIFFER;
        if (entry.parts.some((part) => part.offset === fragment.offset && part.bytes.length === bytes.length)) return;
        entry.parts.push({ offset: fragment.offset, bytes: bytes.slice() });
        this.held += bytes.length;
    }

    /** Lets the packets go that wait the longest, where too many wait. */
    passOver() {
        for (const [key, entry] of this.waiting) {
            if (this.waiting.size <= MOST_WAITING && this.held <= MOST_HELD) break;
            this.forget(key, entry);
            this.tell(entry);
        }
    }

    forget(key: string, entry: Waiting) {
        this.waiting.delete(key);
        for (const part of entry.parts) this.held -= part.bytes.length;
    }

    /** Counts the fragments of a packet that isn't whole, but where it is known that it is of other ports. */
    tell(entry: Waiting) {
        const start = entry.parts.find((part) => part.offset === 0);
        const isOurs = this.isOurs({ protocol: entry.protocol, payload: start?.bytes ?? new Uint8Array(0) });
        if (isOurs === false) return;
        const missing = isOurs ? FRAGMENTS_MISSING : FRAGMENTS_UNKNOWN;
        for (const { mark, isCut } of entry.marks) this.report.count(mark, isCut ? FRAGMENTS_CUT : missing);
    }
}

/** Takes the time at which a fragment came. */
function note(entry: Waiting, time: bigint) {
    if (entry.first === null || time < entry.first) entry.first = time;
    if (entry.last === null || time > entry.last) entry.last = time;
}

/** Whether the fragments lie too far apart. */
function isLate({ first, last }: Waiting) {
    return first !== null && last !== null && last - first > TIMER;
}

/** The bytes of a packet all of whose fragments came; null before. Of bytes at one place those of the part count that begins first. */
function joined({ parts, end }: Waiting) {
    if (end === null) return null;
    parts.sort((one, other) => one.offset - other.offset);
    const used: Part[] = [];
    let known = 0;
    for (const part of parts) {
        if (known >= end) break;
        if (part.offset > known) return null;
        const stop = Math.min(part.offset + part.bytes.length, end);
        if (stop > known) used.push({ offset: known, bytes: part.bytes.subarray(known - part.offset, stop - part.offset) });
        known = Math.max(known, stop);
    }
    if (known < end) return null;
    const bytes = new Uint8Array(end);
    for (const part of used) bytes.set(part.bytes, part.offset);
    return bytes;
}

/** Whether a part has another byte at a place of these. */
function contradicts(part: Part, offset: number, bytes: Uint8Array) {
    const begin = Math.max(part.offset, offset);
    const end = Math.min(part.offset + part.bytes.length, offset + bytes.length);
    for (let at = begin; at < end; at++) {
        if (part.bytes[at - part.offset] !== bytes[at - offset]) return true;
    }
    return false;
}
