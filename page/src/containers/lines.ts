/** The lines of a capture that is text: docs/FORMATS.md, "Captures". */
import { bytesOf } from './digits.js';
import { MOST_LINE } from '../made/vocabulary.js';
import { FORM, faultOf } from './line_faults.js';
import type { Payload } from './payloads.js';
import type { Mark } from './report.js';
import type { Slices } from './slices.js';

const LINE = /^(?:(137|138|139) ([0-9]{1,20}) ((?:[0-9a-fA-F]{2})+|empty)|tick ([0-9]{1,20})|(#[^]*)?)$/;
const COMMENT = /^# frame ([0-9]{1,10}) (\S+) (\S+):([0-9]{1,5}) > (\S+):([0-9]{1,5})$/;
const TIME = /^([0-9]{4}-[0-9]{2}-[0-9]{2}T[0-9]{2}:[0-9]{2}:[0-9]{2})\.([0-9]{6})Z$/;
const MOST_MOMENT = 2n ** 64n;
/** A moment from which on no time of ours, in nanoseconds, has room for it. */
const MOST_TIME = 2n ** 63n / 1_000_000n;
const latin = new TextDecoder('latin1');

/** A line that no capture has. */
export class LineFault extends Error {
    name = 'LineFault';

    constructor(line: number, why: string) {
        super(`line ${line} is none of a capture: ${why}. ${FORM}`);
    }
}

export type PayloadLine = { kind: 'payload', number: number, port: 137 | 138 | 139, moment: bigint, digits: string };
export type TickLine = { kind: 'tick', number: number, moment: bigint };
/** its text has a character a byte */
export type CommentLine = { kind: 'comment', number: number, text: string };
export type EmptyLine = { kind: 'empty', number: number };
/** `end` is the place in the file after it */
export type Line = (PayloadLine | TickLine | CommentLine | EmptyLine) & { end: number };

/** The lines of a file.
 * @throws {LineFault} where a line is none; those before it came. */
export function* linesOf(file: Slices): Generator<Line, void, void> {
    for (let at = 0, number = 1; at < file.size; number++) {
        const bytes = file.bytes(at, at + MOST_LINE + 1);
        const feed = bytes.indexOf(10);
        const size = feed < 0 ? bytes.length : feed;
        if (size > MOST_LINE) throw new LineFault(number, `it is longer than ${MOST_LINE} bytes`);
        at += size + 1;
        yield { ...lineOf(characters(bytes.subarray(0, size)), number), end: Math.min(at, file.size) };
    }
}

/** Bytes as a text of a character each. */
function characters(bytes: Uint8Array) {
    const text = latin.decode(bytes);
    // Of the bytes from 80 to 9f the decoder makes other characters.
    return /^[\0-\x7f]*$/.test(text) ? text : Array.from(bytes, (each) => String.fromCharCode(each)).join('');
}

function lineOf(text: string, number: number): PayloadLine | TickLine | CommentLine | EmptyLine {
    const match = LINE.exec(text);
    const moment = BigInt(match?.[2] ?? match?.[4] ?? 0);
    if (!match || moment >= MOST_MOMENT) throw new LineFault(number, faultOf(text));
    if (match[1]) {
        const port = Number(match[1]) as 137 | 138 | 139;
        return { kind: 'payload', number, port, moment, digits: match[3] === 'empty' ? '' : match[3] };
    }
    if (match[4]) return { kind: 'tick', number, moment };
    return match[5] ? { kind: 'comment', number, text: match[5] } : { kind: 'empty', number };
}

/** The payloads of a file, each with the frame that the comment before it names. Without one that is the number of its line; its time is
 * then its moment, and it has no ends. */
export function* payloadsIn(lines: Iterable<Line>): Generator<{ end: number, seen: Payload }, void, void> {
    let before: Line | null = null;
    for (const line of lines) {
        if (line.kind === 'payload') {
            const bytes = bytesOf(line.digits);
            const mark = (before?.kind === 'comment' && markOf(before.text, bytes.length)) || unnamed(line, bytes.length);
            yield { end: line.end, seen: { kind: 'payload', port: line.port, mark, mac: null, target: null, vlan: null, bytes } };
        }
        before = line;
    }
}

function unnamed(line: PayloadLine, size: number): Mark {
    const time = line.moment < MOST_TIME ? line.moment * 1_000_000n : null;
    return { frame: line.number, time, source: '', destination: '', captured: size, size, counted: false };
}

function markOf(comment: string, size: number): Mark | null {
    const match = COMMENT.exec(comment);
    if (!match) return null;
    const [, frame, time, source, sourcePort, destination, destinationPort] = match;
    const ends = { source: `${source}:${sourcePort}`, destination: `${destination}:${destinationPort}` };
    return { frame: Number(frame), time: timeOf(time), ...ends, captured: size, size, counted: false };
}

function timeOf(text: string) {
    const match = TIME.exec(text);
    const second = match ? Date.parse(`${match[1]}Z`) : NaN;
    return Number.isNaN(second) ? null : BigInt(second) * 1_000_000n + BigInt(match?.[2] ?? 0) * 1_000n;
}
