/** The lines of the capture that a file gives, as nbt-look --lines prints them, or as they stand in it. */
import { bytesOf, digitsOf } from '../containers/digits.js';
import { LineFault, linesOf } from '../containers/lines.js';
import type { Slices } from '../containers/slices.js';
import { LEFT_OUT, type Packets } from './packets.js';
import { momentOf, utc } from '../model/times.js';
import { Ticks } from '../made/ticks.js';

/** A line. A payload's has the row that it is of, where the capture is made of frames. */
export type PayloadOf = { kind: 'payload', port: number, moment: number | bigint, bytes: Uint8Array, row: number | null };
export type CaptureLine = { kind: 'tick', moment: number | bigint } | { kind: 'comment', text: string } | { kind: 'empty' } | PayloadOf;

/** The lines of a file that is a capture. */
export function* written(file: Slices): Generator<CaptureLine, void, void> {
    try {
        for (const line of linesOf(file)) {
            if (line.kind !== 'payload') yield line;
            else yield { kind: 'payload', port: line.port, moment: line.moment, bytes: bytesOf(line.digits), row: null };
        }
    } catch (error) {
        // The line at which the capture ends was named when it was read.
        if (!(error instanceof LineFault)) throw error;
    }
}

/** The lines that are made of frames: comments on them, payloads, and ticks of the clock. */
export function* made({ packets, first }: { packets: Packets, first: bigint | null }): Generator<CaptureLine, void, void> {
    const clock = new Ticks();
    let [next, moment] = [0, 0];
    for (let row = 0; row <= packets.count; row++) {
        for (; next < packets.comments.length && packets.comments[next].before === row; next++) {
            yield { kind: 'comment', text: `# ${packets.comments[next].text}` };
        }
        if (row === packets.count) return;
        const packet = packets.at(row);
        if (packet.port === LEFT_OUT) continue;
        if (packet.time !== null) moment = momentOf(packet.time, first ?? 0n);
        for (const tick of clock.until(moment)) yield { kind: 'tick', moment: tick };
        clock.latest = Math.max(clock.latest, moment);
        yield { kind: 'comment', text: `# frame ${packet.frame} ${utc(packet.time)} ${packet.source} > ${packet.destination}` };
        yield { kind: 'payload', port: packet.port, moment, bytes: packet.bytes, row };
    }
}

/** A line as text. */
export function textOf(line: CaptureLine) {
    if (line.kind === 'payload') return `${line.port} ${line.moment} ${digitsOf(line.bytes) || 'empty'}`;
    if (line.kind === 'tick') return `tick ${line.moment}`;
    return line.kind === 'comment' ? line.text : '';
}

/** A comment as `nbt show --json` has it: a byte that isn't printable is a backslash and two digits.
 * @param text a character a byte */
export function commentOf(text: string) {
    return text.replace(/[^\x20-\x7e]/g, (each) => `\\${each.charCodeAt(0).toString(16).padStart(2, '0')}`);
}
