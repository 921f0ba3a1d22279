/** pcap: a header, and records one after another, in either byte order, in microseconds or nanoseconds. */
import { FileFault, MOST_FRAME, type Frame } from './frames.js';
import { number32, type Slices } from './slices.js';

const HEADER = 24;
const RECORD = 16;
const MICROSECONDS = 0xa1b2c3d4;
const NANOSECONDS = 0xa1b23c4d;

/** Whether a file begins as pcap does. */
export function isPcap(file: Slices) {
    return orderOf(file) !== null;
}

/** The frames of a file.
 * @throws {FileFault} where a record isn't whole, or its lengths can't be; the frames before it came. */
export function* pcapFrames(file: Slices): Generator<Frame, void, void> {
    const order = orderOf(file);
    if (!order) throw new FileFault('no header of pcap', 0);
    if (file.size < HEADER) throw new FileFault('the header of pcap is cut', file.size);
    const { little, unit } = order;
    // The upper bits say how long a checksum the frames end with.
    const link = number32(file.bytes(0, HEADER), 20, little) & 0xffff;
    for (let at = HEADER, number = 1; at < file.size; number++) {
        if (at + RECORD > file.size) throw new FileFault('the header of a frame is cut', at);
        const place = file.place(at, at + RECORD);
        const seconds = number32(file.held, place, little);
        const rest = number32(file.held, place + 4, little);
        const captured = number32(file.held, place + 8, little);
        const size = number32(file.held, place + 12, little);
        if (captured > MOST_FRAME) throw new FileFault(`a frame of ${captured} bytes`, at);
        const from = at + RECORD;
        at = from + captured;
        if (at > file.size) throw new FileFault('a frame is cut', from);
        const time = BigInt(seconds) * 1_000_000_000n + BigInt(rest * unit);
        yield { number, time, link, bytes: file.bytes(from, at), size: Math.max(size, captured), end: at };
    }
}

/** The byte order, and the nanoseconds of a unit of time; null of another file. */
function orderOf(file: Slices) {
    if (file.size < 4) return null;
    for (const little of [true, false]) {
        const magic = number32(file.bytes(0, 4), 0, little);
        if (magic === MICROSECONDS) return { little, unit: 1_000 };
        if (magic === NANOSECONDS) return { little, unit: 1 };
    }
    return null;
}
