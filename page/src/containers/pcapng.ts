/** pcapng: blocks one after another. Sections have their own byte order and interfaces; blocks of other kinds are passed over. */
import { FileFault, MOST_FRAME, type Frame } from './frames.js';
import { number16, number32, type Slices } from './slices.js';

const SECTION = 0x0a0d0d0a;
const INTERFACE = 1;
const SIMPLE_PACKET = 3;
const PACKET = 6;
const OLD_PACKET = 2;
const ORDER = 0x1a2b3c4d;
/** The least bytes of a block: its type and its length, twice. */
const LEAST = 12;
/** A block of more bytes is no block of frames or of what is said of them. */
const MOST_BLOCK = 16 << 20;
const MOST_INTERFACES = 65_536;
const TIME_UNIT = 9;
const TIME_OFFSET = 14;
const MICROSECOND = { per: 1_000_000n, seconds: 0n };

/** An interface: its link type, how many bytes of a frame are kept at most (0: all), and its clock. */
export interface Interface {
    link: number; snap: number;
    clock: { per: bigint, seconds: bigint }; // how many units a second has, and what is added to its seconds
}

/** Whether a file begins as pcapng does. */
export function isPcapng(file: Slices) {
    return file.size >= 4 && number32(file.bytes(0, 4), 0, false) === SECTION;
}

/** The frames of a file.
 * @throws {FileFault} where a block isn't whole, or what it says can't be; the frames before it came. */
export function* pcapngFrames(file: Slices): Generator<Frame, void, void> {
    let little = true;
    let interfaces: Interface[] = [];
    let number = 0;
    for (let at = 0; at < file.size;) {
        if (at + LEAST > file.size) throw new FileFault('a block is cut', at);
        const head = file.bytes(at, at + LEAST);
        // The type of a section's block reads the same in both orders.
        if (number32(head, 0, true) === SECTION) {
            little = orderOf(head, at);
            interfaces = [];
        }
        const size = sizeOf(file, at, number32(head, 4, little));
        const type = number32(head, 0, little);
        const body = new Body(file, at, size, little);
        if (type === INTERFACE) {
            if (interfaces.length === MOST_INTERFACES) throw new FileFault(`more than ${MOST_INTERFACES} interfaces`, at);
            interfaces.push(interfaceOf(body));
        } else if (type === PACKET || type === SIMPLE_PACKET || type === OLD_PACKET) {
            number += 1;
            yield { ...frameOf(type, body, interfaces), number, end: at + size };
        }
        at += size;
    }
}

/** What a block has between its lengths. */
class Body {
    bytes;

    /** @param at where the block begins */
    constructor(file: Slices, public at: number, size: number, public little: boolean) {
        const block = file.bytes(at, at + size);
        if (number32(block, size - 4, little) !== size) throw new FileFault('a block with two lengths', at + size - 4);
        this.bytes = block.subarray(8, size - 4);
    }

    number32(place: number) {
        if (place + 4 > this.bytes.length) throw new FileFault('a block is too short', this.at);
        return number32(this.bytes, place, this.little);
    }

    number16(place: number) {
        if (place + 2 > this.bytes.length) throw new FileFault('a block is too short', this.at);
        return number16(this.bytes, place, this.little);
    }

    /** The options from a place on: their codes and values. */
    *options(place: number): Generator<[number, Uint8Array], void, void> {
        while (place + 4 <= this.bytes.length) {
            const code = this.number16(place);
            const size = this.number16(place + 2);
            if (code === 0) return;
            if (place + 4 + size > this.bytes.length) throw new FileFault('an option is cut', this.at + 8 + place);
            yield [code, this.bytes.subarray(place + 4, place + 4 + size)];
            place += 4 + ((size + 3) & ~3);
        }
    }
}

function orderOf(head: Uint8Array, at: number) {
    if (number32(head, 8, true) === ORDER) return true;
    if (number32(head, 8, false) === ORDER) return false;
    throw new FileFault('a section of no byte order', at + 8);
}

/** How many bytes a block has, by what it says. */
function sizeOf(file: Slices, at: number, size: number) {
    if (size < LEAST || size % 4 !== 0 || size > MOST_BLOCK) throw new FileFault(`a block of ${size} bytes`, at + 4);
    if (at + size > file.size) throw new FileFault('a block is cut', at);
    return size;
}

function interfaceOf(body: Body): Interface {
    let { per, seconds } = MICROSECOND;
    for (const [code, value] of body.options(8)) {
        if (code === TIME_UNIT && value.length === 1) per = unitsOf(value[0]);
        if (code === TIME_OFFSET && value.length === 8) {
            seconds = new DataView(value.buffer, value.byteOffset, 8).getBigInt64(0, body.little);
        }
    }
    return { link: body.number16(0), snap: body.number32(4), clock: { per, seconds } };
}

/** How many units a second has: a power of ten, or of two where the highest bit is set. */
function unitsOf(value: number) {
    return value & 0x80 ? 1n << BigInt(value & 0x7f) : 10n ** BigInt(value);
}

function frameOf(type: number, body: Body, interfaces: Interface[]) {
    const which = type === PACKET ? body.number32(0) : type === OLD_PACKET ? body.number16(0) : 0;
    const face = interfaces[which];
    if (!face) throw new FileFault(`a frame of interface ${which}, which the section lacks`, body.at);
    if (type === SIMPLE_PACKET) {
        const size = body.number32(0);
        const captured = Math.min(size, face.snap || size, body.bytes.length - 4);
        return { time: null, link: face.link, bytes: body.bytes.subarray(4, 4 + captured), size };
    }
    const units = (BigInt(body.number32(4)) << 32n) | BigInt(body.number32(8));
    const captured = body.number32(12);
    const size = body.number32(16);
    if (captured > MOST_FRAME) throw new FileFault(`a frame of ${captured} bytes`, body.at);
    if (20 + captured > body.bytes.length) throw new FileFault('a frame is longer than its block', body.at);
    const time = BigInt.asIntN(64, face.clock.seconds * 1_000_000_000n + (units * 1_000_000_000n) / face.clock.per);
    return { time, link: face.link, bytes: body.bytes.subarray(20, 20 + captured), size: Math.max(size, captured) };
}
