/** The bytes of a file, read as they are wanted, so that a long one isn't held. */

const STEP = 4 << 20;

export class Slices {
    from = 0;
    held = new Uint8Array(0);

    constructor(public size: number, public read: (from: number, to: number) => Uint8Array) {}

    /** The bytes between two places, or as many of them as there are. They are a part of what is held: who keeps them copies them. */
    bytes(from: number, to: number) {
        const place = this.place(from, to);
        return this.held.subarray(place, place + Math.max(0, Math.min(to, this.size) - from));
    }

    /** Where in what is held the bytes between two places begin. */
    place(from: number, to: number) {
        const end = Math.min(to, this.size);
        if (from < this.from || end > this.from + this.held.length) {
            this.held = this.read(from, Math.min(Math.max(end, from + STEP), this.size));
            this.from = from;
        }
        return from - this.from;
    }
}

/** A file that is held. */
export function slicesOf(bytes: Uint8Array) {
    return new Slices(bytes.length, (from, to) => bytes.subarray(from, to));
}

export function number32(bytes: Uint8Array, at: number, little: boolean) {
    const one = little ? bytes[at + 3] : bytes[at];
    const two = little ? bytes[at + 2] : bytes[at + 1];
    const three = little ? bytes[at + 1] : bytes[at + 2];
    const four = little ? bytes[at] : bytes[at + 3];
    return ((one << 24) | (two << 16) | (three << 8) | four) >>> 0;
}

export function number16(bytes: Uint8Array, at: number, little: boolean) {
    return little ? bytes[at] | (bytes[at + 1] << 8) : (bytes[at] << 8) | bytes[at + 1];
}
