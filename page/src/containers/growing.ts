/** Bytes to which others are added at the end, and from which they are taken at the front. */
export class Growing {
    room = new Uint8Array(0);
    from = 0;
    to = 0;

    get length() {
        return this.to - this.from;
    }

    /** What is held: a view that the next change may move. */
    get bytes() {
        return this.room.subarray(this.from, this.to);
    }

    push(bytes: Uint8Array) {
        if (this.to + bytes.length > this.room.length) {
            const room = new Uint8Array(Math.max(2 * (this.length + bytes.length), 64));
            room.set(this.bytes);
            [this.room, this.from, this.to] = [room, 0, this.length];
        }
        this.room.set(bytes, this.to);
        this.to += bytes.length;
    }

    /** A copy of what stands between two places. */
    slice(from?: number, to?: number) {
        return this.bytes.slice(from, to);
    }

    drop(count: number) {
        this.from = Math.min(this.from + count, this.to);
    }
}
