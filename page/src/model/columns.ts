/** Columns of numbers, texts that stand for numbers, and bytes: what is kept of each packet costs some ten bytes a column. */

const BLOCK = 4 << 20;

export type Numbers = Uint8Array | Uint16Array | Uint32Array | Float64Array | BigInt64Array;

/** A column that grows. */
export class Column<T extends Numbers> {
    room = new this.kind(1024);
    length = 0;

    constructor(public kind: new (length: number) => T) {}

    push(value: T[number]) {
        if (this.length === this.room.length) this.grow(this.length + 1);
        this.room[this.length++] = value;
    }

    extend(values: T) {
        this.grow(this.length + values.length);
        this.room.set(values as any, this.length);
        this.length += values.length;
    }

    /** Makes room for so many values. */
    grow(count: number) {
        if (count <= this.room.length) return;
        const room = new this.kind(2 * count);
        room.set(this.room as any);
        this.room = room;
    }

    at(at: number): T[number] {
        return this.room[at];
    }

    /** Takes all values out. */
    take() {
        const taken = this.room.slice(0, this.length);
        this.length = 0;
        return taken;
    }
}

/** Texts, each once: a number stands for each. */
export class Texts {
    numbers = new Map<string, number>();
    texts: string[] = [];

    number(text: string) {
        const found = this.numbers.get(text);
        if (found !== undefined) return found;
        this.numbers.set(text, this.texts.length);
        return this.texts.push(text) - 1;
    }
}

/** Bytes, one after another, in blocks: nothing is copied when there are more. */
export class Blocks {
    blocks: Uint8Array[] = [];
    next = 0;
    size = 0;

    /** Keeps bytes, of a block's length at most, and answers their place. */
    add(bytes: Uint8Array) {
        if (bytes.length === 0) return 0;
        if (this.next + bytes.length > this.blocks.length * BLOCK) {
            this.next = this.blocks.length * BLOCK;
            this.blocks.push(new Uint8Array(BLOCK));
        }
        const place = this.next;
        this.blocks[this.blocks.length - 1].set(bytes, place % BLOCK);
        this.next += bytes.length;
        this.size += bytes.length;
        return place;
    }

    at(place: number, size: number) {
        if (size === 0) return new Uint8Array(0);
        return this.blocks[Math.floor(place / BLOCK)].subarray(place % BLOCK, (place % BLOCK) + size);
    }
}
