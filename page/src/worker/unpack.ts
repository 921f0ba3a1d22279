/** Files that gzip packed (RFC 1952), unpacked by the browser. */
import type { Slices } from '../containers/slices.js';
import { FileGone } from './file.js';

/** How many bytes are unpacked at most: our choice, since a file of 2 MiB may have as many. */
const MOST = 2 ** 31;
/** How many bytes are put together before they are given to the browser, which needn't keep them in memory. */
const PART = 16 << 20;

/** What a file has once it is unpacked, and why that isn't all of it. */
export type Unpacked = { blob: Blob, fault: string | null };

export function isPacked(file: Slices) {
    const bytes = file.bytes(0, 2);
    return bytes[0] === 0x1f && bytes[1] === 0x8b;
}

/** @param goesOn is called after each piece with how many bytes of the file are read, and says whether to go on
 * @throws {FileGone} where the file can't be read any more */
export async function unpacked(file: Blob, goesOn: (done: number) => Promise<boolean>, most: number = MOST): Promise<Unpacked> {
    const parts = new Parts();
    let done = 0;
    const counting = new TransformStream({
        transform(piece, controller) {
            done += piece.length;
            controller.enqueue(piece);
        },
    });
    const reader = file.stream().pipeThrough(counting).pipeThrough(new DecompressionStream('gzip')).getReader();
    /** @param fault why what follows is left out */
    const end = async (fault: string | null) => {
        await reader.cancel();
        return { blob: parts.blob(), fault };
    };
    try {
        for (let piece = await reader.read(); !piece.done; piece = await reader.read()) {
            const room = most - parts.size;
            parts.push(piece.value.subarray(0, room));
            if (piece.value.length > room) return await end(`more than ${most} bytes once unpacked: what follows is left out; nbt-look-tshark reads all of it`);
            if (!await goesOn(done)) return await end(null);
        }
        return { blob: parts.blob(), fault: null };
    } catch (error) {
        if (error instanceof DOMException) throw new FileGone('');
        return { blob: parts.blob(), fault: 'what gzip packed is cut or damaged, or something follows it: what stands before that is read' };
    }
}

/** Bytes one after another. */
class Parts {
    size = 0;
    pieces: Uint8Array[] = [];
    waiting = 0;
    parts: Blob[] = [];

    push(piece: Uint8Array) {
        this.size += piece.length;
        this.waiting += piece.length;
        this.pieces.push(piece);
        if (this.waiting >= PART) this.pack();
    }

    pack() {
        this.parts.push(new Blob(this.pieces));
        this.pieces = [];
        this.waiting = 0;
    }

    blob() {
        this.pack();
        return new Blob(this.parts);
    }
}
