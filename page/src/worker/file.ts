/** A file of the browser, read in slices. */
import { Slices } from '../containers/slices.js';

/** A file can't be read any more: what it had when it was opened isn't there. */
export class FileGone extends Error {
    name = 'FileGone';

    constructor(name: string) {
        super(`${name ? `${name}: ` : ''}it changed on disk, or is gone, since it was opened: open it again`);
    }
}

/** @param name is said with a fault
 * @returns whose bytes throw FileGone where the file can't be read any more */
export function slicesOf(file: Blob, name = ''): Slices {
    const reader = new FileReaderSync();
    return new Slices(file.size, (from, to) => {
        const bytes = bytesOf(reader, file.slice(from, to), name);
        if (bytes.length < to - from) throw new FileGone(name);
        return bytes;
    });
}

function bytesOf(reader: FileReaderSync, part: Blob, name: string) {
    try {
        return new Uint8Array(reader.readAsArrayBuffer(part));
    } catch (error) {
        if (error instanceof DOMException) throw new FileGone(name);
        throw error;
    }
}
