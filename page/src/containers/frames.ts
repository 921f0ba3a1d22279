/** Frames of a file, whatever form the file has. */
export interface Frame {
    number: number; // the first frame of a file is 1
    time: bigint | null; // nanoseconds since the start of 1970; null of a frame whose file doesn't say it
    link: number; // how the frame begins: a LINKTYPE of tcpdump.org
    bytes: Uint8Array; // what the file has of it
    size: number; // how many bytes it had
    end: number; // the place in the file after it
}

/** Why a file, or what follows of it, can't be read: words, and the place in the file. */
export class FileFault extends Error {
    name = 'FileFault';

    constructor(words: string, public at: number) {
        super(`${words}, at byte ${at}`);
    }
}

/** A frame of more bytes than this is no frame: what tcpdump and Wireshark take at most. */
export const MOST_FRAME = 262_144;
