/** Reads a file a while at a time, so that the worker answers meanwhile, and can be stopped. */
import { NbtError, type Nbt } from '../../../bindings/javascript/nbt.mjs';
import { FileFault, type Frame } from '../containers/frames.js';
import { linesOf, payloadsIn } from '../containers/lines.js';
import { PayloadReader, framesOf } from '../containers/payloads.js';
import type { Slices } from '../containers/slices.js';
import { slicesOf } from './file.js';
import { kindOf, tablesOf } from './kinds.js';
import { pause } from './pause.js';
import type { Tap } from './tap.js';
import { isPacked, unpacked } from './unpack.js';

/** How long the worker reads before it looks whether something is wanted of it, in milliseconds. */
const WHILE = 24;
const MOST_TABLE = 64 << 20;
const FULL = 'more than the page keeps: what follows is left out; nbt-look-tshark reads all of it';

/** One reading of a file into a tap. */
export class Reading {
    isStopped = false;
    /** Why not all of a file is unpacked. */
    fault: string | null = null;

    /** @param tell is called after each while, with how many bytes are read */
    constructor(public tap: Tap, public tell: (done: number) => void) {}

    /** @returns why not all of it is read */
    async run(): Promise<string | null> {
        try {
            let file = slicesOf(this.tap.file);
            if (isPacked(file)) file = await this.unpack();
            if (this.isStopped) return 'stopped while it was unpacked';
            const kind = kindOf(file);
            if (kind === 'frames') await this.frames(file);
            else if (kind === 'lines') await this.lines(file);
            else this.tables(file, kind === 'table');
        } catch (error) {
            return this.fault ?? (error instanceof Error ? error.message : String(error));
        } finally {
            this.tap.isRead = true;
            this.tell(this.tap.file.size);
        }
        return this.isStopped ? `stopped after frame ${this.tap.frames}` : this.fault;
    }

    /** Puts what gzip packed in the place of the file. */
    async unpack() {
        const { tap } = this;
        let began = performance.now();
        const { blob, fault } = await unpacked(tap.file, async (done) => {
            if (performance.now() - began < WHILE) return !this.isStopped;
            this.tell(done);
            await pause();
            began = performance.now();
            return !this.isStopped;
        });
        Object.assign(tap, { file: blob, isPacked: true });
        this.fault = fault;
        return slicesOf(blob);
    }

    async frames(file: Slices) {
        const { tap } = this;
        tap.kind = 'frames';
        const reader = new PayloadReader((item) => tap.take(item));
        try {
            await this.each(framesOf(file) as Iterable<Frame>, (frame) => {
                tap.first ??= frame.time;
                reader.read(frame);
                tap.frames = reader.frames;
            });
        } finally {
            reader.finish();
        }
        if (!tap.frames) throw new FileFault('the file has no frame', file.size);
    }

    async lines(file: Slices) {
        const { tap } = this;
        tap.kind = 'lines';
        await this.each(payloadsIn(linesOf(file)), ({ seen }) => {
            tap.first ??= seen.mark.time;
            tap.take(seen);
            tap.frames += 1;
        });
        if (!tap.frames) throw new FileFault('the capture has no packet', file.size);
    }

    tables(file: Slices, isBinary: boolean) {
        const { tap } = this;
        tap.kind = 'table';
        if (file.size > MOST_TABLE) throw new FileFault(`a saved table of ${file.size} bytes`, 0);
        const tables = isBinary ? [file.bytes(0, file.size).slice()] : tablesOf(file);
        for (const each of tables) judge(each, tap.library);
        const [first, ...rest] = tables;
        tap.table = rest.reduce((joined, each) => tap.library.merge(joined, each), first);
    }

    async each<T extends { end: number }>(items: Iterable<T>, take: (item: T) => void) {
        let began = performance.now();
        let count = 0;
        for (const item of items) {
            take(item);
            if (this.tap.packets.isFull) throw new Error(FULL);
            count += 1;
            if (count % 16 || performance.now() - began < WHILE) continue;
            this.tell(item.end);
            await pause();
            if (this.isStopped) return;
            began = performance.now();
        }
    }
}

/** @throws {FileFault} where it is no saved table */
function judge(table: Uint8Array, library: Nbt) {
    try {
        library.list(table);
    } catch (error) {
        if (!(error instanceof NbtError) || error.status === 'NO_MEMORY') throw error;
        const words = error.message.replace(/ \d+$/, '');
        throw new FileFault(words, error.at ?? (error.status === 'TABLE_TRUNCATED' ? table.length : 0));
    }
}
