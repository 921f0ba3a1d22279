/** What is given out of a file: each is byte for byte what the program prints. */
import { digitsOf } from '../containers/digits.js';
import { commentOf, textOf } from '../model/capture.js';
import { slicesOf } from './file.js';
import { pause } from './pause.js';
import { tableOf } from './tables.js';
import type { Tap } from './tap.js';

/** How many characters are put together before the worker looks whether something is wanted of it. */
const PART = 1 << 20;

export async function exportOf(tap: Tap, form: 'json' | 'capture' | 'table'): Promise<Blob> {
    if (form === 'table') return new Blob([`${digitsOf(await tableOf(tap))}\n`], { type: 'text/plain' });
    if (tap.kind === 'table') throw new Error('a saved table has no packets: only itself can be saved');
    if (form === 'capture' && tap.kind === 'lines') return unchanged(tap);
    return joined(form === 'json' ? objects(tap) : lines(tap));
}

/** The file of a tap, if it can still be read. */
function unchanged({ file, name }: Tap) {
    slicesOf(file, name).bytes(0, 1);
    return file;
}

function* lines(tap: Tap) {
    for (const line of tap.capture()) yield textOf(line);
}

/** What `nbt show --json` prints of the capture. */
function* objects(tap: Tap) {
    let number = 0;
    let comment = '';
    for (const line of tap.capture()) {
        number += 1;
        if (line.kind === 'payload') {
            yield `{"line":${number},"port":${line.port},"moment":${line.moment},${comment}${tap.library.json(line.port, line.bytes).slice(1)}`;
        } else if (line.kind === 'tick') {
            yield `{"line":${number},"moment":${line.moment},${comment}"kind":"tick"}`;
        }
        comment = line.kind === 'comment' ? `"comment":${JSON.stringify(commentOf(line.text))},` : '';
    }
}

/** Lines, each with its line feed. */
async function joined(texts: Iterable<string>) {
    const parts = [];
    let part = '';
    for (const text of texts) {
        part += `${text}\n`;
        if (part.length < PART) continue;
        parts.push(part);
        part = '';
        await pause();
    }
    return new Blob([...parts, part], { type: 'text/plain' });
}
