/** What a file is, by how it begins. */
import { isPcap } from '../containers/pcap.js';
import { isPcapng } from '../containers/pcapng.js';
import { FileFault } from '../containers/frames.js';
import { bytesOf, digitsOf } from '../containers/digits.js';
import type { Slices } from '../containers/slices.js';

const MOST_LOOKED_AT = 65_536;
const TABLE = /^4e4254[0-9a-f]{2}/i;
const TEXT = /^(?:[\t\r\n\x20-\x7e]|[^\0-\x7f])*$/;
/** How a capture begins: its comments may have any bytes. */
const CAPTURE = /^(?:#|13[789] |tick )/;

/** What the decoder puts for bytes that are no text. */
const REPLACED = '\ufffd';

/** @throws {FileFault} where it is none of these */
export function kindOf(file: Slices): 'frames' | 'lines' | 'table' | 'tables in digits' {
    if (file.size === 0) throw new FileFault('the file is empty', 0);
    if (isPcap(file) || isPcapng(file)) return 'frames';
    const bytes = file.bytes(0, MOST_LOOKED_AT);
    if (TABLE.test(digitsOf(bytes.subarray(0, 4)))) return 'table';
    const text = new TextDecoder().decode(bytes);
    if (!CAPTURE.test(text) && (!TEXT.test(text) || text.includes(REPLACED))) {
        throw new FileFault(`no pcap, no pcapng, no capture and no saved table: it begins with ${digitsOf(bytes.subarray(0, 4))}`, 0);
    }
    const line = text.split('\n').find((each) => each.trim() !== '' && !each.startsWith('#')) ?? '';
    return /^[0-9a-f]+\r?$/i.test(line) && TABLE.test(line) ? 'tables in digits' : 'lines';
}

/** The saved tables of a file, a line each in digits.
 * @throws {FileFault} at a line that has others than digits */
export function tablesOf(file: Slices): Uint8Array[] {
    const lines = new TextDecoder().decode(file.bytes(0, file.size)).replace(/\n$/, '').split('\n');
    return lines.map((line, at) => {
        if (!/^(?:[0-9a-f]{2})+$/i.test(line)) throw new FileFault(`line ${at + 1} is no saved table in digits`, 0);
        return bytesOf(line);
    });
}
