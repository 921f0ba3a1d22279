/** Headers of IPv4 (RFC 791) and IPv6 (RFC 8200). */
import { address4, address6 } from './addresses.js';
import { word } from './link.js';

const HOP_BY_HOP = 0;
const ROUTING = 43;
const FRAGMENT = 44;
const DESTINATION_OPTIONS = 60;
const AUTHENTICATION = 51;
const MOST_EXTENSIONS = 16;

/** What a header of IP says. `payload` is what the file has of the bytes after it, of which there were `size`. */
export interface Internet {
    source: string; destination: string; protocol: number; payload: Uint8Array;
    size: number;
    fragment: { key: string, offset: number, more: boolean } | null; // null of a packet that is whole
}

/** The packet that begins at a place; null where its header isn't whole, or is none of IP. */
export function internetIn(bytes: Uint8Array, at: number): Internet | null {
    const version = at < bytes.length ? bytes[at] >> 4 : 0;
    if (version === 4) return internet4(bytes, at);
    return version === 6 ? internet6(bytes.subarray(at)) : null;
}

function internet4(bytes: Uint8Array, at: number): Internet | null {
    const header = (bytes[at] & 15) * 4;
    if (header < 20 || bytes.length < at + header) return null;
    // A length of 0 is that of a packet which the network card cuts into segments: all that is there.
    const total = word(bytes, at + 2) || bytes.length - at;
    if (total < header) return null;
    const protocol = bytes[at + 9];
    const source = address4(bytes, at + 12);
    const destination = address4(bytes, at + 16);
    const offset = (word(bytes, at + 6) & 0x1fff) * 8;
    const more = (bytes[at + 6] & 0x20) !== 0;
    const fragment = offset || more ? { key: `${source} ${destination} ${protocol} ${word(bytes, at + 4)}`, offset, more } : null;
    return { source, destination, protocol, payload: bytes.subarray(at + header, at + total), size: total - header, fragment };
}

function internet6(bytes: Uint8Array): Internet | null {
    if (bytes.length < 40) return null;
    const source = `[${address6(bytes.subarray(8, 24))}]`;
    const destination = `[${address6(bytes.subarray(24, 40))}]`;
    const total = 40 + (word(bytes, 4) || bytes.length - 40);
    let [protocol, at] = [bytes[6], 40];
    let fragment = null;
    for (let count = 0; count < MOST_EXTENSIONS && isExtension(protocol) && !fragment; count++) {
        if (at + 8 > bytes.length) return null;
        const next = bytes[at];
        if (protocol === FRAGMENT) fragment = fragmentOf(bytes, at, `${source} ${destination}`);
        at += sizeOf(protocol, bytes[at + 1]);
        protocol = next;
    }
    if (at > total || at > bytes.length) return null;
    return { source, destination, protocol, payload: bytes.subarray(at, total), size: total - at, fragment };
}

function isExtension(protocol: number) {
    return [HOP_BY_HOP, ROUTING, FRAGMENT, DESTINATION_OPTIONS, AUTHENTICATION].includes(protocol);
}

/** How many bytes an extension header has.
 * @param length what it says */
function sizeOf(protocol: number, length: number) {
    if (protocol === FRAGMENT) return 8;
    return protocol === AUTHENTICATION ? 4 * (length + 2) : 8 * (length + 1);
}

/** A fragment header: null of one that stands for a whole packet (RFC 6946). */
function fragmentOf(bytes: Uint8Array, at: number, ends: string) {
    const offset = word(bytes, at + 2) & 0xfff8;
    const more = (bytes[at + 3] & 1) !== 0;
    const identifier = word(bytes, at + 4) * 0x10000 + word(bytes, at + 6);
    return offset || more ? { key: `${ends} ${identifier}`, offset, more } : null;
}
