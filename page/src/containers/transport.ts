/** Headers of UDP (RFC 768) and TCP (RFC 9293). */
import type { Internet } from './internet.js';
import { word } from './link.js';

export const UDP = 17;
export const TCP = 6;
export const UDP_HEADER = 8;
export const TCP_HEADER = 20;
/** How much of a header of TCP has to be there: up to its checksum. */
const LEAST_OF_TCP = 16;

/** A segment. `payload` is what the file has of its bytes, of which there were `size`; it is null where the header isn't whole. */
export interface Segment {
    source: number; destination: number; sequence: number;
    acknowledged: number; // the place that it says comes next from the other side, where `ack` is set
    flags: number; syn: boolean; ack: boolean;
    payload: Uint8Array | null; size: number;
}

/** The ports of a datagram or a segment; null where the file ends before them. */
export function portsIn(bytes: Uint8Array) {
    return bytes.length < 4 ? null : { source: word(bytes, 0), destination: word(bytes, 2) };
}

/** The datagram that is in a packet of IP whose ports are known: what the file has of its bytes, of which there were `size`; null where its
 * header isn't whole. */
export function datagramIn({ payload: bytes }: Internet) {
    if (bytes.length < 6) return { payload: null, size: 0 };
    const size = word(bytes, 4) - UDP_HEADER;
    return { payload: bytes.subarray(UDP_HEADER, Math.max(UDP_HEADER, UDP_HEADER + size)), size };
}

/** The segment that is in a packet of IP whose ports are known. */
export function segmentIn(packet: Internet): Segment {
    const bytes = packet.payload;
    const source = word(bytes, 0);
    const destination = word(bytes, 2);
    const header = bytes.length > 12 ? (bytes[12] >> 4) * 4 : TCP_HEADER;
    if (bytes.length < LEAST_OF_TCP || header < TCP_HEADER) {
        return { source, destination, sequence: 0, acknowledged: 0, flags: 0, syn: false, ack: false, payload: null, size: packet.size };
    }
    const flags = bytes[13];
    const sequence = word(bytes, 4) * 0x10000 + word(bytes, 6);
    const acknowledged = word(bytes, 8) * 0x10000 + word(bytes, 10);
    const payload = bytes.subarray(Math.min(header, bytes.length));
    return {
        source, destination, sequence, acknowledged, flags, syn: (flags & 2) !== 0, ack: (flags & 16) !== 0, payload, size: Math.max(0, packet.size - header),
    };
}
