/** Files and packets for the tests, built byte by byte, and files as the page reads them. */
import { readFileSync } from 'node:fs';

import { PayloadReader, framesOf } from '../src/containers/payloads.js';
import { slicesOf } from '../src/containers/slices.js';

/** Hands on what the frames of a file give; answers what read them, and the time of the first. */
export function readFrames(path, take) {
    const reader = new PayloadReader(take);
    let first = null;
    for (const frame of framesOf(slicesOf(new Uint8Array(readFileSync(path)))) ?? []) {
        first ??= frame.time;
        reader.read(frame);
    }
    reader.finish();
    return { reader, first };
}

export const bytesOf = (...parts) => Uint8Array.from(parts.flatMap((part) => (typeof part === 'number' ? [part] : [...part])));

export function number(value, size, little = false) {
    const bytes = Array.from({ length: size }, (_, at) => Number((BigInt(value) >> BigInt(8 * at)) & 255n));
    return little ? bytes : bytes.reverse();
}

export function pcap(frames, { link = 1, little = true, nanoseconds = false } = {}) {
    const each = (value, size) => number(value, size, little);
    const head = [each(nanoseconds ? 0xa1b23c4d : 0xa1b2c3d4, 4), each(2, 2), each(4, 2), each(0, 8), each(262_144, 4), each(link, 4)];
    const records = frames.map(({ bytes, seconds = 0, rest = 0, size = bytes.length }) =>
        [each(seconds, 4), each(rest, 4), each(bytes.length, 4), each(size, 4), bytes].flatMap((part) => [...part]));
    return bytesOf(...head, ...records);
}

export function block(type, body, little = true) {
    const padded = [...body, ...new Array((4 - (body.length % 4)) % 4).fill(0)];
    const size = number(padded.length + 12, 4, little);
    return bytesOf(number(type, 4, little), size, padded, size);
}

export const section = (little = true) => block(0x0a0d0d0a, bytesOf(number(0x1a2b3c4d, 4, little), number(1, 2, little), number(0, 2),
    number(0xffffffffffffffffn, 8)), little);

export function face(link, { options = [], little = true } = {}) {
    return block(1, bytesOf(number(link, 2, little), 0, 0, number(0, 4), options), little);
}

export function enhanced(face, units, bytes, { little = true, size = bytes.length } = {}) {
    const each = (value) => number(value, 4, little);
    const high = Number(BigInt(units) >> 32n);
    const low = Number(BigInt(units) & 0xffffffffn);
    return block(6, bytesOf(each(face), each(high), each(low), each(bytes.length), each(size), bytes), little);
}

export const ethernet = (packet, { tags = [], type = packet[0] >> 4 === 4 ? 0x0800 : 0x86dd } = {}) =>
    bytesOf([1, 2, 3, 4, 5, 6], [2, 0, 0, 0, 0, 9], ...tags.map((tag) => [0x81, 0, ...number(tag, 2)]), number(type, 2), packet);

export function ipv4(payload, { protocol = 17, source = [10, 0, 0, 5], destination = [10, 0, 0, 9], id = 1, offset = 0, more = false } = {}) {
    const flags = (more ? 0x2000 : 0) | (offset / 8);
    return bytesOf([0x45, 0], number(20 + payload.length, 2), number(id, 2), number(flags, 2), [64, protocol, 0, 0], source, destination,
        payload);
}

export function ipv6(payload, { protocol = 17, headers = [] } = {}) {
    const first = headers.length ? headers[0].protocol : protocol;
    const parts = headers.map((header, at) => [headers[at + 1]?.protocol ?? protocol, ...header.rest]);
    const size = parts.reduce((sum, part) => sum + part.length, payload.length);
    const address = (last) => [0xfe, 0x80, ...new Array(13).fill(0), last];
    return bytesOf([0x60, 0, 0, 0], number(size, 2), [first, 64], address(5), address(9), ...parts, payload);
}

export function tcp(flags, { source = 1024, destination = 139, sequence = 0, payload = [] } = {}) {
    return bytesOf(number(source, 2), number(destination, 2), number(sequence, 4), number(0, 4), [0x50, flags], number(0, 6), payload);
}

export const udp = (payload, { source = 137, destination = 137, size = payload.length } = {}) =>
    bytesOf(number(source, 2), number(destination, 2), number(size + 8, 2), [0, 0], payload);
