// Prints the datagrams of ports 137 and 138 that the page's own reader finds in capture files, a line of JSON for each file, with the time of
// its first frame and how many frames it gave: tests/lib/bundled.py makes what node runs, with a file after it that names the files.
import { readFileSync } from 'node:fs';

import { internetIn } from '../src/containers/internet.js';
import { packetIn } from '../src/containers/link.js';
import { framesOf } from '../src/containers/payloads.js';
import { slicesOf } from '../src/containers/slices.js';
import { UDP, UDP_HEADER, datagramIn, portsIn } from '../src/containers/transport.js';

/** The datagram of a frame that is in no fragment; null where there is none. */
function datagramOf(frame) {
    const below = packetIn(frame.link, frame.bytes);
    const internet = typeof below === 'string' ? null : internetIn(frame.bytes, below.at);
    if (!internet || internet.fragment || internet.protocol !== UDP || internet.payload.length < UDP_HEADER) return null;
    const { payload, size } = datagramIn(internet);
    const { source, destination } = portsIn(internet.payload);
    if (!payload || size < 0 || ![source, destination].some((port) => port === 137 || port === 138)) return null;
    return { frame: frame.number, time: String(frame.time ?? ''), source: internet.source, destination: internet.destination, ports: [source, destination],
             size, payload: Buffer.from(payload).toString('hex'), captured: frame.bytes.length, whole: frame.size };
}

for (const path of readFileSync(process.argv[2], 'utf8').split('\n').filter(Boolean)) {
    const found = { first: '', frames: 0, datagrams: [], fault: '' };
    try {
        for (const frame of framesOf(slicesOf(new Uint8Array(readFileSync(path)))) ?? []) {
            found.frames += 1;
            found.first ||= String(frame.time ?? '');
            const datagram = datagramOf(frame);
            if (datagram) found.datagrams.push(datagram);
        }
    } catch (fault) {
        found.fault = String(fault);
    }
    console.log(JSON.stringify(found));
}
