/** The payloads of ports 137, 138 and 139 that a pcap or pcapng file has, and what is left out of it, by reason. */
import { BAD_LENGTH, CUT, FRAGMENTS } from '../made/reasons.js';
import { Streams } from '../made/streams.js';
import { PORT } from '../made/vocabulary.js';
import { Fragments } from './fragments.js';
import type { Frame } from './frames.js';
import { internetIn, type Internet } from './internet.js';
import { packetIn, type WhyNoPacket } from './link.js';
import { isPcap, pcapFrames } from './pcap.js';
import { isPcapng, pcapngFrames } from './pcapng.js';
import { Report, type Comment, type LeftOut, type Mark } from './report.js';
import type { Slices } from './slices.js';
import { TCP, TCP_HEADER, UDP, UDP_HEADER, datagramIn, portsIn, segmentIn, type Segment } from './transport.js';
import { linkName, wrappingOf, type Unread } from './unread.js';

/** Of how many streams the number is known. */
const MOST_STREAMS = 262_144;
/** Why a frame has no packet that nbt-look-tshark would find either. */
const NOTHING = ['no IP', 'cut'];

/** The hardware addresses from which and, of Ethernet, to which a frame goes. */
export type Below = { mac: string | null, target: string | null, vlan: number | null };
/** A payload, a part of what is held of the file: what one packet of these ports has, and the frame that completes it. */
export type Payload = Below & { kind: 'payload', port: 137 | 138 | 139, mark: Mark, bytes: Uint8Array };
/** A segment with a SYN, or the one after it: what says whether a connection of port 139 is opened. */
export type Sent = { kind: 'segment', source: string, target: string, sequence: number, flags: number };
/** What the file has of a packet of UDP that the snap length cut. */
export type Cut = Below & { kind: 'cut', port: 137 | 138, mark: Mark, bytes: Uint8Array };
/** What is known of a stream: where each end begins, and whether what comes next says how its SYN is answered. */
type Stream = { number: number, starts: Map<string, number>, isOpening: boolean };
export type Seen = Payload | Sent | Cut | Unread | LeftOut | Comment;

/** The frames of a file; null of one that is neither pcap nor pcapng. */
export function framesOf(file: Slices) {
    if (isPcap(file)) return pcapFrames(file);
    return isPcapng(file) ? pcapngFrames(file) : null;
}

/** Reads frames one after another, and gives what they have, in its order. */
export class PayloadReader {
    report = new Report(this.give);
    fragments = new Fragments(this.report, isOurs);
    streams = new Streams(this.report);
    frames = 0;
    ours = 0;
    link = 0;
    /** Frames that are of none of these ports, by why. */
    others = new Map<string, number>();
    now: bigint | null = null;
    numbers = new Map<string, Stream>();

    constructor(public give: (seen: Seen) => void) {}

    read(frame: Frame) {
        this.frames += 1;
        this.now = frame.time ?? this.now;
        this.link = frame.link;
        const mark = { frame: frame.number, time: this.now, source: '', destination: '', captured: frame.bytes.length, size: frame.size, counted: false };
        this.report.begin(mark);
        const below = packetIn(frame.link, frame.bytes);
        if (typeof below === 'string') return this.withoutPacket(below);
        const internet = internetIn(frame.bytes, below.at);
        if (!internet) return this.other('cut');
        [mark.source, mark.destination] = [internet.source, internet.destination];
        const { fragment } = internet;
        // The first fragment of IPv4 that is cut is read by itself: its headers are there.
        const isAlone = fragment && fragment.offset === 0 && internet.payload.length < internet.size && !internet.source.startsWith('[');
        if (!fragment || isAlone) return this.packet(internet, below, null);
        const joined = this.fragments.take(internet, fragment, this.now ?? 0n);
        if (joined) this.packet(joined.packet, below, joined.why);
    }

    /** Says what is left over at the end of a file. */
    finish() {
        this.fragments.finish();
        this.streams.finish();
    }

    /** @param why why it can't be taken */
    packet(internet: Internet, below: Below, why: string | null) {
        if (internet.protocol !== UDP && internet.protocol !== TCP) {
            this.unread(wrappingOf(internet));
            return this.other('another protocol');
        }
        const ports = portsIn(internet.payload);
        if (!ports) {
            if (internet.protocol === UDP || internet.size > TCP_HEADER) this.report.leave_out(this.report.cut, 'the file ends before its ports');
            return;
        }
        this.report.mark.source = `${internet.source}:${ports.source}`;
        this.report.mark.destination = `${internet.destination}:${ports.destination}`;
        const segment = internet.protocol === TCP ? segmentIn(internet) : null;
        const stream = segment?.payload ? this.streamOf(segment) : null;
        if (!isOurs(internet, ports)) {
            this.unread(wrappingOf(internet));
            return this.other('another port');
        }
        this.ours += 1;
        if (why) return this.report.leave_out(FRAGMENTS, why);
        if (segment) return this.segment(internet, below, segment, stream);
        this.datagram(internet, below, ports.source === PORT.NAMES || ports.source === PORT.DATAGRAMS ? ports.source : ports.destination);
    }

    datagram(internet: Internet, below: Below, port: number) {
        const { payload, size } = datagramIn(internet);
        if (!payload) return this.report.leave_out(this.report.cut, 'the file ends inside its UDP header');
        if (size < 0 || payload.length < size) {
            const reason = payload.length < size && this.report.cut === CUT ? CUT : BAD_LENGTH;
            const isFront = reason === CUT && payload.length > 0;
            if (isFront) this.give({ kind: 'cut', port: port as 137 | 138, mark: this.report.mark, bytes: payload, ...below });
            const there = `its UDP length is ${size + UDP_HEADER}, and the file has ${payload.length} bytes of its payload`;
            return this.report.leave_out(reason, there);
        }
        this.payload(port as 137 | 138, below, payload);
    }

    segment(internet: Internet, below: Below, segment: Segment, stream: Stream | null) {
        if (!segment.payload || !stream) {
            if (internet.size > TCP_HEADER) this.report.leave_out(this.report.cut, 'the file ends inside its TCP header');
            return;
        }
        const { flags, syn, ack, sequence, size, payload } = segment;
        const { source, destination: target } = this.report.mark;
        if (syn || stream.isOpening) this.give({ kind: 'segment', source, target, sequence, flags });
        stream.isOpening = syn && !ack;
        const sides = [[stream.number, internet.source, segment.source], [stream.number, internet.destination, segment.destination]];
        for (const bytes of this.streams.segment(...sides, flags, sequence, size, payload.subarray(0, size))) this.payload(139, below, bytes);
    }

    /** The stream of a segment: that of its ends, and a new one where they begin anew: with a SYN of another place than their first segments say, those
     * of the other side by what they acknowledge. */
    streamOf(segment: Segment) {
        const { source, destination } = this.report.mark;
        const ends = source < destination ? `${source} ${destination}` : `${destination} ${source}`;
        let known = this.numbers.get(ends);
        const isAnew = segment.syn && !segment.ack && known?.starts.has(source) && known.starts.get(source) !== segment.sequence;
        if (!known || isAnew) {
            known = { number: this.streamCount++, starts: new Map(), isOpening: true };
            if (this.numbers.size >= MOST_STREAMS) this.numbers.clear();
            this.numbers.set(ends, known);
        }
        if (segment.syn) known.starts.set(source, segment.sequence);
        else if (!known.starts.has(source)) known.starts.set(source, (segment.sequence - 1) >>> 0);
        if (segment.ack && !known.starts.has(destination)) known.starts.set(destination, (segment.acknowledged - 1) >>> 0);
        return known;
    }

    streamCount = 0;

    payload(port: 137 | 138 | 139, below: Below, bytes: Uint8Array) {
        this.give({ kind: 'payload', port, mark: this.report.mark, bytes, ...below });
    }

    withoutPacket(why: WhyNoPacket) {
        if (!NOTHING.includes(why)) this.unread(why === 'unknown link type' ? 'link type' : why);
        this.other(why);
    }

    /** Says that the latest frame has packets which aren't read here.
     * @param why an empty text where it has none */
    unread(why: string) {
        if (why) this.give({ kind: 'unread', frame: this.report.mark.frame, link: linkName(this.link), why });
    }

    /** Counts a frame of which nothing is of these ports. */
    other(why: string) {
        this.others.set(why, (this.others.get(why) ?? 0) + 1);
    }
}

/** Whether what begins so is of these ports; null where that isn't known. */
function isOurs({ protocol, payload }: { protocol: number, payload: Uint8Array }, ports = portsIn(payload)) {
    if (protocol !== UDP && protocol !== TCP) return false;
    if (!ports) return null;
    const ours = protocol === TCP ? [PORT.SESSIONS] : [PORT.NAMES, PORT.DATAGRAMS];
    return ours.includes(ports.source) || ours.includes(ports.destination);
}
