/** What is known of one file. */
import type { Nbt } from '../../../bindings/javascript/nbt.mjs';
import { partsOf, shown } from '../containers/ends.js';
import type { Cut, Payload, Seen as Given, Sent } from '../containers/payloads.js';
import type { LeftOut, Mark } from '../containers/report.js';
import { made, written } from '../model/capture.js';
import { Seen, type Ends, type Item } from '../model/seen.js';
import { datagramFront, serviceFront, type Told } from '../model/fronts.js';
import { kinds_of as kindsOf } from '../made/kinds.js';
import { without_place as withoutPlace } from '../made/seen.js';
import { Batch } from './batch.js';
import { slicesOf } from './file.js';
import { LEFT_OUT, Packets } from '../model/packets.js';
import { MOST_KEYS, SERVICES } from '../made/vocabulary.js';

/** Of how many datagrams that are cut the names are kept. */
const MOST_CUT = MOST_KEYS;

export class Tap {
    kind: 'frames' | 'lines' | 'table' = 'frames';
    packets = new Packets();
    batch = new Batch();
    seen = new Seen();
    frames = 0;
    /** The time of the first frame. */
    first: bigint | null = null;
    /** The saved table, once it is made. */
    table: Uint8Array | null = null;
    isRead = false;
    /** The names of datagrams that the snap length cut behind them. */
    cut: [string, string, string][] = [];
    /** The latest frame of which a front was taken. */
    frontOf = 0;
    /** Whether gzip packed the file: `file` is what it packed then. */
    isPacked = false;

    constructor(public file: Blob, public name: string, public library: Nbt) {}

    take(item: Given) {
        if (item.kind === 'comment') this.packets.comment(item.text);
        else if (item.kind === 'payload') this.payload(item);
        else if (item.kind === 'segment') this.segment(item);
        else if (item.kind === 'cut') this.front(item);
        else if (item.kind === 'unread') this.seen.unread.take(item);
        else this.leftOut(item);
    }

    front(item: Cut) {
        const { port, mark, bytes } = item;
        this.frontOf = mark.frame;
        const told = { ...this.standing(port, bytes), cut: true };
        this.seen.summed.take(itemOf(item), told);
        const { source, destination, kind } = told;
        if (kind && source !== undefined && destination !== undefined && this.cut.length < MOST_CUT) this.cut.push([source, destination, kind]);
    }

    /** What stands of a payload that isn't a whole packet. */
    standing(port: number, bytes: Uint8Array): Told {
        if (port === 139) return {};
        return port === 137 ? serviceFront(this.library, bytes) : datagramFront(this.library, bytes);
    }

    segment({ source, target, sequence, flags }: Sent) {
        this.seen.summed.sessions.segment({ ...endsOf(source, target), stream: null, sequence, flags });
    }

    payload(item: Payload) {
        const { port, mark, bytes } = item;
        const text = this.library.json(port, bytes);
        const said = this.library.brief(port, bytes);
        const told: Told = JSON.parse(text);
        const standing = told.refused === undefined ? told : { ...this.standing(port, bytes), ...told };
        standing.brief = said;
        this.seen.take(standing, itemOf(item));
        this.packets.add(mark, item);
        this.row(mark, port, kindsOf(port, told).join(' '), told.refused === undefined ? '' : withoutPlace(told.refused), said);
    }

    leftOut({ mark, why }: LeftOut) {
        this.seen.leave(why, mark.frame === this.frontOf ? null : endsOf(mark.source, mark.destination));
        this.packets.add(mark, { port: LEFT_OUT, mac: null, vlan: null, bytes: new Uint8Array(0) });
        const sizes = mark.captured < mark.size ? `, ${mark.captured} of ${mark.size} bytes` : '';
        this.row(mark, LEFT_OUT, 'left-out', why, `left out: ${why}${sizes}`);
    }

    row(mark: Mark, port: number, kinds: string, reason: string, said: string) {
        const own = port === LEFT_OUT ? SERVICES : [String(port)];
        const { frame, time } = mark;
        const [source, destination] = [shown(mark.source, own), shown(mark.destination, own)];
        this.batch.add({ frame, time, port, source, destination, sender: partsOf(mark.source).host, kinds, reason, said });
    }

    /** The lines of the capture that the file gives, or that it is. */
    capture() {
        return this.kind === 'lines' ? written(slicesOf(this.file, this.name)) : made(this);
    }

    /** What is counted. */
    counts() {
        const { seen } = this;
        const left = Array.from(seen.leftOut.values()).reduce((sum, each) => sum + each, 0);
        const { kept, refusals } = seen.summed;
        return {
            frames: this.frames, packets: seen.packets, refused: seen.refusedPackets, leftOut: left, names: kept.names.size, refusals: refusals.room.entries.size,
            unread: seen.unread.counts(),
        };
    }
}

function itemOf({ mark: { frame, time, source, destination }, port, mac, target }: Payload | Cut): Item {
    return { ...endsOf(source, destination), frame: { number: frame, at: time, source_mac: mac, target_mac: target }, service: port, stream: null };
}

function endsOf(source: string, target: string): Ends {
    const [from, to] = [partsOf(source), partsOf(target)];
    return { source: from.host, source_port: from.port, target: to.host, target_port: to.port };
}
