/** What is made of the packets of a file, one after another: what nbt-look-tshark sums up too, and what the page alone tells. */
import { Seen as Summed } from '../made/seen.js';
import { Room } from '../made/rooms.js';
import { MOST_KEYS, PIECES, PORT } from '../made/vocabulary.js';
import type { Told } from './fronts.js';
import { since } from './times.js';
import { UnreadFrames } from './unread.js';

/** An item, as the tools have it: what stands in a frame, of which service, and who sent it to whom. Times are nanoseconds since 1970. */
export type Ends = { source: string, source_port: string, target: string, target_port: string };
export type Item = Ends & { frame: { number: number, at: bigint | null, source_mac: string | null, target_mac: string | null }, service: number, stream: null };

export class Seen {
    packets = 0;
    refusedPackets = 0;
    summed = new Summed([String(PORT.SESSIONS)]);
    /** By reason. */
    leftOut = new Map<string, number>();
    unread = new UnreadFrames();
    /** The frame in which the first piece of a datagram came, by its key. */
    firsts = new Room(MOST_KEYS);

    /** @param told with what stands of it, where it is refused */
    take(told: Told, item: Item) {
        this.packets += 1;
        this.refusedPackets += Number(told.refused !== undefined);
        if (told.refused === undefined && told.key !== undefined && PIECES.includes(told.kind ?? '')) this.firsts.get(told.key, () => item.frame.number);
        this.summed.faults.take(item, told);
        this.summed.take(item, told);
    }

    /** @param ends of what isn't known otherwise */
    leave(reason: string, ends: Ends | null) {
        this.leftOut.set(reason, (this.leftOut.get(reason) ?? 0) + 1);
        if (ends) this.summed.left_out(ends, reason);
    }

    /** What is made of each part of the summary, by the words that choose its table. */
    ofParts(make: (part: { rows: Function, room: Room }) => unknown) {
        const [names, several, refusals, queries, sessions, stations] = this.summed.parts.map(make);
        return { names, several, refusals, queries, sessions, stations, malformed: make(this.summed.faults) };
    }

    /** The tables, with times since the first frame. */
    tables(first: bigint | null) {
        const left = Array.from(this.leftOut, ([reason, frames]) => ({ reason, frames }))
            .sort((one, other) => other.frames - one.frames || (one.reason < other.reason ? -1 : 1));
        return { ...this.ofParts((part) => part.rows((time: bigint) => since(time, first))), 'left-out': left, unread: this.unread.rows() };
    }

    /** Of each table how many packets were more than are kept. */
    notKept() {
        return { ...this.ofParts((part) => part.room.others), unread: this.unread.room.others };
    }
}
