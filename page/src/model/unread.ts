/** Frames that aren't read here, by link type and by why. */
import type { Unread } from '../containers/unread.js';
import { Room } from '../made/rooms.js';

/** How many pairs of a link type and a reason are told apart. */
const MOST = 64;

/** `frame` is the first of them */
export type UnreadRow = { link_type: string, why: string, frames: number, frame: number };
export type UnreadCounts = { frames: number, whys: string[] };

export class UnreadFrames {
    frames = 0;
    room = new Room(MOST);

    take({ link, why, frame }: Unread) {
        this.frames += 1;
        const row = this.room.get(`${link} ${why}`, () => ({ link_type: link, why, frames: 0, frame }));
        if (row) row.frames += 1;
    }

    rows(): UnreadRow[] {
        return this.room.entries.values();
    }

    /** How many there are, and of what: a link type, or what packets are wrapped in. */
    counts(): UnreadCounts {
        return { frames: this.frames, whys: Array.from(new Set(this.rows().map(({ link_type: link, why }) => (why === 'link type' ? `link type ${link}` : why)))) };
    }
}
