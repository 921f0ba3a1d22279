/** What two taps know, key by key: what only the join has whole, what one tap alone has, and what both have, but not the same. */
import { keyOf, type Key } from '../model/keys.js';
import { counted, number } from './dom.js';

/** A key as each tap knows it, and as the join does. */
export type Row = { key: string, one: Key | null, other: Key | null, both: Key };
export interface Sides {
    all: Row[];
    joined: Row[]; // whole in the join alone
    one: Row[]; // those of which the other tap has nothing
    other: Row[]; differing: Row[];
    equal: number; // how many both know the same of
}

export function sidesOf({ first, second, both }: { first: string[], second: string[], both: string[] }): Sides {
    const [one, other] = [first, second].map((lines) => new Map(lines.map((line) => [line.split(' ', 1)[0], line])));
    const all = both.map((line) => {
        const [key] = line.split(' ', 1);
        return { key, one: keyIn(one, key), other: keyIn(other, key), both: keyOf(line) };
    });
    const sides: Sides = { all, joined: [], one: [], other: [], differing: [], equal: 0 };
    for (const row of all) {
        if (row.one?.line === row.other?.line) sides.equal += 1;
        else if (row.both.state === 'whole' && ![row.one, row.other].some((each) => each?.state === 'whole')) sides.joined.push(row);
        else if (!row.other) sides.one.push(row);
        else if (!row.one) sides.other.push(row);
        else sides.differing.push(row);
    }
    return sides;
}

function keyIn(lines: Map<string, string>, key: string) {
    const line = lines.get(key);
    return line === undefined ? null : keyOf(line);
}

/** What comes of it, in a sentence or two. */
export function conclusion({ all, joined, equal }: Sides) {
    if (!all.length) return 'Neither tap has anything of a datagram.';
    const [whole, partial, spoilt] = ['whole', 'partial', 'spoilt'].map((state) => all.filter(({ both }) => both.state === state).length);
    const first = `Joined, ${number(whole)} of ${counted(all.length, 'datagram')} ${whole === 1 ? 'is' : 'are'} whole`
        + (joined.length ? `, ${number(joined.length)} of them at neither tap alone.` : '.');
    return [
        first, ...(partial ? [`${number(partial)} still ${partial === 1 ? 'lacks' : 'lack'} bytes.`] : []),
        ...(spoilt ? [`Of ${number(spoilt)} the fragments contradict each other.`] : []),
        equal === all.length ? 'Both taps know the same.' : `Of ${number(all.length - equal)} the taps know different things.`,
    ].join(' ');
}
