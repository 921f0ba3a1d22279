/** The keys of a table, as the library lists them: `KEY whole ..`, `KEY partial ..`, `KEY spoilt`. docs/FORMATS.md, "`nbt list`". */

export interface Key {
    line: string; key: string;
    state: string; // whole, partial or spoilt
    kind: string; source: string; destination: string; places: [number, number][];
    held: number; // how many bytes are there
    end: number | null; // how many bytes the datagram has, if that is known
    wide: number; // up to where anything is known or promised
    data: string; // digits of a whole one
}

/** The text of a key. */
export function keyText({ address, port, identifier }: { address: string, port: number, identifier: number }) {
    return `${address}:${port}/${identifier.toString(16).padStart(4, '0')}`;
}

export function keyOf(line: string): Key {
    const [key, state, kind = '', source = '', destination = '', ...rest] = line.split(' ');
    const found: Key = { line, key, state, kind, source, destination, places: [], held: 0, end: null, wide: 0, data: '' };
    if (state === 'whole') {
        found.data = rest[0] === 'empty' ? '' : rest[0];
        found.end = found.wide = found.held = found.data.length / 2;
        if (found.end) found.places = [[0, found.end]];
    } else if (state === 'partial') {
        const [numbers, , places, , more] = rest;
        const [held, end] = numbers.split('/');
        found.held = Number(held);
        found.end = end === '?' ? null : Number(end);
        found.places = places === '-' ? [] : places.split(',').map((each) => each.split('-').map(Number) as [number, number]);
        found.wide = Math.max(found.end ?? 0, Number(more ?? 0), found.places.at(-1)?.[1] ?? 0);
    }
    return found;
}
