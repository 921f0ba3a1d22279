// The calls of rows in WebAssembly, as tests/library/calls.c makes them: it reads the same rows of calls.def and of standard input, and prints
// the same. Usage: node calls.mjs MODULE judged|refused <ROWS. With `refused` they are made once more, each request for memory refused in
// turn: they answer the same, and memory stays as large.
import { readFileSync, writeFileSync } from 'node:fs';

const [path, way] = process.argv.slice(2);
const { instance } = await WebAssembly.instantiate(readFileSync(path), {});
const nbt = instance.exports;
const DONE = 0, NO_ROOM = 1, NO_MEMORY = 2, FILL = 0xa5, UNSAID = 2n ** 64n - 89n, ENTRIES = 3, MOST_FILLED = ENTRIES * 600;
const definitions = readFileSync(new URL('calls.def', import.meta.url), 'latin1');
const rows = new Map(Array.from(definitions.matchAll(/^ROW\((\w+), (\w+), (\d+), \w+, \((.*)\)\)$/gm),
    ([, name, structure, size, words]) => [name, { structure, size: Number(size), words: words.split(', ') }]));
const holes = Array.from(definitions.matchAll(/HOLE\((\w+), (\d+), (\d+)\)/g), ([, structure, from, to]) => ({ structure, from, to }));
for (const row of rows.values()) {
    const own = holes.filter(({ structure }) => structure === row.structure);
    row.isField = Array.from({ length: row.size }, (_, place) => own.every(({ from, to }) => place < from || place >= to));
}

// Where things lie, in one piece of memory, of which what is written has as much as in harness.c.
const SPACE = 1 << 21, WRITTEN_SPACE = 6144 * 4096, big = BigInt;
const base = Number(nbt.heap_take(big(4 * SPACE + WRITTEN_SPACE)));
const [numbers, ...inputs] = [0, 1, 2, 3].map((which) => base + which * SPACE), into = base + 4 * SPACE;
const [used, at, filled] = [numbers, numbers + 8, numbers + 1024], stationAt = (which) => numbers + 64 + 8 * which;
const names = new Map(), stations = new Map();
let memory, view, out, number, refusals = 0, untouched = Buffer.alloc(1 << 12, FILL);

function look() {
    if (memory?.buffer === nbt.memory.buffer) return;
    memory = new Uint8Array(nbt.memory.buffer);
    view = new DataView(nbt.memory.buffer);
}

function expect(holds, what) {
    if (holds) return;
    writeFileSync(1, out.join(''));
    console.error(`line ${number}: not so: ${what}`);
    process.exit(1);
}

const size = (place) => view.getBigUint64(place, true);
const isUntouched = (start, end) => {
    if (untouched.length < end - start) untouched = Buffer.alloc(end - start, FILL);
    return untouched.compare(memory, start, end, 0, end - start) === 0;
};

/** The bytes of a name, or of digits. */
const bytesOf = (word) => names.get(word) ?? Uint8Array.from(Buffer.from(word.replace('empty', ''), 'hex'));

/** The digits of a sum of bytes, or of those that are fields of structures. */
function sumOf(bytes, isField = [true]) {
    let sum = 0x811c9dc5;
    for (let place = 0; place < bytes.length; place++) if (isField[place % isField.length]) sum = Math.imul(sum ^ bytes[place], 0x01000193);
    return (sum >>> 0).toString(16).padStart(8, '0');
}

// What is asked, by the words of a row of calls.def, as each of them stands there.
const GIVEN = {
    IN(it, asked) {
        const given = bytesOf(it), place = inputs[asked.inputs.push(given) - 1];
        return [big(place), big(given.length)];
    },
    N: (it) => [Number(BigInt.asIntN(32, big(it)))],
    L: (it) => [big(it)],
    B: (it) => [it === '0' ? 0 : 1],
    STATION: (it) => [big(stations.get(it) ?? stations.set(it, stationAt(stations.size)).get(it))],
};
GIVEN.MADE = GIVEN.STATION;

function askedOf(row, given) {
    const asked = { inputs: [], values: new Map() }, kindOf = (word) => GIVEN[/^[A-Z]+/.exec(word)[0]];
    row.words.filter(kindOf).forEach((word, index) => asked.values.set(word, kindOf(word)(given[index], asked)));
    return asked;
}

// The words of a call, in a room.
const WRITTEN = { FILLED: [big(filled)], ENTRIES: [big(ENTRIES)], USED: [big(used)], AT: [big(at)] };
const values = (word, asked, room) => asked.values.get(word) ?? (word === 'OUT' ? [big(into), big(room), big(used)] : WRITTEN[word]);

// A call in a room; before it calls in each of which another request is refused, where that is asked for.
function made(name, { words }, asked, room, isRefused) {
    for (let refused = Number(isRefused); ; refused++) {
        look();
        asked.inputs.forEach((input, index) => memory.set(input, inputs[index]));
        memory.fill(FILL, into, into + room + 8).fill(FILL, filled, filled + MOST_FILLED);
        [used, at].forEach((place) => view.setBigUint64(place, UNSAID, true));
        nbt.heap_refuse(big(refused));
        const status = nbt[`nbt_${name}`](...words.flatMap((word) => values(word, asked, room))) >>> 0;
        const requests = Number(nbt.heap_refuse(0n));
        look();
        const count = status === DONE && words.includes('OUT') ? Number(size(used)) : 0;
        expect(isUntouched(into + count, into + room + 8), `${name}: bytes past *used stay as they were`);
        expect(status === DONE || isUntouched(filled, filled + MOST_FILLED), `${name}: a structure is filled in at NBT_DONE alone`);
        expect(status !== NO_MEMORY || (size(used) === UNSAID && size(at) === UNSAID), `${name}: no number is written where memory runs out`);
        expect((status === NO_MEMORY) === (refused > 0 && requests >= refused), `${name}: memory runs out where a request is refused alone`);
        if (status !== NO_MEMORY) return { status, count };
        refusals++;
    }
}

/** Gives back the stations at these places. */
function free(places) {
    for (const place of places) {
        nbt.nbt_station_free(view.getBigInt64(place, true));
        look();
        view.setBigUint64(place, 0n, true);
    }
}

function answer(name, asked, isRefused) {
    const row = rows.get(name), said = (place) => size(place) === UNSAID ? '-' : size(place);
    const station = row.words.find((word) => word.startsWith('MADE'));
    if (station) free([Number(asked.values.get(station)[0])]);
    let { status, count } = made(name, row, asked, 0, isRefused);
    if (status === NO_ROOM) {
        const room = Number(size(used));
        expect(room + 11 <= WRITTEN_SPACE, 'a room in the space for it');
        expect(made(name, row, asked, room - 1, isRefused).status === NO_ROOM && size(used) === big(room), `${name}: a byte too few`);
        ({ status, count } = made(name, row, asked, room + 3, isRefused));
    }
    const structures = status !== DONE ? 0 : row.words.includes('ENTRIES') ? Number(size(used)) : 1;
    const fields = memory.subarray(filled, filled + structures * row.size);
    out.push(`${number} ${name} ${status} ${said(used)} ${said(at)} ${sumOf(memory.subarray(into, into + count))} ${sumOf(fields, row.isField)}\n`);
}

/** What all calls answer. */
function run(isRefused) {
    [out, number] = [[], 0];
    look();
    for (const place of stations.values()) view.setBigUint64(place, 0n, true);
    for (const step of steps) {
        if (step) answer(...step, isRefused);
        else number++;
    }
    free(stations.values());
    return out.join('');
}

/** What a line asks, null of one that begins a payload's; undefined of one that gives a name. */
function stepOf(line) {
    const [name, ...given] = line.split(' ');
    if (name === 'line') return null;
    if (name === 'let') names.set(given[0], bytesOf(given[2]));
    return rows.has(name) ? [name, askedOf(rows.get(name), given)] : undefined;
}

const steps = readFileSync(0, 'latin1').split('\n').map(stepOf).filter((step) => step !== undefined);
const answered = run(false), bytes = nbt.memory.buffer.byteLength;
if (way === 'refused') {
    expect(run(true) === answered, 'the same answers where requests are refused');
    expect(nbt.memory.buffer.byteLength === bytes, 'as much memory as before');
}
writeFileSync(1, answered);
console.error(`${refusals} refusals`);
