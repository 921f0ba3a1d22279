// The calls of nbt.mjs over a built nbt.wasm beside it. Usage: node [--expose-gc] nbt.test.mjs FOLDER HEADER, the folder of both
// files and include/nbt.h.
import assert from 'node:assert/strict';
import { readFileSync } from 'node:fs';
import { createServer } from 'node:http';
import { test } from 'node:test';
import { pathToFileURL } from 'node:url';
import vm from 'node:vm';

const [folder, header] = process.argv.slice(2);
const { load, NbtError, Status } = await import(pathToFileURL(`${folder}/nbt.mjs`));
const wasm = readFileSync(`${folder}/nbt.wasm`);
const nbt = await load();
const bytes = (text) => new TextEncoder().encode(text);
const hex = (digits) => Uint8Array.from(Buffer.from(digits, 'hex'));
const sent = { type: 0x11, identifier: 1, address: '10.0.0.5', source: 'JOE<00>', destination: 'FRED<20>', data: bytes('hello, FRED'), most: 4 };

/** What a call throws: the name of the status and the place. */
function refused(call) {
    try {
        call();
    } catch (error) {
        assert.ok(error instanceof NbtError, String(error.stack));
        assert.equal(error.number, Status[error.status]);
        assert.equal(error.missing, error.status === 'MORE' ? error.at : null);
        return [error.status, error.at];
    }
    assert.fail('it is done');
}

/** The module's own calls, and its memory. */
async function raw() {
    const { exports } = (await WebAssembly.instantiate(wasm, {})).instance;
    return { ...exports, size: () => exports.memory.buffer.byteLength };
}

test('a module has each call of nbt.h', async () => {
    const { exports } = (await WebAssembly.instantiate(wasm, {})).instance;
    const calls = new Set(Array.from(readFileSync(header, 'utf8').matchAll(/^(?:uint32_t|void) (nbt_[a-z_]+)\(/gm), ([, name]) => name));
    const source = readFileSync(`${folder}/nbt.mjs`, 'utf8');
    // What these give, another call gives.
    const told = ['read', 'item'].map((part) => `nbt_service_${part}`);
    for (const name of calls) {
        assert.equal(typeof exports[name], 'function');
        assert.equal(source.split(`'${name}'`).length, told.includes(name) ? 2 : 3, `${name} is listed and called`);
    }
});

test('version', () => {
    assert.equal(nbt.version(), /NBT_VERSION "(.*)"/.exec(readFileSync(header, 'utf8'))[1]);
});

test('what an error has', () => {
    assert.deepEqual(refused(() => nbt.readSession(hex('000000056865'))), ['MORE', 3]);
    assert.deepEqual(refused(() => nbt.readDatagramFront(new Uint8Array(9))), ['TRUNCATED', 9]);
    assert.deepEqual(refused(() => nbt.writeDatagram({ ...sent, most: 0 })), ['ZERO_PIECE', null]);
    assert.deepEqual(refused(() => nbt.spell('\ud800')), ['BAD_TEXT', 0]);
    const front = nbt.readServiceFront(nbt.request('query', { identifier: 3, name: 'FRED<20>' }).subarray(0, 48));
    assert.ok(front.fault instanceof NbtError && front.fault.status === 'TRUNCATED' && front.fault.at === 48);
});

test('packets from an offset on', () => {
    const session = nbt.writeSession(0x81, Uint8Array.of(...nbt.spell('FRED<20>'), ...nbt.spell('JOE<00>'))), [datagram] = nbt.writeDatagram(sent);
    const query = nbt.request('query', { identifier: 3, name: 'FRED<20>' });
    for (const [call, packet] of [[nbt.readService, query], [nbt.readServiceFront, query], [nbt.readDatagram, datagram], [nbt.readDatagramFront, datagram],
        [nbt.readSession, session], [nbt.readSessionFront, session]]) {
        const later = Uint8Array.of(9, 9, 9, ...packet);
        for (const given of [[later, 3], [new DataView(later.buffer, 3)], [new DataView(later.buffer, 1), 2]]) assert.deepEqual(call(...given), call(packet));
        assert.throws(() => call(later, later.length + 1), RangeError);
        assert.throws(() => call('0000'), TypeError);
    }
    assert.deepEqual(refused(() => nbt.readDatagram(Uint8Array.of(9, 9, 9, ...datagram.subarray(0, 60)), 3)), ['TRUNCATED', 60]);
});

test('what is left out has a usual value', () => {
    assert.deepEqual(nbt.writeDatagram({ ...sent, most: undefined, data: new Uint8Array(513) }).length, 2);
    assert.equal(nbt.readDatagram(nbt.writeDatagram(sent)[0]).port, 138);
    assert.deepEqual(nbt.writeDatagramError({ identifier: 7, address: '10.0.0.9', code: 0x82 }), hex('130200070a000009008a82'));
    assert.equal(nbt.readDatagram(nbt.writeDatagramQuery({ type: 0x14, identifier: 1, address: 5, name: 'FRED<20>' })).port, 138);
    assert.deepEqual(nbt.writeSession(0x85), hex('85000000'));
    const plain = { identifier: 3, name: 'FRED<20>' }, none = { broadcast: false, timeToLive: 0, flags: 0, address: 0 };
    assert.deepEqual(nbt.request('registration', plain), nbt.request('registration', { ...plain, ...none }));
    assert.deepEqual(nbt.response({ ...plain, word: 0x8503, type: 10 }), nbt.response({ ...plain, word: 0x8503, type: 10, timeToLive: 0, data: new Uint8Array() }));
    const keys = (count) => Array.from({ length: count }, (_, i) => `0a000005008a${i.toString(16).padStart(4, '0')}00`);
    const table = (count) => hex(`4e425432${count.toString(16).padStart(8, '0')}${keys(count).join('')}`), station = new nbt.Station([], '10.0.0.9');
    assert.deepEqual(nbt.merge(table(65_535), table(0)), table(65_535));
    assert.deepEqual(station.absorb(0, table(1_024)), []);
    assert.deepEqual(refused(() => station.absorb(0, table(1_025))), ['TABLE_FULL', null]);
    station.close();
});

test('names of a station', () => {
    const names = Array.from({ length: 255 }, (_, i) => `${i}<20>`);
    for (const [given, ...wanted] of [[names, 'TOO_MANY_NAMES', names.slice(0, 254).join(' ').length + 1], [['FRED<20> JOE<00>'], 'BAD_TEXT', 8], [[''], 'BAD_TEXT', 0],
        [['FRED<20>', ''], 'BAD_TEXT', 9]]) {
        assert.deepEqual(refused(() => new nbt.Station(given, '10.0.0.9')), wanted);
    }
    for (const given of [names.slice(0, 254), new Set(['FRED<20>', 'ANN<20>'])]) new nbt.Station(given, 0x0a00000a).close();
});

test('what a station answers', () => {
    const station = new nbt.Station(['FRED<20>'], '10.0.0.9'), pieces = nbt.writeDatagram(sent), key = { address: '10.0.0.5', port: 138, identifier: 1 };
    const none = { address: null, port: 0, identifier: 0 }, kept = { outcome: 'KEPT', ...key, delivery: null, error: null, refusal: null };
    assert.deepEqual([station.take(0, pieces[2]), station.take(1n, pieces[1])], [kept, kept]);
    const delivery = { type: 0x11, ...key, source: 'JOE<00>', destination: 'FRED<20>', data: bytes('hello, FRED') };
    assert.deepEqual(station.take(2n, pieces[0]), { ...kept, outcome: 'DELIVERED', delivery });
    assert.deepEqual(station.take(3, hex('130000010a000005008a82')), { ...kept, ...none, outcome: 'OTHER' });
    const { refusal, ...rest } = station.take(3, pieces[0].subarray(0, 40));
    assert.deepEqual([rest, refusal.status, refusal.at], [{ outcome: 'REFUSED', ...none, delivery: null, error: null }, 'TRUNCATED', 40]);
    station.close();
    station.close();
    assert.throws(() => station.list(), /closed/);
    assert.throws(() => station.take(0, pieces[0]), /closed/);
});

/** A payload with a chain of so many pointers in the RDATA of its first record, and so many records of servers that point to its end. */
function chained(pointers, records) {
    const payload = [0, 1, 0x85, 0, 0, 0, (records + 1) >> 8, (records + 1) & 255, 0, 0, 0, 0, 0, 0, 10, 0, 1, 0, 0, 0, 0, (2 * pointers) >> 8, (2 * pointers) & 255];
    let last = 11;
    for (let each = 0; each < pointers; each++) {
        const here = payload.length;
        payload.push(0xc0 | (last >> 8), last & 255);
        last = here;
    }
    for (let each = 0; each < records; each++) payload.push(0, 0, 2, 0, 1, 0, 0, 0, 0, 0, 2, 0xc0 | (last >> 8), last & 255);
    return Uint8Array.from(payload);
}

test('a chain of pointers is followed once for many records', () => {
    const payload = chained(8_176, 3_776), { records, used } = nbt.readService(payload);
    assert.deepEqual([records.length, used], [3_777, payload.length]);
    assert.ok(records.slice(1).every(({ server }) => server.length === 1 && server[0] === 0));
});

test('odd arguments', () => {
    const good = Uint8Array.of(0x85, 0, 0, 0);
    for (const port of [-1, 65_536, 1.5, NaN, Infinity, '139', null, undefined, {}, [], 139n, Symbol('port'), true]) {
        assert.throws(() => nbt.show(port, good), RangeError);
    }
    for (const payload of ['8500', [0x85], null, undefined, 5, {}, { length: 4 }, new Proxy(good, {}), { buffer: good.buffer, byteOffset: 0, byteLength: 1 }]) {
        assert.throws(() => nbt.show(139, payload), TypeError);
    }
    for (const address of ['10.0.0', '10.0.0.256', '10.0.0.05', '10.0.0.5.6', '', ' 10.0.0.5', '0x0a.0.0.5', -1, 2 ** 32, null]) {
        assert.throws(() => new nbt.Station(['FRED<20>'], address), RangeError);
    }
    for (const names of ['FRED<20>', [5], [null], 5, null, undefined]) assert.throws(() => new nbt.Station(names, '10.0.0.9'), TypeError);
    for (const moment of [-1, 0.5, 2 ** 53, 2n ** 64n, -1n, '0', null]) {
        const station = new nbt.Station([], 0);
        assert.throws(() => station.tick(moment), RangeError);
        station.close();
    }
    assert.throws(() => nbt.Station(['FRED<20>'], 0), TypeError);
    assert.throws(() => nbt.Station.prototype.take.call({}, 0, good), TypeError);
    const from = { identifier: 7, address: '10.0.0.9', word: 0x8500, code: 0x82, type: 0x14, name: 'FRED<20>' };
    for (const [call, ...odd] of [
        [nbt.writeDatagramError, { code: 256 }, { identifier: 65_536 }, { address: '10.0.0' }, { port: -1 }, { code: undefined }], [nbt.writeDatagramQuery, { type: 256 }],
        [nbt.response, { identifier: -1 }, { word: 65_536 }, { type: undefined }, { timeToLive: 2 ** 32 }],
    ]) {
        for (const each of odd) assert.throws(() => call({ ...from, ...each }), RangeError);
        if (call !== nbt.writeDatagramError) assert.throws(() => call({ ...from, name: undefined }), TypeError);
    }
    assert.throws(() => nbt.response({ ...from, data: '60' }), TypeError);
    assert.throws(() => nbt.request('toString', from), RangeError);
    for (const place of [-1, 0.5, 2 ** 53, '56', 56n, undefined]) assert.throws(() => nbt.readDomain(good, place, 1), RangeError);
    for (const call of [nbt.readDomain, nbt.tableJson]) assert.throws(() => call('c00c', 0, 2), TypeError);
    for (const line of ['tick 7\n', '# an office\n', 'tick 7\r']) assert.deepEqual(refused(() => nbt.readLine(line)), ['BAD_LINE', null]);
    for (const line of [null, 7, ['tick 7']]) assert.throws(() => nbt.readLine(line), TypeError);
    assert.deepEqual(nbt.readLine(new Uint8Array(bytes('tick 9')).buffer), { kind: 'tick', moment: 9n });
    for (const limit of [-1, '5', NaN, 2 ** 60]) assert.rejects(load({ limit }), RangeError);
});

test('buffers of any kind', () => {
    const good = Uint8Array.of(0x85, 0, 0, 0), shared = new SharedArrayBuffer(4);
    new Uint8Array(shared).set(good);
    for (const payload of [good.buffer, shared, Buffer.from(good), new Uint8ClampedArray(good), new DataView(good.buffer), new Uint16Array(good.buffer), new Float32Array(good.buffer)]) {
        assert.equal(nbt.show(139, payload), 'keepalive used=4\n');
    }
    assert.equal(nbt.show(139, vm.runInNewContext('new Uint8Array([0x85, 0, 0, 0])')), 'keepalive used=4\n');
    assert.equal(nbt.show(139, vm.runInNewContext('new Uint8Array([0x85, 0, 0, 0]).buffer')), 'keepalive used=4\n');
    // One whose length is said to be another is as long as it is.
    for (const length of [1 << 30, 0, -1, 2.5]) {
        const liar = new Uint8Array(good);
        Object.defineProperty(liar, 'length', { value: length });
        assert.equal(nbt.show(139, liar), 'keepalive used=4\n');
    }
    class Odd extends Uint8Array {
        static get [Symbol.species]() { return Array; }
        get byteLength() { return 3; }
        slice() { throw new Error('slice is called'); }
        subarray() { throw new Error('subarray is called'); }
    }
    assert.equal(nbt.show(139, new Odd(good)), 'more 1\n');
    const gone = new Uint8Array(4);
    structuredClone(gone.buffer, { transfer: [gone.buffer] });
    assert.throws(() => nbt.show(139, gone), TypeError);
    if (ArrayBuffer.prototype.resize) {
        const buffer = new ArrayBuffer(8, { maxByteLength: 16 }), view = new Uint8Array(buffer);
        view.set(good);
        buffer.resize(4);
        assert.equal(nbt.show(139, view), 'keepalive used=4\n');
    }
});

test('a call within the arguments of another', () => {
    const station = new nbt.Station(['FRED<20>'], '10.0.0.9'), piece = nbt.writeDatagram(sent)[0];
    const options = { ...sent, get source() { station.take(0, piece); nbt.show(139, new Uint8Array(100_000)); return 'JOE<00>'; } };
    assert.deepEqual(nbt.writeDatagram(options)[0], piece);
    const names = { *[Symbol.iterator]() { yield 'FRED<20>'; nbt.show(139, new Uint8Array(1_000_000)); yield 'JOE<00>'; } };
    new nbt.Station(names, { toString: () => '10.0.0.9' }.toString()).close();
    station.close();
});

test('answers are the caller\'s', () => {
    const spelling = nbt.spell('FRED<20>'), pieces = nbt.writeDatagram(sent), read = nbt.readDatagram(pieces[0]);
    for (const answer of [spelling, ...pieces, read.data]) answer.fill(0xff);
    assert.deepEqual(nbt.writeDatagram(sent).map((piece) => piece.length), [86, 86, 85]);
    assert.equal(nbt.text(nbt.spell('FRED<20>')), 'FRED<20>');
    assert.ok(spelling.buffer.byteLength < 1_000, 'an answer has no more memory than its own');
});

/** A station filled with datagrams until one is refused, or until it has as many as it may: how many it has. */
function filled(station, length, most = Infinity) {
    for (let count = 0; ; count += 1) {
        if (count === most) return count;
        const piece = nbt.writeDatagram({ ...sent, identifier: count & 0xffff, address: count >>> 16, data: new Uint8Array(length), most: 65_000 })[0];
        try {
            station.take(0, piece);
        } catch (error) {
            assert.equal(error.status, 'NO_MEMORY');
            return count;
        }
    }
}

test('a limit', async () => {
    const limit = 8 << 20, one = await load({ module: wasm, limit }), station = new one.Station(['FRED<20>'], 0, { keys: 9_999 });
    const count = filled(station, 60_000);
    assert.ok(count > 20 && count * 60_000 < limit, `${count} datagrams`);
    assert.ok(one.show(139, Uint8Array.of(0x85, 0, 0, 0)) === 'keepalive used=4\n', 'the library goes on');
    assert.equal(station.tick(5_000), count);
    assert.equal(filled(station, 60_000), count);
    assert.deepEqual(refused(() => one.show(139, new Uint8Array(limit))), ['NO_MEMORY', null]);
    station.close();
    for (let i = 0; i < 20; i += 1) {
        const again = new one.Station(['FRED<20>'], 0, { keys: 9_999 });
        assert.equal(filled(again, 60_000), count);
        again.close();
    }
    const none = await load({ module: wasm, limit: 0 });
    assert.deepEqual(refused(() => none.show(139, new Uint8Array(70_000))), ['NO_MEMORY', null]);
    assert.equal(none.show(139, Uint8Array.of(0x85, 0, 0, 0)), 'keepalive used=4\n');
});

test('a table for which there is no memory leaves a station as it was', async () => {
    const tables = [3 << 20, 1 << 30].map(async (limit) => {
        const one = await load({ module: wasm, limit }), station = new one.Station(['FRED<20>'], 0, { keys: 9_999 });
        return [one, station, filled(station, 60_000, 40)];
    });
    const [[, small, count], [, great]] = await Promise.all(tables);
    assert.ok(count < 40);
    small.tick(2_000);
    for (let i = 0; i < 5; i += 1) small.take(2_000, nbt.writeDatagram({ ...sent, identifier: i, data: new Uint8Array(50_000), most: 65_000 })[0]);
    const before = small.save(), table = great.save();
    for (let i = 0; i < 5; i += 1) {
        assert.deepEqual(refused(() => small.absorb(2_000, table)), ['NO_MEMORY', null]);
        assert.deepEqual(small.save(), before);
    }
    assert.equal(small.tick(4_000), 5);
});

test('many stations in one module', () => {
    const stations = Array.from({ length: 300 }, (_, i) => new nbt.Station([`S${i}<20>`], i)), alone = stations.map(() => []);
    for (let step = 0; step < 6_000; step += 1) {
        const which = (step * 7_919) % 300, station = stations[which];
        const [piece] = nbt.writeDatagram({ ...sent, identifier: step % 9, destination: `S${which}<20>`, data: new Uint8Array(step % 50), most: 99 });
        alone[which].push([step, piece]);
        station.take(step, piece);
        if (step % 11 === 0) station.tick(step);
        if (step % 501 === 500) {
            stations[which].close();
            stations[which] = new nbt.Station([`S${which}<20>`], which);
            alone[which] = [];
        }
    }
    stations.forEach((station, which) => {
        const again = new nbt.Station([`S${which}<20>`], which);
        station.tick(2 ** 50), again.tick(2 ** 50);
        for (const [, piece] of alone[which]) {
            station.take(2 ** 50, piece);
            again.take(2 ** 50, piece);
        }
        assert.deepEqual(station.save(), again.save());
        again.close();
        station.close();
    });
});

test('a stack that ends within a call', async () => {
    const one = await load({ module: wasm }), query = one.request('query', { identifier: 3, name: 'FRED<20>' }), said = one.show(137, query);
    let isCut = false;
    // The engine's stack ends somewhere in here; from there outwards each call is made with a little more of it.
    function deep() {
        try {
            deep();
        } catch {
            // The deepest call.
        }
        try {
            assert.equal(one.show(137, query), said);
            assert.ok(!isCut);
        } catch (fault) {
            if (/load the module again/.test(fault.message)) isCut = true;
        }
    }
    deep();
    if (isCut) assert.throws(() => one.show(137, query), /load the module again/);
    else assert.equal(one.show(137, query), said);
});

test('a station that is forgotten is given back', { skip: !globalThis.gc }, async () => {
    const one = await load({ module: wasm, limit: 16 << 20 });
    for (let round = 0; round < 40; round += 1) {
        const station = new one.Station(['FRED<20>'], 0);
        for (let i = 0; i < 20; i += 1) station.take(0, one.writeDatagram({ ...sent, identifier: i, data: new Uint8Array(60_000), most: 65_000 })[0]);
        await new Promise((done) => setTimeout(done, 5));
        globalThis.gc();
        await new Promise((done) => setTimeout(done, 5));
    }
});

test('what is loaded', async () => {
    assert.equal((await load({ module: new WebAssembly.Module(wasm) })).show(139, Uint8Array.of(0x85, 0, 0, 0)), 'keepalive used=4\n');
    assert.equal((await load({ module: pathToFileURL(`${folder}/nbt.wasm`) })).text(nbt.spell('FRED<20>')), 'FRED<20>');
    await assert.rejects(load({ module: 'file:///nowhere/nbt.wasm' }), /ENOENT/);
    await assert.rejects(load({ module: new Uint8Array(8) }), WebAssembly.CompileError);
    await assert.rejects(load({ module: Uint8Array.of(0, 97, 115, 109, 1, 0, 0, 0) }), /another version than nbt.mjs and lacks heap_give_back/);
    const server = createServer((request, answer) => {
        answer.writeHead(request.url === '/nbt.wasm' ? 200 : 404, { 'content-type': 'application/wasm' });
        answer.end(request.url === '/nbt.wasm' ? wasm : '');
    });
    await new Promise((done) => server.listen(0, '127.0.0.1', done));
    const place = `http://127.0.0.1:${server.address().port}`;
    assert.equal((await load({ module: `${place}/nbt.wasm` })).text(nbt.spell('FRED<20>')), 'FRED<20>');
    await assert.rejects(load({ module: `${place}/other` }), /status 404/);
    await new Promise((done) => server.close(done).closeAllConnections());
    await assert.rejects(load({ module: 5 }), TypeError);
});

test('an engine without memory64', async () => {
    const { validate } = WebAssembly;
    WebAssembly.validate = () => false;
    try {
        await assert.rejects(load({ module: wasm }), /^Error: nbt.wasm needs memory64: Chromium 133, Firefox 134, node 24 .*$/);
    } finally {
        WebAssembly.validate = validate;
    }
});

test('memory: what is freed is used again, and blocks keep their bytes', async () => {
    const heap = await raw(), blocks = [];
    let seed = 1, held = 0;
    const random = (below) => { seed = (Math.imul(seed, 1_103_515_245) + 12_345) >>> 0; return (seed >>> 8) % below; };
    const check = ({ at, length, byte }) => assert.ok(Buffer.from(heap.memory.buffer, at, length).equals(Buffer.alloc(length, byte)));
    for (let step = 0; step < 40_000; step += 1) {
        if (blocks.length === 0 || (held < 3 << 20 && random(2) === 0)) {
            const length = random(8) === 0 ? random(100_000) : random(400), at = Number(heap.heap_take(BigInt(length)));
            assert.ok(at > 0 && at % 16 === 0 && at + length <= heap.size());
            const byte = random(256);
            new Uint8Array(heap.memory.buffer, at, length).fill(byte);
            blocks.push({ at, length, byte });
            held += length;
        } else {
            const [block] = blocks.splice(random(blocks.length), 1);
            check(block);
            heap.heap_give_back(BigInt(block.at));
            held -= block.length;
        }
    }
    blocks.forEach(check);
    const ordered = blocks.toSorted ? blocks.toSorted((a, b) => a.at - b.at) : [...blocks].sort((a, b) => a.at - b.at);
    ordered.forEach((block, i) => assert.ok(i === 0 || ordered[i - 1].at + ordered[i - 1].length <= block.at));
    assert.ok(heap.size() < 9 << 20, `${heap.size()} bytes for at most 3 MiB at a time`);
    for (const block of blocks) heap.heap_give_back(BigInt(block.at));
    // Nothing is left in use: all of it is one block again.
    const size = heap.size(), all = heap.heap_take(BigInt(size - (2 << 20)));
    assert.ok(all > 0n && heap.size() === size);
});

test('memory: its limit, and requests that no memory has', async () => {
    const heap = await raw();
    for (const length of [2n ** 64n - 1n, 2n ** 63n, 2n ** 62n, 2n ** 62n + 1n, 2n ** 48n, 2n ** 64n - 16n]) assert.equal(heap.heap_take(length), 0n);
    const size = heap.size();
    heap.heap_limit(BigInt(size));
    const taken = [];
    for (let at; (at = heap.heap_take(1_000n)) > 0n; ) taken.push(at);
    assert.equal(heap.size(), size);
    taken.forEach((at, i) => i % 2 === 0 && heap.heap_give_back(at));
    for (const at of taken.filter((_, i) => i % 2 === 0)) assert.ok(heap.heap_take(1_000n) > 0n, String(at));
    assert.equal(heap.heap_take(1_000n), 0n);
    heap.heap_limit(BigInt(size + 100_000));
    assert.ok(heap.heap_take(60_000n) > 0n);
    assert.equal(heap.size(), size + 65_536);
    assert.equal(heap.heap_take(60_000n), 0n);
    heap.heap_limit(0n);
    assert.equal(heap.heap_take(60_000n), 0n);
    heap.heap_give_back(taken[1]);
    assert.ok(heap.heap_take(900n) > 0n);
});

/** A module that does something after each call of a name. */
async function interrupted(name, then) {
    const { instantiate } = WebAssembly;
    WebAssembly.instantiate = async (...words) => {
        const { exports } = (await instantiate(...words)).instance;
        const call = (...given) => {
            const status = exports[name](...given);
            then();
            return status;
        };
        return { instance: { exports: { ...exports, [name]: call } } };
    };
    try {
        return await load({ module: wasm });
    } finally {
        WebAssembly.instantiate = instantiate;
    }
}

test('memory that other threads change is copied before it is judged', async () => {
    const [datagram, otherDatagram] = [1, 2].map((identifier) => nbt.writeDatagram({ ...sent, identifier, most: 512, source: `NODE${identifier}<00>` })[0]);
    const call = nbt.writeSession(0x81, Uint8Array.of(...nbt.spell('FRED<20>'), ...nbt.spell('JOE<00>')));
    const message = Uint8Array.of(0, 0, 0, 68, ...new Uint8Array(68));
    for (const [name, read, before, after] of [
        ['nbt_datagram_read', (it, buffer) => it.readDatagram(buffer), datagram, otherDatagram],
        ['nbt_datagram_front', (it, buffer) => it.readDatagramFront(buffer), datagram, otherDatagram],
        ['nbt_session_read', (it, buffer) => it.readSession(buffer), call, message],
        ['nbt_session_front', (it, buffer) => it.readSessionFront(buffer), call, message],
    ]) {
        const buffer = new SharedArrayBuffer(before.length), view = new Uint8Array(buffer);
        const other = await interrupted(name, () => view.set(after));
        for (const given of [buffer, view, new DataView(buffer)]) {
            view.set(before);
            assert.deepEqual(read(other, given), read(nbt, before));
        }
    }
});

test('package.json says which node runs it without a flag', async () => {
    const { engines } = JSON.parse(readFileSync(new URL('../package.json', import.meta.url), 'utf8'));
    const first = readFileSync(`${folder}/nbt.mjs`, 'utf8').match(/ node (\d+) or deno/)[1];
    assert.equal(engines.node, `>=${first}`);
});

test('the types have each call', () => {
    const types = readFileSync(new URL('../nbt.d.mts', import.meta.url), 'utf8');
    assert.ok(Object.keys(nbt).length >= 20);
    for (const name of Object.keys(nbt)) assert.match(types, new RegExp(`^    (readonly )?${name}(\\(|:)`, 'm'), name);
});
