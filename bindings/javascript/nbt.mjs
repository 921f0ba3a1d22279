/** NetBIOS packets over TCP and UDP (RFC 1001, RFC 1002): the library of nbt.h in WebAssembly, for node, deno and browsers.
 * nbt.d.mts says what each call is given and answers. */

// In the file that is handed out this line is what it names.
import { CALLS, FIRST_ITEM, KEYS, LINES, MOST_KEYS, OUTCOMES, REQUESTS, SECTIONS, SESSION, Status, TAKE_ROOM, TYPE } from './header.mjs';

export { Status };
const STATUS_NAMES = new Map(Object.entries(Status).map(([name, number]) => [number, name]));
const NO_LIMIT = 0xffff_ffff;
// In front of the bytes that a call is given: how many it used, a place, and a structure of numbers. INTO is its room.
const USED = { at: 0 }, AT = { at: 8 }, FOUND = { at: 16 }, FRONT = 528, INTO = {};
// ENTRIES is room for structures of so many bytes, of which a call fills in many at once, so many at most. An item has no fewer bytes.
const ENTRIES = {}, ENTRY = 560, MOST_ENTRIES = 1_024, LEAST_ITEM = 5;
// How much room an answer has at first, and how much is kept from one call to the next.
const ROOM = 4_096, MOST_KEPT = 1 << 20;
const utf8 = new TextEncoder(), ascii = new TextDecoder();

/** Why a call did nothing. */
export class NbtError extends Error {
    constructor(number, at, words) {
        super(at === null ? words : `${words} ${at}`);
        this.name = 'NbtError';
        this.status = STATUS_NAMES.get(number) ?? 'UNKNOWN_STATUS';
        this.number = number;
        this.at = at;
        this.missing = number === Status.MORE ? at : null;
    }
}

function numberOf(value, bits, what) {
    if (Number.isInteger(value) && value >= 0 && value < 2 ** bits) return value;
    throw new RangeError(`${what}: ${String(value)} is no number of ${bits} bits`);
}

function momentOf(value, what) {
    const moment = typeof value === 'bigint' ? value : BigInt(numberOf(value, 53, what));
    if (BigInt.asUintN(64, moment) === moment) return moment;
    throw new RangeError(`${what}: ${moment} is no number of 64 bits`);
}

function addressOf(value) {
    if (typeof value !== 'string') return numberOf(value, 32, 'address');
    const parts = value.split('.').map((part) => (/^(0|[1-9]\d{0,2})$/.test(part) ? Number(part) : 256));
    if (parts.length === 4 && parts.every((part) => part < 256)) return parts.reduce((sum, part) => sum * 256 + part);
    throw new RangeError(`address: ${value} is none`);
}

const limitsOf = (keys, perSource) => [numberOf(keys, 32, 'keys'), numberOf(perSource, 32, 'perSource')];
const addressText = (number) => [24, 16, 8, 0].map((bits) => (number >>> bits) & 255).join('.');

function textOf(value, what) {
    if (typeof value === 'string') return value;
    throw new TypeError(`${what}: a text is wanted`);
}

const encoded = (value, what) => utf8.encode(textOf(value, what));

/** The bytes of a buffer, from an offset on: a copy, where other threads may change them while they are judged. */
function bytesOf(value, what, offset = 0) {
    const isView = ArrayBuffer.isView(value), kind = Object.prototype.toString.call(isView ? value.buffer : value);
    if (!/^\[object (Shared)?ArrayBuffer\]$/.test(kind)) throw new TypeError(`${what}: a Uint8Array or another buffer is wanted`);
    const bytes = isView ? new Uint8Array(value.buffer, value.byteOffset, value.byteLength) : new Uint8Array(value);
    if (!Number.isInteger(offset) || offset < 0 || offset > bytes.length) {
        throw new RangeError(`offset: ${String(offset)} lies outside of ${bytes.length} bytes`);
    }
    return kind === '[object ArrayBuffer]' ? bytes.subarray(offset) : bytes.slice(offset);
}

/** A station's names with a space between two. A zero byte, which no name has, stands for a space, and for an empty text. */
function namesOf(names) {
    if (typeof names === 'string' || typeof names?.[Symbol.iterator] !== 'function') throw new TypeError('names: a list of texts is wanted');
    return utf8.encode(Array.from(names, (name) => textOf(name, 'name').replaceAll(' ', '\0') || '\0').join(' '));
}

/** The module's calls. What one is given lies in a piece of the module's memory, which the next one uses again. */
class Calls {
    constructor(exports, limit) {
        this.exports = exports;
        this.at = this.length = 0;
        exports.heap_limit(BigInt(limit));
        this.look();
    }

    look() {
        this.bytes = new Uint8Array(this.exports.memory.buffer);
        this.view = new DataView(this.exports.memory.buffer);
    }

    /** A call. One that doesn't come back, as where the engine's stack ends, may have left anything behind. */
    call(name, words) {
        if (this.fault) throw new Error('an earlier call was cut short: load the module again', { cause: this.fault });
        try {
            return this.exports[name](...words);
        } catch (fault) {
            this.fault = fault;
            throw fault;
        } finally {
            if (this.bytes.length === 0) this.look();
        }
    }

    reserve(length) {
        if (length <= this.length && (this.length <= MOST_KEPT || length > MOST_KEPT)) return;
        const earlier = this.at;
        this.at = this.length = 0;
        this.giveBack(earlier);
        this.at = this.take(Math.max(length, FRONT + ROOM));
        this.length = Math.max(length, FRONT + ROOM);
    }

    take(length) {
        const at = Number(this.call('heap_take', [BigInt(length)]));
        if (at === 0) throw this.error(Status.NO_MEMORY);
        return at;
    }

    giveBack(at) {
        if (at > 0) this.call('heap_give_back', [BigInt(at)]);
    }

    /** Makes a call. Of its words a buffer is passed as its place and its length, and INTO so is room for its answer. */
    make(name, words, room) {
        let length = FRONT + room;
        for (const word of words) if (word instanceof Uint8Array) length += word.length;
        this.reserve(length);
        let next = this.at + FRONT;
        const given = [];
        for (const word of words) {
            if (word instanceof Uint8Array) {
                this.bytes.set(word, next);
                given.push(BigInt(next), BigInt(word.length));
                next += word.length;
            } else if (word === ENTRIES) {
                this.into = (next + 7) & ~7;
                given.push(BigInt(this.into), BigInt(Math.floor(room / ENTRY)));
            } else if (word === INTO) {
                given.push(BigInt(next), BigInt(this.at + this.length - next));
                this.into = next;
            } else {
                given.push(typeof word === 'object' ? BigInt(this.at + word.at) : word);
            }
        }
        this.view.setUint32(this.at + AT.at + 4, NO_LIMIT, true);
        return this.call(name, given) >>> 0;
    }

    /** Makes a call that writes nothing but the front. */
    fill(name, words) {
        const status = this.make(name, words, 0);
        if (status !== Status.DONE) throw this.error(status);
    }

    /** Makes a call that writes bytes, once more where it wants more room: those bytes, where they lie until the next call. */
    write(name, words, room = ROOM) {
        let status = this.make(name, words, room);
        if (status === Status.NO_ROOM) status = this.make(name, words, this.number(USED.at));
        if (status !== Status.DONE) throw this.error(status);
        return this.bytes.subarray(this.into, this.into + this.number(USED.at));
    }

    /** The bytes that a structure has the place and the length of, and those that it has itself, behind their number. */
    part(bytes, at) { return bytes.slice(this.number(at), this.number(at) + this.number(at + 8)); }
    counted(at) { return this.bytes.slice(this.at + at + 1, this.at + at + 1 + this.byte(at)); }

    free(handle) {
        this.call('nbt_station_free', [this.view.getBigInt64(handle, true)]);
        this.giveBack(handle);
    }

    byte(at) { return this.view.getUint8(this.at + at); }
    word(at) { return this.view.getUint16(this.at + at, true); }
    long(at) { return this.view.getUint32(this.at + at, true); }
    number(at) { return this.long(at) + this.long(at + 4) * 2 ** 32; }
    moment(at) { return this.view.getBigUint64(this.at + at, true); }
    endpoint(at) { return { address: addressText(this.long(at)), port: this.word(at + 4) }; }
    key(at) { return { ...this.endpoint(at), identifier: this.word(at + 6) }; }

    /** Why a call did nothing. Without memory there is none to ask for the words. */
    error(status, at = status === Status.NO_MEMORY ? null : this.place()) {
        return new NbtError(status, at, status === Status.NO_MEMORY ? 'memory' : this.words(status));
    }

    /** The place that the last call wrote, if it wrote any. */
    place() { return this.long(AT.at + 4) === NO_LIMIT ? null : this.number(AT.at); }

    /** What stands of a packet of port 137, and why no more does, or null. */
    service(bytes) {
        this.fill('nbt_service_header', [bytes, FOUND, AT]);
        const [identifier, word, ...counts] = [16, 18, 20, 22, 24, 26].map((at) => this.word(at));
        const packet = { identifier, word, counts, questions: [], records: [], used: FIRST_ITEM, fault: null };
        const all = counts.reduce((sum, count) => sum + count);
        const room = Math.min(all, MOST_ENTRIES, Math.floor(bytes.length / LEAST_ITEM) + 1) * ENTRY + 8;
        for (let number = 0; number < all && !packet.fault;) {
            const status = this.make('nbt_service_items', [bytes, number, BigInt(packet.used), ENTRIES, USED, AT], room);
            if (status !== Status.DONE) packet.fault = this.error(status);
            else number += this.items(bytes, packet);
        }
        packet.records = packet.records.map((record) => ({ ...record, ...this.rdata(record) }));
        return packet;
    }

    /** Adds the questions and records that the last call filled in, and answers how many. */
    items(bytes, packet) {
        const count = this.number(USED.at);
        for (let entry = 0; entry < count; entry++) {
            const at = this.into - this.at + entry * ENTRY, section = SECTIONS[this.long(at)], spelling = this.counted(at + 41);
            const item = { spelling, isNetbios: this.byte(at + 40) === 1, type: this.word(at + 8), classNumber: this.word(at + 10) };
            packet.used = this.number(at + 32);
            if (section === 'question') packet.questions.push(item);
            else packet.records.push({ ...item, section, timeToLive: this.long(at + 4), data: this.part(bytes, at + 16), server: this.byte(at + 304) > 0 ? this.counted(at + 304) : null });
        }
        return count;
    }

    /** What the RDATA of a record says, which stands in bytes of its own: addresses, and the names of a node with its unit. */
    rdata({ type, data }) {
        const parts = (call, told) => {
            const found = [];
            for (;;) {
                const status = this.make(call, [type, data, BigInt(found.length), FOUND, AT], 0);
                if (status !== Status.DONE) return status === Status.NO_PART ? found : null;
                found.push(told());
            }
        };
        const addresses = type === TYPE.NB ? parts('nbt_service_address', () => ({ address: addressText(this.long(16)), flags: this.word(20) })) : null;
        const names = type === TYPE.NBSTAT ? parts('nbt_service_node', () => ({ flags: this.word(16), name: this.bytes.slice(this.at + 18, this.at + 34) })) : null;
        const hasUnit = names !== null && this.make('nbt_service_unit', [type, data, FOUND, AT], 0) === Status.DONE;
        return { addresses, node: names && { names, unit: hasUnit ? this.bytes.slice(this.at + 16, this.at + 22) : null } };
    }

    words(status) { return ascii.decode(this.write('nbt_status_text', [status, INTO, USED])); }
    name(spelling) { return ascii.decode(this.write('nbt_name_text', [spelling, INTO, USED, AT])); }
}

/** The datagrams of bytes that nbt_station_absorb wrote: of each its key, its type, both spellings, and its data after its length. */
function deliveries(calls, bytes) {
    const found = [], view = new DataView(bytes.buffer);
    for (let at = 0, next; at < bytes.length; at = next) {
        const source = at + 9, destination = endOf(bytes, source), length = endOf(bytes, destination);
        next = length + 2 + view.getUint16(length);
        found.push({
            type: bytes[at + 8], address: addressText(view.getUint32(at)), port: view.getUint16(at + 4),
            identifier: view.getUint16(at + 6), source: calls.name(bytes.subarray(source, destination)),
            destination: calls.name(bytes.subarray(destination, length)), data: bytes.slice(length + 2, next),
        });
    }
    return found;
}

/** Where a spelling ends: after its zero byte. */
function endOf(bytes, at) {
    while (bytes[at] > 0) at += 1 + bytes[at];
    return at + 1;
}

/** Stations that are forgotten before they are closed are given back. */
const forgotten = new FinalizationRegistry(({ calls, handle }) => calls.fault || calls.free(handle));

/** Station, of one module. */
const stationOf = (calls) => class Station {
    #handle = 0;

    constructor(names, address, { port = 138, keys = KEYS, perSource = NO_LIMIT } = {}) {
        const words = [namesOf(names), addressOf(address), numberOf(port, 16, 'port'), ...limitsOf(keys, perSource)];
        const handle = calls.take(8);
        try {
            calls.fill('nbt_station_create', [...words, BigInt(handle), AT]);
        } catch (fault) {
            if (!calls.fault) calls.giveBack(handle);
            throw fault;
        }
        this.#handle = handle;
        forgotten.register(this, { calls, handle }, this);
    }

    #open() {
        if (this.#handle === 0) throw new Error('the station is closed');
        return BigInt(this.#handle);
    }

    take(moment, payload) {
        const words = [this.#open(), momentOf(moment, 'moment'), bytesOf(payload, 'payload'), FOUND, INTO, USED];
        const written = calls.write('nbt_station_take', words, TAKE_ROOM).slice();
        const outcome = OUTCOMES[calls.long(16)], refusal = calls.long(64), at = calls.number(72), type = calls.byte(28);
        const source = calls.number(32), data = source + calls.number(40);
        const key = calls.key(20), isOfKey = outcome !== 'OTHER' && outcome !== 'REFUSED';
        const taken = { outcome, ...(isOfKey ? key : { address: null, port: 0, identifier: 0 }), delivery: null, error: null, refusal: null };
        if (outcome === 'DELIVERED') {
            const names = [written.subarray(0, source), written.subarray(source, data)].map((spelling) => calls.name(spelling));
            taken.delivery = { type, ...key, source: names[0], destination: names[1], data: written.slice(data) };
        } else if (written.length > 0) {
            taken.error = written;
        }
        if (outcome === 'REFUSED') taken.refusal = calls.error(refusal, refusal === Status.UNKNOWN_TYPE ? null : at);
        return taken;
    }

    tick(now) {
        calls.fill('nbt_station_tick', [this.#open(), momentOf(now, 'now'), FOUND]);
        return calls.long(16);
    }

    save() { return calls.write('nbt_station_save', [this.#open(), INTO, USED]).slice(); }
    list() { return ascii.decode(calls.write('nbt_station_list', [this.#open(), INTO, USED])); }

    absorb(moment, table) {
        const words = [this.#open(), momentOf(moment, 'moment'), bytesOf(table, 'table'), INTO, USED, AT];
        return deliveries(calls, calls.write('nbt_station_absorb', words).slice());
    }

    close() {
        const handle = this.#handle;
        this.#handle = 0;
        forgotten.unregister(this);
        if (handle > 0) calls.free(handle);
    }

    [Symbol.dispose ?? Symbol('dispose')]() { this.close(); }
};

/** All calls of one module but those of a station. */
function libraryOf(calls) {
    const said = (call) => (port, payload) =>
        ascii.decode(calls.write(call, [numberOf(port, 16, 'port'), bytesOf(payload, 'payload'), INTO, USED]));
    const listed = (call) => (table) => ascii.decode(calls.write(call, [bytesOf(table, 'table'), INTO, USED, AT]));
    const sender = (identifier, address, port) => [numberOf(identifier, 16, 'identifier'), addressOf(address), numberOf(port, 16, 'port')];
    const written = (call, ...words) => calls.write(call, [...words, INTO, USED, AT]).slice();
    /** A call that reads a header of port 138, the rest that it fills in, and names: they come last, since a text is a call too. */
    const readOf138 = (call, rest) => (payload, offset) => {
        const bytes = bytesOf(payload, 'payload', offset);
        calls.fill(call, [bytes, FOUND, AT]);
        const read = { type: calls.byte(16), flags: calls.byte(17), identifier: calls.word(18), offset: calls.word(26), ...calls.endpoint(20), ...rest(bytes) };
        const [source, destination] = [32, 48].map((at) => calls.part(bytes, at)).map((it) => (it.length > 0 ? calls.name(it) : null));
        return { ...read, source, destination };
    };
    return {
        Station: stationOf(calls),
        words: (status) => calls.words(numberOf(status, 32, 'status')),
        spell: (text) => written('nbt_name_spell', encoded(text, 'text')),
        text: (spelling) => calls.name(bytesOf(spelling, 'spelling')),
        show: said('nbt_show'),
        json: said('nbt_json'),
        brief: said('nbt_brief'),
        version: () => ascii.decode(calls.write('nbt_version', [INTO, USED])),
        list: listed('nbt_table_list'),
        tableJson: listed('nbt_table_json'),
        merge: (first, second, { keys = MOST_KEYS, perSource = NO_LIMIT } = {}) =>
            written('nbt_table_merge', bytesOf(first, 'first'), bytesOf(second, 'second'), ...limitsOf(keys, perSource)),

        readLine(line) {
            const bytes = typeof line === 'string' ? utf8.encode(line) : bytesOf(line, 'line');
            const payload = calls.write('nbt_capture_line', [bytes, FOUND, INTO, USED]).slice();
            const kind = LINES[calls.long(16)], moment = calls.moment(24);
            if (kind === 'blank') return null;
            return kind === 'tick' ? { kind, moment } : { kind, port: calls.word(20), moment, payload };
        },

        differ(first, second) {
            calls.fill('nbt_table_differ', [bytesOf(first, 'first'), bytesOf(second, 'second'), FOUND, AT]);
            return calls.byte(24) === 0 ? null : calls.key(16);
        },

        readDatagram: readOf138('nbt_datagram_read', (bytes) => ({ used: calls.number(80), data: calls.part(bytes, 64) })),
        readDatagramFront: readOf138('nbt_datagram_front', () => ({})),

        writeDatagram({ type, identifier, address, port = 138, source, destination, data, most = 512 }) {
            const words = [numberOf(type, 8, 'type'), ...sender(identifier, address, port), encoded(source, 'source')];
            words.push(encoded(destination, 'destination'), bytesOf(data, 'data'), numberOf(most, 16, 'most'), INTO, USED, AT);
            const written = calls.write('nbt_datagram_write', words), pieces = [];
            for (let at = 0, next; at < written.length; at = next) {
                next = at + 2 + written[at] * 256 + written[at + 1];
                pieces.push(written.slice(at + 2, next));
            }
            return pieces;
        },

        writeDatagramError: ({ identifier, address, port = 138, code }) =>
            calls.write('nbt_datagram_error', [...sender(identifier, address, port), numberOf(code, 8, 'code'), INTO, USED]).slice(),

        writeDatagramQuery: ({ type, identifier, address, port = 138, name }) =>
            written('nbt_datagram_query', numberOf(type, 8, 'type'), ...sender(identifier, address, port), encoded(name, 'name')),

        readService(payload, offset) {
            const { fault, ...packet } = calls.service(bytesOf(payload, 'payload', offset));
            if (fault) throw fault;
            return packet;
        },

        readServiceFront: (payload, offset) => calls.service(bytesOf(payload, 'payload', offset)),

        readSession(payload, offset) {
            const bytes = bytesOf(payload, 'payload', offset);
            calls.fill('nbt_session_read', [bytes, FOUND, AT]);
            const type = calls.byte(16), used = calls.number(40), words = [bytes.subarray(0, used), FOUND, AT];
            const read = { type, body: calls.part(bytes, 24), used, called: null, calling: null, retarget: null };
            if (type === SESSION.REQUEST) {
                calls.fill('nbt_session_names', words);
                [read.called, read.calling] = [16, 272].map((at) => calls.counted(at)).map((spelling) => calls.name(spelling));
            } else if (type === SESSION.RETARGET) {
                calls.fill('nbt_session_retarget', words);
                read.retarget = calls.endpoint(16);
            }
            return read;
        },

        readSessionFront(payload, offset) {
            calls.fill('nbt_session_front', [bytesOf(payload, 'payload', offset), FOUND, AT]);
            return { type: calls.byte(16), flags: calls.byte(17), bodyLength: calls.number(24) };
        },

        writeSession: (type, body = new Uint8Array()) => written('nbt_session_write', numberOf(type, 8, 'type'), bytesOf(body, 'body')),

        request(kind, { identifier, name, broadcast = false, timeToLive = 0, flags = 0, address = 0 }) {
            if (!REQUESTS.includes(kind)) throw new RangeError(`request: ${String(kind)} is none of ${REQUESTS.join(', ')}`);
            const words = [REQUESTS.indexOf(kind), numberOf(identifier, 16, 'identifier'), broadcast ? 1 : 0, encoded(name, 'name')];
            words.push(numberOf(timeToLive, 32, 'timeToLive'), numberOf(flags, 16, 'flags'), addressOf(address));
            return written('nbt_service_request', ...words);
        },

        readDomain: (payload, place, length) =>
            written('nbt_service_domain', bytesOf(payload, 'payload'), BigInt(numberOf(place, 53, 'place')), BigInt(numberOf(length, 53, 'length'))),

        response: ({ identifier, word, name, type, timeToLive = 0, data = new Uint8Array() }) =>
            written('nbt_service_response', numberOf(identifier, 16, 'identifier'), numberOf(word, 16, 'word'), encoded(name, 'name'),
                numberOf(type, 16, 'type'), numberOf(timeToLive, 32, 'timeToLive'), bytesOf(data, 'data')),
    };
}

/** The bytes of nbt.wasm, from its place. node's fetch reads no files. */
async function bytesAt(place) {
    if (place.protocol === 'file:' && globalThis.process?.versions?.node) return (await import('node:fs/promises')).readFile(place);
    const answer = await fetch(place);
    if (!answer.ok) throw new Error(`${place}: status ${answer.status}`);
    return answer.arrayBuffer();
}

/** A module of one instruction, whose memory has addresses of 64 bits. */
const MEMORY64 = Uint8Array.of(0, 97, 115, 109, 1, 0, 0, 0, 5, 3, 1, 4, 1);

/** Loads nbt.wasm: from beside this file, or what `module` is. Its memory grows to `limit` bytes at most. */
export async function load({ module = new URL('nbt.wasm', import.meta.url), limit = 1 << 30 } = {}) {
    const most = numberOf(limit, 53, 'limit');
    if (!WebAssembly.validate(MEMORY64)) {
        throw new Error('nbt.wasm needs memory64: Chromium 133, Firefox 134, node 24 or deno 2.2, or later ones; node 20 and 22 have it by the flag --experimental-wasm-memory64');
    }
    const isPlace = typeof module === 'string' || module instanceof URL;
    const source = isPlace ? await bytesAt(new URL(module, import.meta.url)) : module;
    const isCompiled = source instanceof WebAssembly.Module;
    const made = await WebAssembly.instantiate(isCompiled ? source : bytesOf(source, 'module'), {});
    const { exports } = isCompiled ? made : made.instance, lacking = CALLS.find((name) => typeof exports[name] !== 'function');
    if (lacking) throw new Error(`nbt.wasm is of another version than nbt.mjs and lacks ${lacking}: take both from one package`);
    return libraryOf(new Calls(exports, most));
}
