// What the package for JavaScript answers to rows on standard input, a line each: rows.py says how both are written.
// Usage: node answers.mjs FOLDER <ROWS.
import { readFileSync, writeFileSync } from 'node:fs';
import { pathToFileURL } from 'node:url';

const nbt = await (await import(pathToFileURL(`${process.argv[2]}/nbt.mjs`))).load();
const TYPES = { 0x10: 'unique', 0x11: 'group', 0x12: 'broadcast' };
const hex = (bytes) => Buffer.from(bytes).toString('hex'), digits = (bytes) => hex(bytes) || 'empty';

// ---- payloads, in the words of tests/model/values.py

/** What a call answers, or null and its fault. */
function tried(call) {
    try {
        return { read: call(), fault: null };
    } catch (fault) {
        if (fault.name !== 'NbtError') throw fault;
        return { read: null, fault };
    }
}

/** What a payload says by two readers, which have to agree on its fault. */
const said = (readFront, readWhole, front = (it) => it, whole = front) => (payload) => {
    const { read } = tried(() => readFront(payload)), { read: packet, fault } = tried(() => readWhole(payload));
    if (read?.fault !== undefined && read.fault?.message !== fault?.message) throw new Error('the fault of a front is another');
    const told = fault && { status: fault.status, number: fault.number, at: fault.at };
    return [JSON.stringify({ fault: told, front: read && front(read), packet: packet && whole(packet) }, plain)];
};

/** Bytes as digits, and the members of an object in the order of their names. */
function plain(_, value) {
    if (value instanceof Uint8Array) return hex(value);
    return value === null || typeof value !== 'object' || Array.isArray(value) ? value : Object.fromEntries(Object.entries(value).sort());
}

/** The text of a domain name: that of a NetBIOS name, or its labels. */
function domainText(spelling) {
    const { read } = tried(() => nbt.text(spelling)), labels = [];
    const character = (byte) => (/[^!-~]|[.<>\\]/.test(String.fromCharCode(byte)) ? `\\${hex([byte])}` : String.fromCharCode(byte));
    for (let at = 0; spelling[at] > 0; at += 1 + spelling[at]) {
        labels.push(Array.from(spelling.subarray(at + 1, at + 1 + spelling[at]), character).join(''));
    }
    return read ?? (labels.join('.') || '.');
}

/** The text of a name of sixteen bytes, by its spelling. */
const nodeName = (name) => nbt.text(Uint8Array.of(32, ...Array.from(name).flatMap((byte) => [65 + (byte >> 4), 65 + (byte & 15)]), 0));

/** What a question and a record have alike. The text of a NetBIOS name alone has an angle bracket. */
function item({ spelling, isNetbios, type, classNumber }) {
    const name = domainText(spelling);
    if (isNetbios !== name.includes('<')) throw new Error(`isNetbios is ${isNetbios} of ${name}`);
    return { name, kind: type, class: classNumber };
}

function rdata({ addresses, node, server, data }) {
    if (addresses) return { addresses: addresses.map(({ address, flags }) => ({ address, nb_flags: flags })) };
    if (node) return { node_status: { names: node.names.map(({ name, flags }) => ({ name: nodeName(name), flags })), unit: node.unit } };
    return server ? { name_server: domainText(server) } : { other: data };
}

const record = (it) => ({ ...item(it), section: it.section, time_to_live: it.timeToLive, rdata: rdata(it) });
const service = ({ identifier, word, counts, questions, records, used }) =>
    ({ header: { identifier, word, counts }, questions: questions.map(item), records: records.map(record), used });

// ---- other calls

const REQUESTS = ['query', 'nodeStatus', 'registration', 'refresh', 'release'];

function lineOf(line) {
    if (line === null) return ['blank'];
    return line.kind === 'tick' ? ['tick', line.moment] : ['packet', line.port, line.moment, digits(line.payload)];
}

/** Pieces after their lengths, as nbt_datagram_write writes them. */
const joined = (pieces) => Buffer.concat(pieces.map((piece) => Buffer.of(piece.length >> 8, piece.length & 255, ...piece)));

// ---- stations

const stations = new Map();

function create(texts, address, port, keys, perSource, name) {
    stations.set(name, new nbt.Station(texts ? texts.split(' ') : [], address, { port, keys, perSource }));
    return [];
}

const keyOf = ({ address, port, identifier }) => `${address}:${port}/${identifier.toString(16).padStart(4, '0')}`;

/** A datagram that is handed over, in the words of `nbt replay`. */
const handed = (it) => `${keyOf(it)} ${TYPES[it.type]} ${it.source} ${it.destination} ${digits(it.data)}`;

/** What became of a payload, in the same words. */
function outcomeOf({ outcome, delivery, error, refusal, ...key }) {
    const words = [outcome.toLowerCase()];
    if (delivery) words.push(handed(delivery));
    else if (key.address !== null) words.push(keyOf(key));
    if (refusal) words.push(refusal.message);
    if (error) words.push('error', hex(error));
    return words;
}

// Calls, and a letter for each word: a number, one of 64 bits, bytes, a text, a station, or the name of one. What they answer is bytes, a
// text, or words.
const KINDS = {
    n: Number, l: BigInt, b: (word) => Uint8Array.from(Buffer.from(word.replace('empty', ''), 'hex')), t: (word) => Buffer.from(KINDS.b(word)).toString('latin1'),
    s: (word) => stations.get(word), w: String,
};
const CALLS = {
    137: ['b', said(nbt.readServiceFront, nbt.readService, service)],
    138: ['b', said(nbt.readDatagramFront, nbt.readDatagram)],
    139: ['b', said(nbt.readSessionFront, nbt.readSession, ({ bodyLength, ...it }) => ({ ...it, length: bodyLength }),
        ({ retarget, ...it }) => ({ ...it, retarget: retarget && Object.values(retarget) }))],
    status_text: ['n', nbt.words],
    name_spell: ['t', nbt.spell],
    name_text: ['b', nbt.text],
    show: ['nb', nbt.show],
    json: ['nb', nbt.json],
    brief: ['nb', nbt.brief],
    capture_line: ['b', (line) => lineOf(nbt.readLine(line))],
    service_domain: ['bnn', nbt.readDomain],
    service_request: ['nnntnnn', (kind, identifier, broadcast, name, timeToLive, flags, address) =>
        nbt.request(REQUESTS[kind], { identifier, broadcast: broadcast === 1, name, timeToLive, flags, address })],
    service_response: ['nntnnb', (identifier, word, name, type, timeToLive, data) => nbt.response({ identifier, word, name, type, timeToLive, data })],
    datagram_write: ['nnnnttbn', (type, identifier, address, port, source, destination, data, most) =>
        joined(nbt.writeDatagram({ type, identifier, address, port, source, destination, data, most }))],
    datagram_error: ['nnnn', (identifier, address, port, code) => nbt.writeDatagramError({ identifier, address, port, code })],
    datagram_query: ['nnnnt', (type, identifier, address, port, name) => nbt.writeDatagramQuery({ type, identifier, address, port, name })],
    session_write: ['nb', nbt.writeSession],
    table_merge: ['bbnn', (first, second, keys, perSource) => nbt.merge(first, second, { keys, perSource })],
    table_list: ['b', nbt.list],
    table_json: ['b', nbt.tableJson],
    table_differ: ['bb', (first, second) => { const key = nbt.differ(first, second); return [key ? keyOf(key) : 'none']; }],
    station_create: ['tnnnnw', create],
    station_take: ['slb', (station, moment, payload) => outcomeOf(station.take(moment, payload))],
    station_tick: ['sl', (station, now) => [station.tick(now)]],
    station_save: ['s', (station) => station.save()],
    station_list: ['s', (station) => station.list()],
    station_absorb: ['slb', (station, moment, table) => [station.absorb(moment, table).map(handed).join(' and ') || 'none']],
};

function answer(row) {
    const [call, ...words] = row.split(' '), [kinds, made] = CALLS[call];
    const { read, fault } = tried(() => made(...words.map((word, place) => KINDS[kinds[place]](word))));
    if (fault) return `! ${fault.message}\n`;
    return Array.isArray(read) ? `${[':', ...read].join(' ')}\n` : `= ${digits(read)}\n`;
}

writeFileSync(1, readFileSync(0, 'latin1').trimEnd().split('\n').map(answer).join(''));
stations.forEach((station) => station.close());
