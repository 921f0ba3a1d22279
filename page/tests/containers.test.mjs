import assert from 'node:assert/strict';
import test from 'node:test';

import { PayloadReader, framesOf } from '../src/containers/payloads.js';
import { FRAGMENTS, FRAGMENTS_CUT, FRAGMENTS_MISSING, FRAGMENTS_UNKNOWN } from '../src/made/reasons.js';
import { slicesOf } from '../src/containers/slices.js';
import { bytesOf, block, enhanced, ethernet, face, ipv4, ipv6, number, pcap, section, tcp, udp } from './building.mjs';

const QUERY = bytesOf([0, 3, 1, 0x10, 0, 1, 0, 0, 0, 0, 0, 0]);

/** What a file gives: payloads and what is left out in their order, how many frames were of no use by why, and the fault. */
function read(file) {
    const seen = [];
    const reader = new PayloadReader((each) => seen.push(each));
    let fault = null;
    try {
        for (const frame of framesOf(slicesOf(file))) reader.read(frame);
    } catch (error) {
        fault = error.message;
    }
    reader.finish();
    return { seen, others: Object.fromEntries(reader.others), fault };
}

const payloads = (file) => read(file).seen.filter((each) => each.kind === 'payload').map((each) => Buffer.from(each.bytes).toString('hex'));
const leftOut = (file) => read(file).seen.filter((each) => each.kind === 'left out').map((each) => [each.mark.frame, each.why]);
const comments = (file) => read(file).seen.filter((each) => each.kind === 'comment').map((each) => each.text);
const hex = (bytes) => Buffer.from(bytes).toString('hex');

test('a frame of each byte order and unit of time has its payload and its moment', () => {
    const bytes = ethernet(ipv4(udp(QUERY)));
    for (const little of [true, false]) {
        for (const nanoseconds of [true, false]) {
            const file = pcap([{ bytes, seconds: 7, rest: 5 }], { little, nanoseconds });
            const [seen] = read(file).seen;
            assert.equal(seen.mark.time, 7_000_000_000n + (nanoseconds ? 5n : 5_000n));
            assert.equal(seen.mark.source, '10.0.0.5:137');
            assert.equal(seen.mark.destination, '10.0.0.9:137');
            assert.deepEqual([seen.mac, seen.target], ['02:00:00:00:00:09', '01:02:03:04:05:06']);
            assert.equal(hex(seen.bytes), hex(QUERY));
        }
    }
});

test('pcapng: sections of both orders, several interfaces, their clocks, and blocks of other kinds', () => {
    const packet = ipv4(udp(QUERY));
    const nanoseconds = [...number(9, 2, true), ...number(1, 2, true), 9, 0, 0, 0];
    const powers = [...number(9, 2), ...number(1, 2), 0x80 | 10, 0, 0, 0];
    const file = bytesOf(section(), face(1), face(101, { options: nanoseconds }), block(0x0bad, [1, 2, 3]),
        enhanced(0, 1_500_000, ethernet(packet)), enhanced(1, 1_500_000_000, packet),
        section(false), face(101, { options: powers, little: false }), enhanced(0, 1536, packet, { little: false }));
    const { seen, fault } = read(file);
    assert.equal(fault, null);
    assert.deepEqual(seen.map((each) => [each.mark.frame, each.mark.time]), [[1, 1_500_000_000n], [2, 1_500_000_000n], [3, 1_500_000_000n]]);
});

test('tags, cooked frames, loopbacks and raw packets lead to the same payload', () => {
    const packet = ipv4(udp(QUERY));
    const cooked = bytesOf([0, 0, 0, 1, 0, 6, 2, 0, 0, 0, 0, 9, 0, 0, 8, 0], packet);
    const cooked2 = bytesOf([8, 0, 0, 0, 0, 0, 0, 1, 0, 1, 0, 6, 2, 0, 0, 0, 0, 9, 0, 0], packet);
    const forms = [[1, ethernet(packet, { tags: [5] })], [1, ethernet(packet, { tags: [5, 6] })], [113, cooked], [276, cooked2],
        [0, bytesOf([2, 0, 0, 0], packet)], [108, bytesOf([0, 0, 0, 2], packet)], [101, packet], [228, packet]];
    for (const [link, bytes] of forms) assert.deepEqual(payloads(pcap([{ bytes }], { link })), [hex(QUERY)], `link ${link}`);
});

test('IPv6, also behind extension headers', () => {
    const options = { protocol: 0, rest: [0, 1, 4, 0, 0, 0, 0] };
    for (const headers of [[], [options], [options, { protocol: 60, rest: [0, 1, 4, 0, 0, 0, 0] }]]) {
        const [seen] = read(pcap([{ bytes: ethernet(ipv6(udp(QUERY), { headers })) }])).seen;
        assert.equal(seen.mark.source, '[fe80::5]:137');
        assert.equal(hex(seen.bytes), hex(QUERY));
    }
});

test('fragments of IP come together in any order, and one that is missing is left out', () => {
    const whole = udp(bytesOf(QUERY, new Array(30).fill(7)), { source: 138, destination: 138 });
    const parts = [[0, 16, true], [16, 40, true], [40, 50, false]].map(([from, to, more]) =>
        ({ bytes: ethernet(ipv4(whole.subarray(from, to), { offset: from, more })) }));
    assert.deepEqual(payloads(pcap([parts[2], parts[0], parts[1]])), [hex(whole.subarray(8))]);
    assert.deepEqual(payloads(pcap([parts[0], parts[0], parts[1], parts[2]])), [hex(whole.subarray(8))]);
    assert.deepEqual(leftOut(pcap([parts[0], parts[2]])), [[1, FRAGMENTS_MISSING], [2, FRAGMENTS_MISSING]]);
    const late = [{ ...parts[0], seconds: 0 }, { ...parts[1], seconds: 61 }, { ...parts[2], seconds: 61 }];
    assert.deepEqual(leftOut(pcap(late)), [[3, FRAGMENTS]]);
    const cut = { ...parts[1], bytes: parts[1].bytes.slice(0, -1), size: parts[1].bytes.length };
    assert.deepEqual(leftOut(pcap([parts[0], cut])), [[1, FRAGMENTS_MISSING], [2, FRAGMENTS_CUT]]);
    assert.deepEqual(payloads(pcap([cut, ...parts.map((part) => ({ ...part, seconds: 61 }))])), [hex(whole.subarray(8))]);
    const other = whole.slice();
    other[20] ^= 1;
    const differing = { bytes: ethernet(ipv4(other.subarray(16, 40), { offset: 16, more: true })) };
    assert.deepEqual(leftOut(pcap([parts[0], parts[1], differing, parts[2]])), [[4, FRAGMENTS]]);
    assert.deepEqual(leftOut(pcap([parts[1]])), [[1, FRAGMENTS_UNKNOWN]]);
});

test('of a connection its SYNs are given, and what comes after each of them', () => {
    const [syn, ack, rst] = [2, 16, 4];
    const sent = (flags, more) => ({ bytes: ethernet(ipv4(tcp(flags, more), { protocol: 6 })) });
    const back = (flags) => ({ bytes: ethernet(ipv4(tcp(flags, { source: 139, destination: 1024 }), { protocol: 6, source: [10, 0, 0, 9], destination: [10, 0, 0, 5] })) });
    const given = (...frames) => read(pcap(frames)).seen.flatMap(({ kind, flags, source }) => (kind === 'segment' ? [[flags, source]] : []));
    const [caller, callee] = ['10.0.0.5:1024', '10.0.0.9:139'];
    assert.deepEqual(given(sent(syn), sent(syn), back(rst | ack), back(rst | ack)), [[syn, caller], [syn, caller], [rst | ack, callee]]);
    const data = [1, 5].map((sequence) => sent(ack, { sequence, payload: [0x85, 0, 0, 0] }));
    assert.deepEqual(given(sent(syn), back(syn | ack), ...data), [[syn, caller], [syn | ack, callee]]);
    assert.deepEqual(given(...data), [[ack, caller]]);
});

test('frames of no use are counted by why', () => {
    const frames = [{ bytes: ethernet(ipv4(udp(QUERY, { source: 53, destination: 4000 }))) }, { bytes: ethernet(ipv4([8, 0, 0, 0], { protocol: 1 })) },
        { bytes: ethernet([0, 1], { type: 0x0806 }) }, { bytes: bytesOf([1, 2, 3]) }];
    assert.deepEqual(read(pcap(frames)).others, { 'another port': 1, 'another protocol': 1, 'no IP': 1, cut: 1 });
    assert.deepEqual(read(pcap(frames.slice(0, 1), { link: 147 })).others, { 'unknown link type': 1 });
});

const unread = (file) => read(file).seen.filter((each) => each.kind === 'unread').map(({ frame, link, why }) => [frame, link, why]);

test('frames of a link type that is not read are counted by it', () => {
    const bytes = ethernet(ipv4(udp(QUERY)));
    const named = [[9, 'PPP (9)'], [50, 'PPP in HDLC (50)'], [51, 'PPPoE (51)'], [105, '802.11 (105)'], [119, 'Prism (119)'], [127, 'radiotap (127)'], [189, '189']];
    for (const [link, name] of named) assert.deepEqual(unread(pcap([{ bytes }, { bytes }], { link })), [[1, name, 'link type'], [2, name, 'link type']]);
});

test('packets of IP inside of what is not read are counted by it, and others are not', () => {
    const inner = ipv4(udp(QUERY));
    const snap = (type) => bytesOf([0xaa, 0xaa, 3, 0, 0, 0], number(type, 2), inner);
    const cooked = (type, rest) => bytesOf([0, 0, 0, 1, 0, 6, 2, 0, 0, 0, 0, 9, 0, 0], number(type, 2), rest);
    const cooked2 = (type, rest) => bytesOf(number(type, 2), [0, 0, 0, 0, 0, 1, 0, 1, 0, 6, 2, 0, 0, 0, 0, 9, 0, 0], rest);
    const wrapped = [
        ['PPPoE', ethernet(bytesOf([0x11, 0, 0, 1], number(inner.length + 2, 2), [0, 0x21], inner), { type: 0x8864 })],
        ['MPLS', ethernet(bytesOf([0, 1, 0x41, 64], inner), { type: 0x8847 })], ['MPLS', ethernet(bytesOf([0, 1, 0x41, 64], inner), { type: 0x8848, tags: [5] })],
        ['LLC', ethernet(snap(0x0800), { type: inner.length + 8 })], ['LLC', ethernet(snap(0x86dd), { type: 60 })], ['LLC', ethernet(bytesOf([6, 6, 3], inner), { type: 60 })],
        ['more than 4 VLAN tags', ethernet(inner, { tags: [1, 2, 3, 4, 5] })], ['GRE', ethernet(ipv4(bytesOf([0, 0, 8, 0], inner), { protocol: 47 }))],
        ['GRE', ethernet(ipv6(bytesOf([0, 0, 8, 0], inner), { protocol: 47 }))], ['IP in IP', ethernet(ipv4(inner, { protocol: 4 }))],
        ['6in4', ethernet(ipv4(ipv6(udp(QUERY)), { protocol: 41 }))], ['AH', ethernet(ipv4(bytesOf([17, 4], new Array(22).fill(0), udp(QUERY)), { protocol: 51 }))],
        ['IP in IP', ethernet(ipv6(ipv6(udp(QUERY)), { protocol: 41 }))],
        ['VXLAN', ethernet(ipv4(udp(bytesOf([8, 0, 0, 0, 0, 0, 1, 0], ethernet(inner)), { source: 50_000, destination: 4789 })))],
    ];
    for (const [why, bytes] of wrapped) assert.deepEqual(unread(pcap([{ bytes }])), [[1, 'Ethernet (1)', why]], why);
    assert.deepEqual(unread(pcap([{ bytes: cooked(4, snap(0x0800)) }], { link: 113 })), [[1, 'Linux cooked (113)', 'LLC']]);
    assert.deepEqual(unread(pcap([{ bytes: cooked2(0x8847, bytesOf([0, 1, 0x41, 64], inner)) }], { link: 276 })), [[1, 'Linux cooked, version 2 (276)', 'MPLS']]);
    assert.deepEqual(unread(pcap([{ bytes: ipv4(inner, { protocol: 4 }) }], { link: 101 })), [[1, 'IP (101)', 'IP in IP']]);
    const others = [ethernet([0, 1], { type: 0x0806 }), ethernet(bytesOf([0x42, 0x42, 3], new Array(35).fill(0)), { type: 38 }), ethernet(bytesOf([0xaa, 0xaa, 3, 0, 0, 0xc, 0x20, 0]), { type: 8 }),
        ethernet([0x11, 9, 0, 0, 0, 0], { type: 0x8863 }), ethernet(ipv4([8, 0, 0, 0], { protocol: 1 })), ethernet(ipv4(udp(QUERY))), bytesOf([1, 2, 3])];
    assert.deepEqual(unread(pcap(others.map((bytes) => ({ bytes })))), []);
});

test('files that lie end in one fault, with its place, after what stood before', () => {
    const bytes = ethernet(ipv4(udp(QUERY)));
    const good = pcap([{ bytes }]);
    const faults = [
        [bytesOf(good, new Array(10).fill(0)), `the header of a frame is cut, at byte ${good.length}`, 1],
        [good.subarray(0, good.length - 1), 'a frame is cut, at byte 40', 0],
        [bytesOf(good, number(0, 8), number(0xffffffff, 4), number(0, 4)), `a frame of 4294967295 bytes, at byte ${good.length}`, 1],
        [good.subarray(0, 20), 'the header of pcap is cut, at byte 20', 0],
        [bytesOf(section(), enhanced(0, 0, bytes)), 'a frame of interface 0, which the section lacks, at byte 28', 0],
        [bytesOf(section(), number(0x0bad, 4, true), number(0xfffffffc, 4, true), number(0, 4)), 'a block of 4294967292 bytes, at byte 32', 0],
        [bytesOf(section(), block(1, [1])), 'a block is too short, at byte 28', 0],
    ];
    for (const [file, words, count] of faults) {
        const { seen, fault } = read(file);
        assert.equal(fault, words);
        assert.equal(seen.filter((each) => each.kind === 'payload').length, count);
    }
    assert.equal(framesOf(slicesOf(bytesOf([1, 2, 3]))), null);
});
