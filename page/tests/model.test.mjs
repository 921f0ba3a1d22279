import assert from 'node:assert/strict';
import { execFileSync } from 'node:child_process';
import test from 'node:test';
import { gzipSync } from 'node:zlib';

import { LineFault, linesOf, payloadsIn } from '../src/containers/lines.js';
import { partsOf, shown } from '../src/containers/ends.js';
import { slicesOf } from '../src/containers/slices.js';
import { Blocks, Column, Texts } from '../src/model/columns.js';
import { commentOf, made, textOf, written } from '../src/model/capture.js';
import { keyOf } from '../src/model/keys.js';
import { LEFT_OUT, Packets } from '../src/model/packets.js';
import { place_of } from '../src/made/places.js';
import { momentOf, since, utc } from '../src/model/times.js';
import { MOST_LINE } from '../src/made/vocabulary.js';
import { Advice } from '../src/view/advice.js';
import { Filter } from '../src/view/filter.js';
import { known } from '../src/view/keys.js';
import { quoted } from '../src/view/shell.js';
import { conclusion, sidesOf } from '../src/view/sides.js';
import { isPacked, unpacked } from '../src/worker/unpack.js';
import { hashOf, placeOf } from '../src/view/address.js';
import { TAKES, hintOf } from '../src/view/hint.js';
import { answersTo } from '../src/view/placing.js';

const bytes = (text) => Uint8Array.from(text, (each) => each.charCodeAt(0));
const fileOf = (text) => slicesOf(bytes(text));

test('ends with and without ports, of both kinds of addresses', () => {
    for (const [end, host, port] of [['10.0.0.5:137', '10.0.0.5', '137'], ['[fe80::5]:138', 'fe80::5', '138'], ['[fe80::5]', 'fe80::5', ''],
        ['10.0.0.5', '10.0.0.5', ''], ['', '', '']]) {
        assert.deepEqual(partsOf(end), { host, port });
    }
    assert.equal(shown('10.0.0.5:137', ['137']), '10.0.0.5');
    assert.equal(shown('[fe80::5]:1024', ['137']), '[fe80::5]:1024');
    assert.equal(shown('', ['137']), '-');
});

test('the lines of a capture, and the frames that comments name', () => {
    const text = '# frame 7 2026-01-01T00:00:01.000002Z [fe80::5]:137 > 10.0.0.9:137\n137 5 00fF\n\n138 6 empty\ntick 7\n# last';
    const [first, second] = Array.from(payloadsIn(linesOf(fileOf(text))), ({ seen }) => seen);
    assert.deepEqual([first.mark.frame, first.mark.source, first.mark.time, [...first.bytes]],
        [7, '[fe80::5]:137', 1_767_225_601_000_002_000n, [0, 255]]);
    assert.deepEqual([second.mark.frame, second.mark.source, second.mark.time, second.bytes.length], [4, '', 6_000_000n, 0]);
    assert.deepEqual(Array.from(written(fileOf(text)), textOf), ['# frame 7 2026-01-01T00:00:01.000002Z [fe80::5]:137 > 10.0.0.9:137',
        '137 5 00ff', '', '138 6 empty', 'tick 7', '# last']);
    assert.deepEqual(Array.from(payloadsIn(linesOf(fileOf('137 9223372036855 00\n'))), ({ seen }) => seen.mark.time), [null]);
});

test('what is wrong with a line that no capture has', () => {
    for (const [bad, line, why] of [
        ['137 0 0\n', 1, 'its bytes have an odd number of digits'], ['137 0 00\n140 0 00\n', 2, 'it begins with “140”, and not with 137, 138, 139, tick or #'],
        ['tick 18446744073709551616', 1, '“18446744073709551616” is no millisecond'], ['tick 5 6', 1, 'something follows its millisecond'],
        [`# ${'x'.repeat(MOST_LINE)}`, 1, `it is longer than ${MOST_LINE} bytes`], ['137', 1, 'a millisecond and one space before it are wanted after 137'],
        ['137  0 00', 1, 'a millisecond and one space before it are wanted after 137'], ['137 now 00', 1, '“now” is no millisecond'],
        ['137 0', 1, 'its bytes are missing: of none the word is empty'], ['137 0 00 ff', 1, 'there is a space between its bytes, or after them'],
        ['137 0 0x00', 1, '“x” stands in its bytes, and is no hexadecimal digit'], ['137 0 00\r\n', 1, 'it ends in a carriage return, and a line feed alone is wanted'],
        ['0003 0110 0001', 1, 'it has bytes alone, and a port and a millisecond are wanted before them'],
        [`${'Dear\t'.repeat(9)}`, 1, 'it begins with “Dear.Dear.Dear.Dear.Dear..”, and not with 137, 138, 139, tick or #'],
    ]) {
        assert.throws(() => Array.from(linesOf(fileOf(bad))), (error) => {
            assert.ok(error instanceof LineFault);
            assert.equal(error.message, `line ${line} is none of a capture: ${why}. A line has a port, a millisecond and bytes in hexadecimal, as 137 0 000301100001`);
            return true;
        });
    }
});

test('advice on a refusal that has no place, or that is unknown', () => {
    const advice = new Advice(['trailing bytes AT: leave out the bytes from AT on', 'bad length: cut the stream']);
    assert.equal(advice.of('trailing bytes'), 'leave out the bytes from there on');
    assert.equal(advice.of('bad length'), 'cut the stream');
    assert.equal(advice.of('bad'), '');
});

test('which byte of the payload a byte of a name is', () => {
    const name = (letters, scope = '') => `\x20${letters.padEnd(32, 'A')}${scope}\0`;
    const [good, bad] = [name('EGFC'), name('EGFCa')];
    const scoped = name('EGFC', '\x03NET\x02US');
    for (const [port, text, refused, at] of [
        [138, `\x10${'.'.repeat(13)}${bad}${good}`, 'source name: not netbios 5', 19], [138, `\x11${'.'.repeat(13)}${good}${bad}`, 'destination name: not netbios 5', 53],
        [138, `\x12${'.'.repeat(13)}${scoped}${bad}`, 'destination name: not netbios 5', 60], [138, `\x14${'.'.repeat(9)}${bad}`, 'destination name: not netbios 5', 15],
        [139, `\x81...${bad}${bad}`, 'name: not netbios 5', 9], [139, `\x81...${good}${bad}`, 'name: not netbios 5', 43],
        [139, `\x81...\x03abc\0${good}`, 'name: not netbios 0', 4], [138, `\x10${'.'.repeat(13)}\xc0\x0c${bad}`, 'destination name: not netbios 5', null],
    ]) assert.equal(place_of(port, bytes(text), { refused }), at, refused);
    assert.equal(place_of(138, bytes(''), { refused: 'source name: truncated 0', at: 3 }), 3);
});

test('times', () => {
    assert.equal(utc(1_700_000_000_123_456_789n), '2023-11-14T22:13:20.123456Z');
    assert.equal(utc(-1n), '1969-12-31T23:59:59.999999Z');
    assert.equal(utc(null), '-');
    assert.equal(since(5n, 1_500_000_005n), '-1.500000');
    assert.equal(since(1_500_000_005n, 5n), '1.500000');
    assert.equal(momentOf(5n, 2_000_006n), 0);
    assert.equal(momentOf(2_999_999n, 0n), 2);
});

test('columns, texts and blocks grow', () => {
    const column = new Column(Uint16Array);
    for (let at = 0; at < 5_000; at++) column.push(at);
    column.extend(Uint16Array.from({ length: 9_000 }, (_, at) => 5_000 + at));
    assert.deepEqual([column.length, column.at(4_999), column.at(13_999)], [14_000, 4_999, 13_999]);
    assert.deepEqual([column.take(), column.length, column.take()], [Uint16Array.from({ length: 14_000 }, (_, at) => at), 0, new Uint16Array(0)]);
    const texts = new Texts();
    assert.deepEqual(['a', 'b', 'a'].map((each) => texts.number(each)), [0, 1, 0]);
    const blocks = new Blocks();
    const long = new Uint8Array(3 << 20).fill(7);
    const places = [bytes('abc'), long, long, bytes('')].map((each) => [blocks.add(each), each]);
    for (const [place, each] of places) assert.deepEqual(blocks.at(place, each.length), each);
});

test('the capture of packets: ticks for each second, and in a pause those that drop a key', () => {
    const packets = new Packets();
    const mark = (frame, seconds) => ({ frame, time: BigInt(seconds * 1000) * 1_000_000n, source: '10.0.0.5:138', destination: '10.0.0.9:138', captured: 9, size: 9 });
    const payload = { port: 138, mac: null, vlan: null, bytes: bytes('\x17') };
    packets.add(mark(1, 100), payload);
    packets.add(mark(2, 101.5), { ...payload, port: LEFT_OUT, bytes: bytes('') });
    packets.comment('frame 2 is left out: why');
    packets.add(mark(3, 110.25), payload);
    const lines = Array.from(made({ packets, first: 100_000_000_000n }), textOf);
    assert.deepEqual(lines, ['# frame 1 1970-01-01T00:01:40.000000Z 10.0.0.5:138 > 10.0.0.9:138', '138 0 17', '# frame 2 is left out: why',
        'tick 1000', 'tick 2000', 'tick 3000', 'tick 10000', '# frame 3 1970-01-01T00:01:50.250000Z 10.0.0.5:138 > 10.0.0.9:138', '138 10250 17']);
    assert.equal(commentOf('# a \\ "b" \x01\xff'), '# a \\ "b" \\01\\ff');
});

test('the keys of a list, and what is known of them', () => {
    const whole = keyOf('10.0.0.5:138/0001 whole group JOE<00> FRED<20> 6162');
    assert.deepEqual([whole.state, whole.places, whole.end, known(whole)], ['whole', [[0, 2]], 2, 'all of its 2 bytes']);
    assert.equal(known(keyOf('10.0.0.5:138/0001 whole group JOE<00> FRED<20> empty')), 'whole, without a byte');
    const partial = keyOf('10.0.0.6:138/0003 partial unique JOE<00> ANN<20> 6/12 2 2-4,7-11');
    assert.deepEqual([partial.places, partial.end, partial.wide, known(partial)],
        [[[2, 4], [7, 11]], 12, 12, '6 of 12 bytes; missing bytes 0 to 1, bytes 4 to 6, byte 11']);
    const open = keyOf('10.0.0.5:138/0002 partial group JOE<00> FRED<20> 4/? 1 0-4 more 9');
    assert.deepEqual([open.end, open.wide, known(open)], [null, 9, "4 bytes; missing what follows byte 3; its length isn't known"]);
    assert.equal(known(keyOf('10.0.0.5:138/0002 partial group JOE<00> FRED<20> 0/? 0 -')), "0 bytes; missing all of them; its length isn't known");
    assert.equal(known(keyOf('10.0.0.9:138/0003 spoilt')), 'its fragments contradict each other');
});

test('two taps: keys by side, and what comes of them', () => {
    const [whole, other] = ['a whole group JOE<00> FRED<20> 616263', 'b whole group JOE<00> FRED<20> 61'];
    const [front, rest, gap] = ['1/3 1 0-1', '2/3 1 1-3', '1/3 1 2-3'].map((each) => `a partial group JOE<00> FRED<20> ${each}`);
    const named = ({ joined, one, other, differing, equal }) => [...[joined, one, other, differing].map((rows) => rows.map(({ key }) => key)), equal];
    const joined = sidesOf({ first: [front], second: [rest, other], both: [whole, other] });
    assert.deepEqual(named(joined), [['a'], [], ['b'], [], 0]);
    assert.equal(conclusion(joined), 'Joined, 2 of 2 datagrams are whole, 1 of them at neither tap alone. Of 2 the taps know different things.');
    const differing = sidesOf({ first: [front, other], second: [gap, other], both: ['a partial group JOE<00> FRED<20> 2/3 2 0-1,2-3', other] });
    assert.deepEqual(named(differing), [[], [], [], ['a'], 1]);
    assert.equal(conclusion(differing), 'Joined, 1 of 2 datagrams is whole. 1 still lacks bytes. Of 1 the taps know different things.');
    const alone = sidesOf({ first: [whole, 'c spoilt'], second: ['c spoilt'], both: [whole, 'c spoilt'] });
    assert.deepEqual(named(alone), [[], ['a'], [], [], 1]);
    assert.equal(conclusion(alone), 'Joined, 1 of 2 datagrams is whole. Of 1 the fragments contradict each other. Of 1 the taps know different things.');
    assert.equal(conclusion(sidesOf({ first: [other], second: [other], both: [other] })), 'Joined, 1 of 1 datagram is whole. Both taps know the same.');
    assert.equal(conclusion(sidesOf({ first: [], second: [], both: [] })), 'Neither tap has anything of a datagram.');
});

test('the address keeps its place', () => {
    const place = { view: 'names', tap: 1, frame: 41, packet: 2, filter: 'FRED<20> & 138' };
    assert.deepEqual(placeOf(hashOf(place)), place);
    assert.deepEqual(placeOf('#elsewhere?frame=x'), { view: 'packets', tap: 0, frame: 0, packet: 1, filter: '' });
});

test('words of the filter: kinds, ports, and parts of what is said', () => {
    const texts = ['', '10.0.0.5', 'query response conflict', 'refused'];
    const rows = {
        texts, said: ['answers: FRED<20> is at 10.0.0.9', 'refused: truncated, at byte 2'], port: { at: () => 137 },
        columns: { kinds: { at: (row) => row + 2 }, source: { at: () => 1 }, destination: { at: () => 0 } }, text: () => '',
    };
    const wanted = (words) => [0, 1].filter((row) => new Filter({ words, kind: '', sender: '', reason: '' }).wants(rows, row));
    assert.deepEqual(['Query', 'conflicts', 'conflict', 'conflicted'].map(wanted), [[0], [0], [0], []]);
    assert.deepEqual(['10.0.0.9', '10.0.0.', '0.0.5', '10.0.0.90', '0.0.0.9'].map(wanted), [[0], [0, 1], [0, 1], [], []]);
    assert.deepEqual([wanted(''), wanted('response'), wanted('fred<20>'), wanted('10.0.0.5 refused'), wanted('138'), wanted('a.c')],
        [[0, 1], [0], [0], [1], [], []]);
});

test('a filter of Wireshark leads to words', () => {
    for (const [filter, instead] of [
        ['ip.addr==10.0.0.6', '10.0.0.6'], ['ip.src == 10.0.0.6 && udp.port == 138', '10.0.0.6 138'], ['nbns', '137'], ['ipv6.dst eq fe80::5', 'fe80::5'],
        ['nbns.name contains "FRED"', 'FRED 137'], ['nbdgm.src.ip == 10.0.0.5 && nbdgm.dgram_id == 0x0001', '10.0.0.5 138'], ['frame.number == 5', ''],
        ['tcp.port == 445', ''], ['udp.port == 137 || nbns', '137'],
    ]) {
        assert.deepEqual(hintOf(filter), { text: `“${filter}” is a filter of Wireshark. ${TAKES}`, instead }, filter);
    }
    assert.deepEqual(hintOf(' FRED<2> '), { text: `No row fits “FRED<2>”. ${TAKES}`, instead: '' });
    assert.deepEqual(hintOf(''), { text: 'No packet is of all that is chosen.', instead: '' });
});

test('where two files go that are opened beside two others', () => {
    assert.deepEqual(answersTo(['a', 'b'], 2), [{ words: 'Instead of a and b', taps: [0, 1], closes: null }]);
});

test('a file of any name is one word of a shell', () => {
    for (const name of ['a.pcap', 'two words.pcap', "it's.pcap", '$HOME `id`.pcap', 'a"b\\c\nd', 'é*?', '~x', '#x', ';x', '']) {
        assert.equal(execFileSync('sh', ['-c', `printf %s ${quoted(name)}`]).toString(), name);
    }
    assert.deepEqual(['a.pcap', '-x.pcap'].map(quoted), ['a.pcap', './-x.pcap']);
});

test('what gzip packed is unpacked up to a bound, and as long as it is wanted', async () => {
    const data = Uint8Array.from({ length: 100_000 }, (_, at) => (at * at) >> 3);
    const file = new Blob([gzipSync(data)]);
    assert.equal(isPacked(slicesOf(new Uint8Array(gzipSync(data)))), true);
    assert.equal(isPacked(slicesOf(data)), false);
    const places = [];
    const all = await unpacked(file, async (done) => places.push(done) > 0);
    assert.deepEqual([new Uint8Array(await all.blob.arrayBuffer()), all.fault, places.at(-1)], [data, null, file.size]);
    const some = await unpacked(file, async () => true, 70_000);
    assert.deepEqual([some.blob.size, some.fault], [70_000, 'more than 70000 bytes once unpacked: what follows is left out; nbt-look-tshark reads all of it']);
    assert.equal((await unpacked(file, async () => true, data.length)).fault, null);
    const stopped = await unpacked(file, async () => false);
    assert.equal(stopped.fault, null);
    assert.ok(stopped.blob.size < data.length);
});
