/** All of one packet: where it comes from, what it says, its fault, its fields and bytes. */
import { digitsOf } from '../containers/digits.js';
import { partsOf } from '../containers/ends.js';
import { is_in_name as isInName, place_of as placeOf } from '../made/places.js';
import type { Kept } from '../model/packets.js';
import { since } from '../model/times.js';
import { placed, type Advice } from './advice.js';
import { byId, element, withCode } from './dom.js';
import { dumpOf } from './dump.js';

const MOST_DIGITS = 128;

/** A packet as the worker answers it. */
export type Shown = Kept & { isFrame: boolean, utc: string, said: string, told: Record<string, unknown> | null };

export class PacketPanel {
    root = byId('packet', HTMLElement);
    hidden = element('p', { class: 'quiet', role: 'status', hidden: true }, 'The filter hides this packet.');

    constructor(public advice: Advice) {
        this.clear();
    }

    clear() {
        this.root.replaceChildren(element('p', { class: 'quiet' }, 'Choose a packet to see its fields and bytes.'));
    }

    /** @param phrase what its row says */
    show(packet: Shown, first: bigint | null, phrase: string) {
        const refused = typeof packet.told?.refused === 'string' ? packet.told.refused : '';
        const at = packet.told && placeOf(packet.port, packet.bytes, packet.told);
        this.root.replaceChildren(
            this.hidden, element('h2', {}, `${packet.isFrame ? 'Frame' : 'Line'} ${packet.frame}`), element('p', { class: 'said' }, packet.said || phrase),
            ...(refused ? [this.fault(refused, at)] : []), facts(packet, first),
            ...(packet.told ? [fields(packet.told), ...dumpOf(packet.bytes, at)] : []),
            ...(packet.isFrame ? [wireshark(packet)] : []));
    }

    /** @param isHidden whether the packet is none of the list */
    tellHidden(isHidden: boolean) {
        this.hidden.hidden = !isHidden;
    }

    fault(refused: string, at: number | null) {
        const inName = refused.slice(refused.lastIndexOf(' ') + 1);
        const place = at !== null && isInName(refused) ? [element('p', {}, `Byte ${inName} of the name is byte ${at} of the payload.`)] : [];
        return element('div', { class: 'fault', role: 'note', 'aria-label': 'Why it is refused' },
            element('b', {}, placed(refused)), element('p', {}, ...withCode(this.advice.of(refused))), ...place);
    }
}

function list(pairs: [string, string | Node][]) {
    return element('dl', {}, ...pairs.flatMap(([term, value]) => [element('dt', {}, term), element('dd', {}, value)]));
}

function facts(packet: Shown, first: bigint | null) {
    const pairs: [string, string][] = [packet.isFrame ? ['time', `${since(packet.time, first)} s${packet.utc === '-' ? '' : `, ${packet.utc}`}`]
        : ['moment', packet.time === null ? '-' : `${packet.time / 1_000_000n} ms`]];
    if (packet.source) pairs.push(['from', packet.source], ['to', packet.destination]);
    if (packet.mac) pairs.push(['MAC', packet.mac]);
    if (packet.vlan !== null) pairs.push(['VLAN', String(packet.vlan)]);
    if (packet.isFrame) pairs.push(['captured', `${packet.captured} of ${packet.size} bytes`]);
    if (packet.told) pairs.push(['payload', `${packet.bytes.length} bytes, port ${packet.port}`]);
    return list(pairs);
}

function fields(told: Record<string, unknown>) {
    const pairs = Object.entries(told).filter(([key]) => key !== 'refused' && key !== 'at').flatMap(([key, value]) => pairsOf(key, value));
    return list(pairs);
}

/** A field, or the fields of each of its parts. */
function pairsOf(key: string, value: unknown): [string, string | Node][] {
    if (!Array.isArray(value)) return [[key, textOf(value)]];
    if (!value.length) return [[key, 'none']];
    if (typeof value[0] !== 'object') return [[key, value.map(textOf).join('+')]];
    return value.map((part, at) => [`${key} ${at + 1}`, list(Object.entries(part).flatMap(([inner, each]) => pairsOf(inner, each)))]);
}

function textOf(value: unknown) {
    const text = String(value);
    return text.length > MOST_DIGITS ? `${text.slice(0, MOST_DIGITS)}.. (${text.length / 2} bytes)` : text || 'empty';
}

function wireshark(packet: Shown) {
    const filters = [`frame.number == ${packet.frame}`];
    const { told, bytes } = packet;
    if (packet.port === 137 && bytes.length >= 2) {
        filters.push(`nbns.id == 0x${digitsOf(bytes.subarray(0, 2))}`);
    } else if (packet.port === 138 && typeof told?.key === 'string') {
        filters.push(`nbdgm.src.ip == ${partsOf(told.key.split('/')[0]).host} && nbdgm.dgram_id == 0x${told.key.split('/')[1]}`);
    }
    return element('p', { class: 'quiet' }, 'Wireshark: ', ...filters.flatMap((each, at) => [at ? ', of the same ' : '', element('code', {}, each)]));
}
