/** What stands before IP: link layers, and VLAN tags. */
import { DIGITS } from './digits.js';

const IPV4 = 0x0800;
const IPV6 = 0x86dd;
const TAGS = new Set([0x8100, 0x88a8, 0x9100]);
const PPPOE = 0x8864;
const MPLS = new Set([0x8847, 0x8848]);
/** Less than this is no type but a length, and LLC follows; Linux writes 4 in its place. */
const LEAST_TYPE = 0x0600;
/** How LLC goes on where IP follows: its own service point, or that of SNAP (RFC 1042). */
const [IP_POINT, SNAP_POINT, SNAP_HEADER] = [0x0606, 0xaaaa, 8];
const MOST_TAGS = 4;
/** Link types of tcpdump.org. Those of raw packets: of BSD, of OpenBSD, of all others, of IPv4 alone, of IPv6 alone. */
const [NULL_LOOPBACK, ETHERNET, LOOPBACK, COOKED, COOKED_2] = [0, 1, 108, 113, 276];
const RAW = [12, 14, 101, 228, 229];
/** AF_INET, and AF_INET6 of NetBSD, FreeBSD, Darwin and Linux. */
const FAMILY_4 = 2;
const FAMILIES_6 = new Set([24, 28, 30, 10]);

/** Where IP begins, the hardware addresses of who sent the frame, and of Ethernet where to; or why that isn't known: a packet may stand behind what
 * isn't read here. */
export type Packet = { at: number, mac: string | null, target: string | null, vlan: number | null };
export type Wrapping = 'PPPoE' | 'MPLS' | 'LLC' | 'more than 4 VLAN tags';
export type WhyNoPacket = 'unknown link type' | 'no IP' | 'cut' | Wrapping;

/** Where IP begins in a frame. */
export function packetIn(link: number, bytes: Uint8Array): Packet | WhyNoPacket {
    if (link === ETHERNET) return afterType(bytes, 12, macOf(bytes, 6), macOf(bytes, 0));
    if (link === COOKED) return afterType(bytes, 14, word(bytes, 4) === 6 ? macOf(bytes, 6) : null);
    if (link === COOKED_2) return cooked2(bytes);
    if (RAW.includes(link)) return bytes.length ? { at: 0, mac: null, target: null, vlan: null } : 'cut';
    return link === LOOPBACK || link === NULL_LOOPBACK ? afterFamily(bytes) : 'unknown link type';
}

/** @param place where the type of what follows stands */
function afterType(bytes: Uint8Array, place: number, mac: string | null, target: string | null = null): Packet | WhyNoPacket {
    let vlan: number | null = null;
    for (let tags = 0; tags <= MOST_TAGS; tags++, place += 4) {
        if (place + 2 > bytes.length) return 'cut';
        const type = word(bytes, place);
        if (type === IPV4 || type === IPV6) return { at: place + 2, mac, target, vlan };
        if (!TAGS.has(type)) return withoutPacket(type, bytes, place + 2);
        if (place + 4 > bytes.length) return 'cut';
        vlan ??= word(bytes, place + 2) & 0xfff;
    }
    return 'more than 4 VLAN tags';
}

/** What a frame has that is neither IP nor tagged.
 * @param at where what follows the type begins */
function withoutPacket(type: number, bytes: Uint8Array, at: number): WhyNoPacket {
    if (type === PPPOE) return 'PPPoE';
    if (MPLS.has(type)) return 'MPLS';
    return type < LEAST_TYPE && isPacketAfterPoint(bytes, at) ? 'LLC' : 'no IP';
}

/** Whether LLC says that IP follows. */
function isPacketAfterPoint(bytes: Uint8Array, at: number) {
    if (at + SNAP_HEADER > bytes.length) return false;
    const inner = word(bytes, at + 6);
    return word(bytes, at) === IP_POINT || (word(bytes, at) === SNAP_POINT && (inner === IPV4 || inner === IPV6 || TAGS.has(inner)));
}

/** Linux cooked capture, version 2: the type comes first. */
function cooked2(bytes: Uint8Array): Packet | WhyNoPacket {
    if (bytes.length < 20) return 'cut';
    const type = word(bytes, 0);
    const mac = bytes[11] === 6 ? macOf(bytes, 12) : null;
    if (type === IPV4 || type === IPV6) return { at: 20, mac, target: null, vlan: null };
    return TAGS.has(type) ? afterType(bytes, 22, mac) : withoutPacket(type, bytes, 20);
}

/** A loopback of BSD: the family in four bytes, in the order of the machine that wrote it. */
function afterFamily(bytes: Uint8Array): Packet | WhyNoPacket {
    if (bytes.length < 4) return 'cut';
    const family = bytes[0] === 0 && bytes[1] === 0 ? word(bytes, 2) : bytes[0] | (bytes[1] << 8);
    const isPacket = family === FAMILY_4 || FAMILIES_6.has(family);
    return isPacket ? { at: 4, mac: null, target: null, vlan: null } : 'no IP';
}

export function word(bytes: Uint8Array, at: number) {
    return (bytes[at] << 8) | bytes[at + 1];
}

function macOf(bytes: Uint8Array, at: number) {
    if (at + 6 > bytes.length) return null;
    let text = DIGITS[bytes[at]];
    for (let place = at + 1; place < at + 6; place++) text += `:${DIGITS[bytes[place]]}`;
    return text;
}
