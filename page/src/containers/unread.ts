/** Frames whose packets aren't read here: those of other link types, and those whose packet of IP is wrapped in something else. nbt-look-tshark reads them. */
import type { Internet } from './internet.js';
import { UDP, portsIn } from './transport.js';

/** A frame, its link type, and why it isn't read: 'link type', or what its packet is wrapped in. */
export type Unread = { kind: 'unread', frame: number, link: string, why: string };

/** Protocols of IP that carry packets (RFC 2003, RFC 4213, RFC 2784, RFC 4302). */
const WRAPPINGS = new Map([[4, 'IP in IP'], [47, 'GRE'], [51, 'AH']]);
const IPV6_INSIDE = 41;
/** The port of RFC 7348. */
const VXLAN = 4789;
/** Link types of tcpdump.org, in words. */
const NAMES = new Map([
    [1, 'Ethernet'], [9, 'PPP'], [50, 'PPP in HDLC'], [51, 'PPPoE'], [101, 'IP'], [105, '802.11'], [107, 'Frame Relay'], [113, 'Linux cooked'],
    [119, 'Prism'], [127, 'radiotap'], [163, 'AVS'], [166, 'PPP of Linux'], [192, 'PPI'], [276, 'Linux cooked, version 2'],
]);

export function linkName(link: number) {
    const name = NAMES.get(link);
    return name ? `${name} (${link})` : String(link);
}

/** What the payload of a packet of IP is wrapped in, if it carries another packet; an empty text where it carries none. */
export function wrappingOf({ protocol, source, payload }: Internet) {
    if (protocol === IPV6_INSIDE) return source.startsWith('[') ? 'IP in IP' : '6in4';
    if (protocol === UDP && portsIn(payload)?.destination === VXLAN) return 'VXLAN';
    return WRAPPINGS.get(protocol) ?? '';
}
