"""What a frame of a capture has, by its link type and its bytes (crates/nb_frames/specs)."""
import collections
import ipaddress

Payload = collections.namedtuple('Payload', 'captured wire')
Udp = collections.namedtuple('Udp', 'source destination ports payload')
Tcp = collections.namedtuple('Tcp', 'source destination ports sequence acknowledgment flags payload')
Fragment = collections.namedtuple('Fragment', 'source destination protocol identification offset more payload')
Contents = collections.namedtuple('Contents', 'sender receiver vlans carried')

ETHERNET, COOKED, COOKED_2, RAW, LOOPBACK = 1, 113, 276, (12, 14, 101, 228, 229), (0, 108)
# Where the type stands of what a link layer carries, and where that begins.
TYPES = {ETHERNET: (12, 14), COOKED: (14, 16), COOKED_2: (0, 20)}
TAGS, IP = (0x8100, 0x88a8, 0x9100), (0x0800, 0x86dd)
NAMED = {0x8864: 'PppOverEthernet', 0x8847: 'Mpls', 0x8848: 'Mpls'}
FAMILIES = (2, 10, 24, 28, 30)
MOST_TAGS = 4
HOP_BY_HOP, ROUTING, FRAGMENT, AUTHENTICATION, DESTINATION = EXTENSIONS = 0, 43, 44, 51, 60


class Other(Exception):
    """Why nothing is read further."""


def number(data, at, size=2):
    return int.from_bytes(data[at:at + size], 'big')


def contents_of(link, frame):
    try:
        carried = carried_in(*packet_of(frame[network_of(link, frame):]))
    except Other as why:
        carried = why
    return Contents(sender_of(link, frame), mac_at(frame, 0) if link == ETHERNET else None, vlans_of(link, frame), carried)


def reason_of(carried):
    """Why nothing is read, as a text; None where something is."""
    return str(carried) if isinstance(carried, Other) else None


# ---- link layers


def mac_at(frame, at):
    return frame[at:at + 6] if at + 6 <= len(frame) else None


def sender_of(link, frame):
    if link == ETHERNET:
        return mac_at(frame, 6)
    if link == COOKED and number(frame, 4) == 6:
        return mac_at(frame, 6)
    return mac_at(frame, 12) if link == COOKED_2 and number(frame, 11, 1) == 6 else None


def tags_of(link, frame):
    """The type of each tag and of what follows the last one, with the place where each goes on."""
    at, after = TYPES[link]
    while after <= len(frame):
        yield number(frame, at), after
        at, after = after + 2, after + 4


def vlans_of(link, frame):
    vlans = []
    for kind, after in tags_of(link, frame) if link in TYPES else ():
        if kind not in TAGS or after + 2 > len(frame) or len(vlans) == MOST_TAGS:
            break
        vlans.append(number(frame, after) % 0x1000)
    return vlans


def network_of(link, frame):
    """Where IP begins."""
    if link in RAW:
        return 0
    if link in LOOPBACK:
        return after_family(frame)
    if link not in TYPES:
        raise Other('UnknownLink')
    for tags, (kind, after) in enumerate(tags_of(link, frame)):
        if kind in IP:
            return after
        if kind not in TAGS:
            raise Other(NAMED.get(kind) or ('Llc' if kind < 0x600 and has_ip_after_llc(frame[after:]) else 'NoIp'))
        if tags == MOST_TAGS:
            raise Other('TooManyTags')
    raise Other('Cut')


def has_ip_after_llc(data):
    return len(data) >= 8 and (data[:2] == b'\x06\x06' or data[:2] == b'\xaa\xaa' and number(data, 6) in IP + TAGS)


def after_family(frame):
    if len(frame) < 4:
        raise Other('Cut')
    if not any(frame[:4] == family.to_bytes(4, order) for family in FAMILIES for order in ('big', 'little')):
        raise Other('NoIp')
    return 4


# ---- IP


def need(payload, least, needed=None):
    """A header of at least so many bytes has to fit, and what is needed of it to be there."""
    if payload.wire < least:
        raise Other('Bad')
    if len(payload.captured) < (least if needed is None else needed):
        raise Other('Cut')


def rest(data, wire, header):
    """What follows a header in a packet that had so many bytes."""
    return Payload(data[:wire][header:], wire - header)


def packet_of(data):
    """Source, destination, protocol, the place of a fragment or None, and the payload."""
    if len(data) < 20:
        raise Other('Cut')
    if data[0] >> 4 not in (4, 6):
        raise Other('Bad')
    return packet_4(data) if data[0] >> 4 == 4 else packet_6(data)


def packet_4(data):
    header = (data[0] & 15) * 4
    wire = number(data, 2) or len(data)
    if header < 20:
        raise Other('Bad')
    need(Payload(data, wire), header)
    flags, offset = divmod(number(data, 6), 0x2000)
    place = (number(data, 4), offset * 8, flags % 2 == 1) if flags % 2 or offset else None
    return ipaddress.ip_address(data[12:16]), ipaddress.ip_address(data[16:20]), data[9], place, rest(data, wire, header)


def packet_6(data):
    if len(data) < 40:
        raise Other('Cut')
    is_jumbo = number(data, 4) == 0 and data[6] == HOP_BY_HOP
    wire = len(data) if is_jumbo else 40 + number(data, 4)
    protocol, at, place = upper_of(data, wire, data[6], 40)
    return ipaddress.ip_address(data[8:24]), ipaddress.ip_address(data[24:40]), protocol, place, rest(data, wire, at)


def upper_of(data, wire, protocol, at):
    """The header to which extension headers lead: its number, its place, and that of a fragment or None."""
    while protocol in EXTENSIONS:
        length = number(data, at + 1, 1)
        end = at + (8 if protocol == FRAGMENT else 4 * (length + 2) if protocol == AUTHENTICATION else 8 * (length + 1))
        need(Payload(data, wire), end)
        place = number(data, at + 4, 4), number(data, at + 2) & 0xfff8, data[at + 3] % 2 == 1
        if protocol == FRAGMENT and place[1:] != (0, False):
            return data[at], end, place
        protocol, at = data[at], end
    return protocol, at, None


# ---- UDP and TCP


def carried_in(source, destination, protocol, place, payload):
    if place:
        return Fragment(source, destination, protocol, *place, payload)
    if protocol not in (6, 17):
        raise Other('Protocol(%d)' % protocol)
    return (tcp_in if protocol == 6 else udp_in)(source, destination, payload)


def joined(source, destination, protocol, payload):
    """What a packet carries whose fragments are put together."""
    try:
        if source.version == 4:
            return carried_in(source, destination, protocol, None, payload)
        protocol, at, place = upper_of(*payload, protocol, 0)
        return carried_in(source, destination, protocol, place, rest(*payload, at))
    except Other as why:
        return why


def ports_in(data):
    return number(data, 0), number(data, 2)


def udp_in(source, destination, payload):
    need(payload, 8)
    data = payload.captured
    if number(data, 4) < 8:
        raise Other('Bad')
    return Udp(source, destination, ports_in(data), rest(data, number(data, 4), 8))


def tcp_in(source, destination, payload):
    need(payload, 20, needed=16)
    data = payload.captured
    header = (data[12] >> 4) * 4
    if not 20 <= header <= payload.wire:
        raise Other('Bad')
    return Tcp(source, destination, ports_in(data), number(data, 4, 4), number(data, 8, 4), data[13], rest(data, payload.wire, header))


def service_of(carried):
    """The port of the service that a payload is of, or None."""
    ports = {Udp: (137, 138), Tcp: (139,)}.get(type(carried), ())
    return next((each for each in reversed(carried.ports) if each in ports), None) if ports else None
