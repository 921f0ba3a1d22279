"""A slow model of what a summary says of names: its tables names, several, refusals and queries, each row by looks through the list of all packets
of port 137, in the order of their file. docs/SUMMARY.md has the definitions. Rows are texts, in the order of the columns."""
from collections import namedtuple
from dataclasses import dataclass

CODES = {1: 'FMT_ERR', 2: 'SRV_ERR', 3: 'NAM_ERR', 4: 'IMP_ERR', 5: 'RFS_ERR', 6: 'ACT_ERR', 7: 'CFT_ERR'}
NB, NBSTAT, NS = 0x20, 0x21, 2
QUERY, REGISTRATION, RELEASE, WACK = 0, 5, 6, 7
CLAIMING = {REGISTRATION: 'claims', 8: 'refreshes', 9: 'refreshes', 15: 'claims'}
CLAIMS, GIVES_UP = ('claims', 'refreshes', 'takes'), ('gives up',)
STANDING = (*CLAIMS, 'granted', 'answers', 'lists it')
OTHERS = ('granted', 'to ask the holder', 'told of a conflict', 'refused', 'to wait', 'released', 'not released', 'said to have it')
REFUSALS = ('refused', 'told of a conflict', 'lists it in conflict', 'not released')
GROUP, ACTIVE, CONFLICT = 0x8000, 0x0400, 0x0800
LONGEST, WILDCARDS = 10_000_000, ('*<00>', '*' + r'\00' * 14 + '<00>')
TYPES, YES = {NB: 'query', NBSTAT: 'status', None: '-'}, {True: 'yes', False: 'no', None: '-'}

# A word of a packet about a name at an address; `code` stands behind some, and `group` is None where it isn't told.
Word = namedtuple('Word', 'packet name address verb code group')


@dataclass(frozen=True)
class Packet:
    """A packet of port 137, as who made it knows it: `name` and `type` are None where they are cut; `ttl`, `entries` (flags and address), `listed`
    (name and flags) and `waits_for` (an operation) are those of a record that is whole. `at` is in microseconds since the first frame."""

    frame: int
    at: int
    source: str
    target: str
    mac: str
    to_group: bool
    identifier: int
    word: int
    name: str
    type: int
    ttl: int = None
    entries: tuple = ()
    listed: tuple = ()
    waits_for: int = None
    malformed: bool = False

    response = property(lambda self: self.word >> 15)
    operation = property(lambda self: self.word >> 11 & 15)
    code = property(lambda self: self.word & 15)
    groups = property(lambda self: {address: bool(flags & GROUP) for flags, address in self.entries})


def words_of(packets):
    """All words, in order."""
    said = []
    for each in packets:
        found = [] if each.name is None else told(each, said) if each.response else asked(each)
        said += [Word(each, *word) for word in found if not word[0].startswith(WILDCARDS)]
    return said


def asked(packet):
    """What a request says: of the addresses in its record, else of its sender."""
    verb = 'gives up' if packet.operation == RELEASE else CLAIMING.get(packet.operation)
    verb = 'takes' if packet.operation == REGISTRATION and not packet.word & 0x0100 else verb
    return [(packet.name, address, verb, '', group) for address, group in (packet.groups or {packet.source: None}).items()] if verb else []


def told(packet, said):
    """What a response says."""
    if packet.operation == QUERY:
        places = [] if packet.code else packet.groups.items()
        found = [(packet.name, address, 'answers' if address == packet.source else 'said to have it', '', group) for address, group in places]
        lists = lambda flags: 'lists it in conflict' if flags & CONFLICT else 'lists it' if flags & ACTIVE else 'lists it inactive'
        return found + [(name, packet.source, lists(flags), '', bool(flags & GROUP)) for name, flags in packet.listed]
    verb = responds(packet)
    requests = GIVES_UP if RELEASE in (packet.operation, packet.waits_for) else CLAIMS
    about = asked_for(packet, said, requests) or ([packet.target] if packet.code or verb == 'to wait' else packet.groups)
    code = CODES.get(packet.code, str(packet.code)) if verb in ('refused', 'not released') else ''
    return [(packet.name, address, verb, code, packet.groups.get(address) if verb == 'granted' else None) for address in about] if verb else []


def responds(packet):
    """What a response to a claim or a release says, and a WACK."""
    if packet.operation in CLAIMING:
        return {0: 'granted' if packet.word & 0x0080 else 'to ask the holder', 7: 'told of a conflict'}.get(packet.code, 'refused')
    return {RELEASE: 'not released' if packet.code else 'released', WACK: 'to wait'}.get(packet.operation)


def asked_for(packet, said, verbs):
    """The addresses of the name whose latest such request has the identifier of a response, and came from where that is sent to: of these
    those of the latest packet."""
    latest = {each.address: each.packet for each in said if each.name == packet.name and each.verb in verbs}
    fitting = {address: it.frame for address, it in latest.items() if (it.identifier, it.source) == (packet.identifier, packet.target)}
    return [address for address, frame in fitting.items() if frame == max(fitting.values())]


def names(packets):
    said = words_of(packets)
    rows = {key: of_row([each for each in said if (each.name, each.address) == key]) for key in {(each.name, each.address) for each in said}}
    return [('! ' * (latest not in (*STANDING, 'said to have it')) + name, address, *row) for (name, address), (latest, row) in rows.items()]


def of_row(said):
    """The latest word of those of a name and address, and the cells."""
    own, others, claims, grants = ([each for each in said if holds(each.verb)] for holds in (
        lambda verb: verb not in OTHERS, OTHERS.__contains__, CLAIMS.__contains__, lambda verb: verb == 'granted'))
    refused = [each for each in said if each.verb in REFUSALS]
    says = [(text_of(each) + f', from {each.packet.source}' * (each.packet.source != each.address), each.packet.frame) for each in own]
    count = f', {len(refused)} refusal' + 's' * (len(refused) > 1)
    told = [(text_of(each) + count * (refused != [] and each.verb not in REFUSALS), each.packet.source, each.packet.frame) for each in others]
    *_, group = [None, *(each.group for each in said if each.group is not None)]
    *_, lifetime = ['-', *(f'{each.packet.ttl} s, {"granted" if each in grants else "claimed"}' for each in claims + grants if each.packet.ttl is not None)]
    *_, says = ['--', *says]
    *_, told = ['---', *told]
    cells = (YES[group], *says, *told, seconds(said[-1].packet.at), said[0].packet.frame, len({each.packet.frame for each in claims}), len(refused), lifetime)
    return said[-1].verb, tuple(map(str, cells))


def text_of(word):
    return f'{word.verb} {word.code}'.strip() + ', malformed' * word.packet.malformed


def seconds(at):
    return f'{"-" if at < 0 else ""}{abs(at) // 10**6}.{abs(at) % 10**6:06}'


def several(packets):
    """The rows of names that stand more than once, with the MAC of the latest frame about the name that the address sent itself."""
    said, found = words_of(packets), []
    standing = {(each.name, each.address): each.verb in STANDING for each in said}
    for name in {name for name, _ in standing}:
        rows = [row for row in names(packets) if row[0] == name and standing[row[:2]]]
        macs = [[each.packet.mac for each in said if (each.name, each.packet.source) == row[:2]][-1:] for row in rows]
        if len(rows) > 1 and any(row[2] != 'yes' for row in rows):
            mark = '! ' * (len({mac for each in macs for mac in each}) > 1)
            found += [(mark + name, row[1], ''.join(mac) or '-', *row[2:]) for row, mac in zip(rows, macs)]
    return found


def refusals(packets):
    said = [(each.name, each.address, each.packet.source, text_of(each), each.packet) for each in words_of(packets) if each.verb in REFUSALS]
    rows = {each[:4]: [other[4] for other in said if other[:4] == each[:4]] for each in said}
    return [(*key, str(len(row)), str(row[0].frame), str(row[-1].frame), seconds(row[-1].at)) for key, row in rows.items()]


class Request:
    """A query or node status request with its repeats, the responses that belong to it, and the others that fit it."""

    def __init__(self, packet):
        self.packets, self.own, self.others = [packet], [], []
        self.identifier, self.row = packet.identifier, (packet.name, packet.type, packet.source, packet.target)

    def after(self, packet):
        return packet.at - self.packets[-1].at

    def is_found(self):
        return any(is_positive(each) for each, _ in self.own)

    def told(self):
        """Of each response that found nothing its frame, and what it was."""
        for each, _ in self.own:
            yield each.frame, f'{CODES.get(each.code, each.code) if each.code else "redirected"} by {each.source}, frame {each.frame}'
        for each, after in self.others:
            yield each.frame, f'late, frame {each.frame}, {seconds(after)[:-3]} s' if after > LONGEST else f'by {each.source}, frame {each.frame}'


def is_positive(response):
    """Of one that is cut before its type nothing says that it is a redirect."""
    return not response.code and response.type in (NB, NBSTAT, None)


def requests_of(packets):
    found = []
    for each in packets:
        if each.operation == QUERY and each.name is not None and each.response and not each.malformed:
            fitting = [one for one in found if (one.identifier, one.row[0], one.row[2]) == (each.identifier, each.name, each.target)]
            latest = {one.row: one for one in fitting if each.type not in (NB, NBSTAT) or one.row[1] in (each.type, None)}
            belongs(each, latest.values())
        elif each.operation == QUERY and each.name is not None and not each.response:
            one = Request(each)
            same = [other for other in found if (other.identifier, other.row) == (one.identifier, one.row)][-1:]
            if same and not same[0].own and same[0].after(each) <= LONGEST:
                same[0].packets.append(each)
            else:
                found.append(one)
    return found


def belongs(response, fitting):
    """Hands a response to the requests to which it belongs, else to all that it fits."""
    soon = [one for one in fitting if one.after(response) <= LONGEST]
    own = [one for one in soon if one.row[3] == response.source] or [one for one in soon if one.packets[-1].to_group]
    for one in own or fitting:
        (one.own if own else one.others).append((response, one.after(response)))


def queries(packets):
    requests = requests_of(packets)
    rows = {one.row: [other for other in requests if other.row == one.row] for one in requests if not one.is_found()}
    return [(name, TYPES.get(kind) or f'{kind:04x}', by, asked, *of_query(row)) for (name, kind, by, asked), row in rows.items()]


def of_query(requests):
    """Of the requests of a row how many packets found nothing, their frames, when, and what came."""
    missed, found = ([one for one in requests if one.is_found() == wanted] for wanted in (False, True))
    sent = sorted((each for one in missed for each in one.packets), key=lambda each: each.frame)
    later = [each.frame for one in found for each, _ in one.own if is_positive(each) and one.packets[0].frame > sent[0].frame]
    answers = [each for one in missed for each in one.told()] + [(frame, f'later, frame {frame}') for frame in later]
    return str(len(sent)), ', '.join(str(each.frame) for each in sent[:16]), seconds(sent[0].at), max(answers, default=(0, '-'))[1]
