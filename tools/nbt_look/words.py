"""A packet of port 137, and what it says of names: RFC 1002 sections 4.2.2 to 4.2.18. docs/SUMMARY.md has the words."""
from dataclasses import dataclass

from nbt_pcap.header import G

from .vocabulary import ADDRESS_TYPE, CUT, EPOCH, MALFORMED, MULTIHOMED, SECTIONS, STATUS_TYPE, Word

CLAIMING = (Word.CLAIMS, Word.REFRESHES, Word.TAKES)
# What an address says of itself; others say the rest.
OWN = (*CLAIMING, Word.GIVES_UP, Word.ANSWERS, Word.LISTS, Word.LISTS_CONFLICT, Word.LISTS_INACTIVE)
STANDING = (*CLAIMING, Word.GRANTED, Word.ANSWERS, Word.LISTS)
REFUSING = (Word.REFUSED, Word.TOLD, Word.LISTS_CONFLICT, Word.NOT_RELEASED)
# Those with the RCODE after them.
CODED = (Word.REFUSED, Word.NOT_RELEASED)
REGISTERING = ('registration', 'refresh', MULTIHOMED)
REQUESTS = {'registration': Word.CLAIMS, MULTIHOMED: Word.CLAIMS, 'refresh': Word.REFRESHES, 'release': Word.GIVES_UP}
ANSWERS = {ADDRESS_TYPE: Word.ANSWERS, STATUS_TYPE: Word.LISTS, None: Word.ANSWERS}
# The front of the wildcard, padded with zero bytes or with spaces.
WILDCARD = ('*\\00', '*<00>')
# OPCODE in the flag word, which the RDATA of a WACK has, and that of a release: RFC 1002 section 4.2.1.1.
OPCODE, RELEASE = 0x7800, 0x3000


def is_response(shown):
    """The bit R."""
    return shown['word'][0] >= '8'


def first_of(shown):
    """The first question, or else the first record; of a front perhaps its name and type alone. None where none stands."""
    for section in SECTIONS:
        if shown[section]:
            return shown[section][0]
    return shown.get('about')


def type_of(shown):
    first = first_of(shown)
    return first and first.get('type')


def records_of(shown):
    return [*shown['answers'], *shown['authorities'], *shown['additional']]


def statuses_of(shown):
    """Its node statuses, as records with names."""
    return [each for each in records_of(shown) if each.get('names')]


def group_of(entry):
    """Whether an entry, or a name of a node status, is a group's: the bit G of NB_FLAGS and NAME_FLAGS."""
    return bool(int(entry['flags'], 16) & G)


@dataclass(frozen=True)
class Message:
    """A packet of port 137 of which the header stands. `name` is None where none stands, and `at`, in nanoseconds, of a frame without a time;
    `front` says how much stands, `number` is NAME_TRN_ID, the identifier that a response has of its request, and `code` the RCODE."""

    shown: dict
    name: str
    front: str
    frame: int
    at: int
    source: str
    target: str
    source_mac: str
    target_mac: str
    number: int
    code: str

    @property
    def moment(self):
        return self.at or EPOCH

    @property
    def is_to_group(self):
        """Whether it goes to a group address: by the MAC of who receives it, or else by the bit B of NM_FLAGS."""
        return bool(int(self.target_mac[:2], 16) & 1) if self.target_mac else 'B' in self.shown['flags']

    @property
    def lifetime(self):
        """The TTL of the NB record of its name, in seconds; None where none stands."""
        records = self.own_records()
        return records[0]['ttl'] if records else None

    def is_of_release(self, word):
        """Whether it answers a release, or asks to wait for the answer to one: the RDATA of a WACK is the flag word of the request."""
        data = ''.join([each['data'] for each in records_of(self.shown)[:1]])
        is_asked = word is Word.TO_WAIT and len(data) >= 4 and int(data[:4], 16) & OPCODE == RELEASE
        return is_asked or word in (Word.RELEASED, Word.NOT_RELEASED)

    def own_records(self):
        """The NB records of its name."""
        return [each for each in records_of(self.shown) if each.get('entries') and each['name'] == self.name]

    def groups(self):
        """The addresses in these records, each with whether the name is a group's there."""
        return {each['address']: group_of(each) for record in self.own_records() for each in record['entries']}


def message_of(item, shown):
    """A packet, by its object of JSON; None where it is of another port, or its header doesn't stand."""
    if 'op' not in shown:
        return None
    front, frame, first = CUT if CUT in shown else MALFORMED if 'refused' in shown else '', item.frame, first_of(shown)
    return Message(shown, first and first['name'], front, frame.number, frame.at, item.source, item.target, frame.source_mac, frame.target_mac, shown['id'],
                   shown['rcode'])


def is_wildcard(name):
    """The wildcard is no name, whoever says something of it."""
    return any(name.startswith(each) for each in WILDCARD)


def word_of(shown):
    """The word of a packet, None where it has none; that of an answer to a query is the one for its sender's own address."""
    if is_response(shown):
        return response_word(shown['op'], shown['rcode'], shown)
    return Word.TAKES if shown['op'] == 'registration' and 'RD' not in shown['flags'] else REQUESTS.get(shown['op'])


def response_word(operation, code, shown):
    if operation in REGISTERING:
        granted = Word.GRANTED if 'RA' in shown['flags'] else Word.TO_ASK
        return granted if code == 'ok' else Word.TOLD if code == 'CFT_ERR' else Word.REFUSED
    if operation == 'release':
        return Word.RELEASED if code == 'ok' else Word.NOT_RELEASED
    if operation == 'wack':
        return Word.TO_WAIT
    return ANSWERS.get(type_of(shown)) if operation == 'query' and code == 'ok' else None


def listed_word(flags):
    """The word for a name of a node status, by its flags."""
    return Word.LISTS_CONFLICT if 'CNF' in flags else Word.LISTS if 'ACT' in flags else Word.LISTS_INACTIVE
