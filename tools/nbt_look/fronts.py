"""What stands of a packet that the snap length cut, or that nbt refuses to read: its object of JSON, with a phrase."""
from .vocabulary import MULTIHOMED, SECTIONS, STATUS_TYPE
from .words import first_of, is_response, type_of

# By OPCODE, what a request does with a name, and a response; the latter where RCODE is 0, and where it isn't.
REQUESTS = {'query': 'asks for %s', 'registration': 'claims %s', MULTIHOMED: 'claims as one of several addresses %s', 'refresh': 'refreshes %s',
            'release': 'releases %s'}
REGISTERED = 'grants %s', 'refuses %s'
RESPONSES = {'query': ('answers about %s', 'answers: %s is not found'), 'registration': REGISTERED, MULTIHOMED: REGISTERED, 'refresh': REGISTERED,
             'release': ('grants the release of %s', 'refuses the release of %s'), 'wack': ('asks to wait for %s',) * 2}
DATAGRAMS = {'unique': 'datagram', 'group': 'group datagram', 'broadcast': 'broadcast datagram'}
NEGATIVE = ('refuses ', 'answers: ')
ENDS_TOO_EARLY = 'truncated'
# Of port 137 the header, with its first four bytes, and what follows the name of a question or record: RFC 1002 section 4.2.1.
HEADER, ID_AND_WORD, TYPE_AND_CLASS, CLASS = 12, 4, 4, 2
ONE_QUESTION = bytes((0, 1, 0, 0, 0, 0, 0, 0))
KEPT = ('line', 'port', 'moment', 'comment', 'refused', 'at')


def as_question(data):
    """A front of port 137 as a packet of one question, which has the name and type of its first question or record: those stand alike in
    both. What is missing of the type and class is filled up; answers whether the type is, too."""
    end = HEADER
    while end < len(data) and data[end]:
        end += 1 + data[end]
    missing = max(end + 1 + TYPE_AND_CLASS - len(data), 0) if end < len(data) else 0
    return data[:ID_AND_WORD] + ONE_QUESTION + data[HEADER:] + bytes(missing), missing > CLASS


def front_of(item, members, question):
    """The object of a cut packet, of what `nbt show --json --partial` says of its front, and of that as a question. That it ends too early is
    no fault of it."""
    held = len(item.digits) // 2
    if ENDS_TOO_EARLY in members.get('refused', '') and members['at'] >= held:
        del members['refused'], members['at']
    add_first(members, question)
    phrase = phrase_of(item, members)
    brief = 'cut: %s%d of %d bytes' % (phrase and phrase + ', ', held, item.size)
    del members['line']
    return {'cut': True, 'port': members.pop('port'), 'moment': members.pop('moment'), 'brief': brief, **members}


def malformed_of(shown, members, question):
    """The object of a packet that is refused, with what stands of it."""
    add_first(members, question)
    return {**shown, **{key: value for key, value in members.items() if key not in KEPT}}


def add_first(members, question):
    """Takes the name of the first question or record, where that doesn't stand whole."""
    if question and question.get('questions') and 'op' in members and not any(members[section] for section in SECTIONS):
        first = question['questions'][0]
        members['about'] = {'name': first['name']} if question['is_filled'] else {'name': first['name'], 'type': first['type']}


def phrase_of(item, shown):
    """What the header and the first item of a packet of port 137 say, or the names of a datagram."""
    if item.service == 137:
        return service_phrase(shown) if 'op' in shown else ''
    return datagram_phrase(shown)


def service_phrase(shown):
    name = (first_of(shown) or {}).get('name', 'a name')
    if not is_response(shown):
        return request_words(shown) % name
    words = response_words(shown)
    reason = ' (%s)' % shown['rcode'] if words.startswith(NEGATIVE) and isinstance(shown['rcode'], str) else ''
    return words % name + reason


def request_words(shown):
    if shown['op'] == 'query' and type_of(shown) in (None, STATUS_TYPE):
        return 'asks for the node status of %s' if type_of(shown) else 'asks about %s'
    if shown['op'] == 'registration' and 'RD' not in shown['flags']:
        return 'overwrites %s'
    return REQUESTS.get(shown['op'], 'makes another request about %s')


def response_words(shown):
    if shown['op'] == 'registration' and shown['rcode'] == 'CFT_ERR':
        return 'conflict about %s'
    if shown['op'] == 'registration' and shown['rcode'] == 'ok' and 'RD' in shown['flags'] and 'RA' not in shown['flags']:
        return 'asks to challenge %s'
    granted, refused = RESPONSES.get(shown['op'], ('makes another response about %s',) * 2)
    return granted if shown['rcode'] == 'ok' else refused


def datagram_phrase(shown):
    """The names of a datagram that stand whole."""
    if 'source' not in shown:
        return ''
    to = ' to ' + shown['destination'] if 'destination' in shown else ''
    return '%s from %s%s' % (DATAGRAMS[shown['kind']], shown['source'], to)
