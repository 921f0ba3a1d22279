"""Names as packets spell them, and their texts (RFC 1001 section 14, RFC 1002 section 4.1; docs/FORMATS.md)."""
import collections
import re

LONGEST_SPELLING = 255
LONGEST_LABEL = 63
LONGEST_SCOPE = 222
# A name's text: items, the last byte between < and >, and . and one or more items for each label of the scope.
ITEM = rb'(?:[!-\-/-;=?-\[\]-~]|\\[0-9A-Fa-f]{2})'
TEXT = re.compile(rb'(%b*)<([0-9A-Fa-f]{2})>((?:\.%b+)*)' % (ITEM, ITEM))
# What begins some name's text is completed by one of these.
ENDINGS = (b'', b'0', b'00', b'>', b'0>', b'00>', b'<00>', b'0<00>', b'00<00>')
# How each byte is written there.
WRITTEN = [chr(it) if re.fullmatch(ITEM, bytes([it])) else f'\\{it:02x}' for it in range(256)]

Name = collections.namedtuple('Name', 'bytes scope')


class Refused(Exception):
    """A name, a packet, a table or a capture is refused; the argument is the text of the fault."""


def items(data):
    """How bytes are written in a name's text."""
    return ''.join(map(WRITTEN.__getitem__, data))


def values(text):
    """The bytes that items stand for."""
    return b''.join(bytes.fromhex(it[1:].decode()) if it[:1] == b'\\' else it for it in re.findall(ITEM, text))


def text_of(name):
    """The text in which a name is written."""
    return f'{items(name.bytes[:15].rstrip(b" "))}<{name.bytes[15]:02x}>' + ''.join('.' + items(label) for label in name.scope)


def name_of_text(text):
    """The name of a text, of which every byte may be any."""
    found = TEXT.fullmatch(text)
    if not found:
        fronts = (n for n in range(len(text), -1, -1) if any(TEXT.fullmatch(text[:n] + it) for it in ENDINGS))
        raise Refused(f'bad text {next(fronts)}')
    front, scope = values(found[1]), tuple(values(it) for it in found[3].split(b'.')[1:])
    if len(front) > 15 or any(len(it) > LONGEST_LABEL for it in scope) or len(spelled(scope)) > LONGEST_SCOPE:
        raise Refused('too long')
    return Name(front.ljust(15) + bytes.fromhex(found[2].decode()), scope)


def spelled(labels):
    """Labels as packets spell them: each after its length, and a zero byte."""
    return b''.join(bytes([len(it)]) + it for it in labels) + b'\0'


def labels_of(name):
    """The labels of a name: sixteen bytes in letters, and its scope."""
    return [bytes(ord('A') + half for byte in name.bytes for half in (byte >> 4, byte & 15)), *name.scope]


def spelling_of(name):
    """A name as packets spell it."""
    return spelled(labels_of(name))


def read_labels(data, start, pointers=False):
    """The labels of the name at an offset of bytes which end where the name has to, and the offset after it. A pointer, where
    there may be one, leads below the start of the row of labels that it ends."""
    at, row, after, labels, size = start, start, None, [], 1
    while True:
        first = data[at] if at < len(data) else None
        if first is None or first < 64 and at + first >= len(data) or first >= 192 and at + 1 == len(data):
            raise Refused(f'truncated {max(start, len(data))}')
        if 64 <= first < 192:
            raise Refused(f'reserved label {at}')
        if first >= 192 and not pointers:
            raise Refused(f'pointer not allowed {at}')
        if first >= 192:
            target = (first & 63) << 8 | data[at + 1]
            if target >= row:
                raise Refused(f'bad pointer {at}')
            after, at, row = after or at + 2, target, target
            continue
        if first == 0:
            return labels, after or at + 1
        size += 1 + first
        if size > LONGEST_SPELLING:
            raise Refused(f'too long {at}')
        labels.append(data[at + 1:at + 1 + first])
        at += 1 + first


def name_of(labels):
    """The name whose labels these are."""
    letters = labels[0] if labels else b''
    if len(letters) != 32:
        raise Refused('not netbios 0')
    place = re.match(rb'[A-P]*', letters).end()
    if place < len(letters):
        raise Refused(f'not netbios {1 + place}')
    halves = [it - ord('A') for it in letters]
    return Name(bytes(16 * high + low for high, low in zip(halves[::2], halves[1::2])), tuple(labels[1:]))


def domain_text(labels):
    """The text of a NetBIOS name, or of a domain name that is none."""
    try:
        return text_of(name_of(labels))
    except Refused:
        return '.'.join(map(items, labels)) or '.'


def read_name(data, at, role=None):
    """The name that is spelled out at an offset, and the offset after it; a fault's text has what name it is."""
    try:
        labels, after = read_labels(data, at)
        return name_of(labels), after
    except Refused as refused:
        raise Refused(f'{role}: {refused}' if role else str(refused)) from None
