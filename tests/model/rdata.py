"""What RDATA says besides its bytes, by the type of its record (RFC 1002 sections 4.2.13 and 4.2.18): views, as the object of a record has
them. A view more is a function, its row of VIEWS, and the words of its lines."""
from .names import Name, text_of

NB, NBSTAT, NS = 0x0020, 0x0021, 0x0002
ENTRY, NODE_NAME, UNIT = 6, 18, 6
NAME_FLAGS = {'G': 0x8000, 'DRG': 0x1000, 'CNF': 0x0800, 'ACT': 0x0400, 'PRM': 0x0200}


def addresses(data):
    """The addresses of a name; None where there are no entries."""
    if len(data) % ENTRY:
        return None
    return {'entries': [flagged(it[:2]) | {'address': address_text(it[2:])} for it in pieces(data, ENTRY)]}


def nodes(data):
    """The names of a node, and its unit if all of it is there; None where they aren't all there."""
    end = 1 + NODE_NAME * data[0] if data else 1
    if len(data) < end:
        return None
    names = [{'name': text_of(Name(it[:16], ()))} | flagged(it[16:]) | {'set': set_of(NAME_FLAGS, int.from_bytes(it[16:], 'big'))}
             for it in pieces(data[1:end], NODE_NAME)]
    unit = data[end:end + UNIT]
    return {'names': names} | ({'unit': unit.hex()} if len(unit) == UNIT else {})


# By its type a view, and what the object has where RDATA has another form; and the word of a line of each of their members.
VIEWS = {NB: (addresses, {'entries': []}), NBSTAT: (nodes, {'names': []})}
LINES = {'entries': 'entry', 'names': 'name', 'unit': 'unit'}


def view(kind, data):
    """What RDATA of a type says; None where it has another form, or the type no view."""
    return VIEWS[kind][0](data) if kind in VIEWS else None


def pieces(data, size):
    """Bytes in pieces of a size."""
    return [data[at:at + size] for at in range(0, len(data), size)]


def flagged(flags):
    """The flags of an entry or a name, and ONT, the two bits after the first."""
    return {'flags': flags.hex(), 'ont': flags[0] >> 5 & 3}


def set_of(flags, word):
    """The names of the flags that are set in a word."""
    return [name for name, bit in flags.items() if word & bit]


def address_text(address):
    """The text of an address of four bytes."""
    return '.'.join(map(str, address))
