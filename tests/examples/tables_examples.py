#!/usr/bin/env python3
"""Prints examples of nb_table, with the answers that the model finds (tests/model/tables.py).

They are lists of fragments, drawn by lot, the same in each run: overlaps, repeats, gaps, ends, two keys, and now and then a
fragment that contradicts others; and a datagram that comes byte by byte. Of each list are asked what the inserts answer, what
the definitions' own program says, that the order and repeats make no difference, what the parts of a list hand over when they
are merged or joined, and what is saved. Give them to the program of crates/nb_examples as its standard input.
"""
import random
import sys

sys.path[1:1] = [f'{sys.path[0]}/../{it}' for it in ('.', 'lib')]
from example_lines import example, word
from model.names import name_of_text, text_of
from model.objects import key_text
from model.packets import FIRST, KINDS, MORE, Fragment, read_fragment
from model.reports import addressed, known
from model.tables import Table
from wire import CLIENT, pieces

LONGEST = 10
KEYS = (CLIENT, 138, 1), (CLIENT, 139, 1)
UNIQUE, GROUP = 0x10, 0x11
JOE, FRED, ANN, IN_SCOPE = map(name_of_text, (b'JOE<00>', b'FRED<20>', b'ANN<00>', b'FRED<20>.A'))


def worded(it):
    """A fragment as an example says it."""
    parts = f'port={it.key[1]}:kind={KINDS[it.kind]}:from={text_of(it.source)}:to={text_of(it.destination)}'
    return f'1:{it.flags:02x}:{it.offset}:{word(it.data)}:{parts}'


def datagram(key, entry):
    """The datagram of an entry that is whole, as an example says it."""
    kind, *names = addressed(entry).values()
    return ' '.join([kind, key_text(key), *names, word(entry.data())])


def changes(fragments):
    """What a table answers to each fragment of a list."""
    table = Table()
    for it in fragments:
        before, said = table.saved(), table.insert(it)
        if said == 'whole':
            said += f' {datagram(it.key, table.entries[it.key])}'
        elif said == 'kept':
            said = 'same' if table.saved() == before else 'grown'
        yield said


def whole(fragments):
    """The datagrams that are whole in a list, by their keys."""
    return {key: datagram(key, it) for key, it in sorted(table_of(fragments).entries.items()) if it.is_whole()}


def handed(before, after):
    """How many datagrams a table hands over that held the one list and then holds the other, and each."""
    said = [said for key, said in whole(after).items() if key not in whole(before)]
    return '; '.join([str(len(said)), *said])


def table_of(fragments):
    """The table of a list."""
    table = Table()
    for it in fragments:
        table.insert(it)
    return table


def table(fragments):
    """A table, as an example says it."""
    return ' '.join(['2', str(LONGEST), *map(worded, fragments)])


def first_said(fragments, place):
    """What the first fragments say of the byte at a place and of the end, and the greatest promise, as `Debug` prints them."""
    of_place = (it.data[place - it.offset] for it in fragments if it.offset <= place < it.offset + len(it.data))
    ends = (it.offset + len(it.data) for it in fragments if not it.flags & MORE)
    promises = (it.offset + len(it.data) for it in fragments if it.flags & MORE)
    found = next(of_place, None), next(ends, None), max(promises, default=None)
    return ', '.join('None' if value is None else f'Some({value})' for value in found)


def examples_of(fragments, chance):
    """What is asked of a list."""
    steps = ' '.join(map(worded, fragments))
    yield f'table.insert 2 {LONGEST} | {steps} = {"; ".join(changes(fragments))}'
    key, place = chance.choice(KEYS), chance.randrange(LONGEST)
    held = table_of(fragments).entries.get(key)
    state, facts = known(held)['state'].title() if held else 'Absent', first_said([it for it in fragments if it.key == key], place)
    yield f'table.plain {key_text(key)} {place} {steps} = ({state}, {facts}); {whole(fragments).get(key, "none")}'
    turned = [it for it in reversed(fragments) for _ in range(2)]
    yield f'table.fits {table(fragments)} | {table(turned)} = (true, Ok(()))'
    fewer, saved = fragments[:-1], word(table_of(fragments).saved())
    is_same = word(table_of(fewer).saved()) == saved
    yield f'table.fits {table(fragments)} | {table(fewer)} = ({str(is_same).lower()}, Ok(()))'
    parts = [[it for place, it in enumerate(fragments) if place % 3 != other] for other in range(3)]
    yield f'table.merge {table(parts[0])} | {table(parts[1])} = {handed(parts[0], fragments)}'
    yield f'table.merge {table(parts[1])} | {table(parts[2])} = {handed(parts[1], fragments)}'
    yield f'table.join_all {table([])} | {" | ".join(map(table, parts))} = joined; {saved}'
    yield f'table.save {table(fragments)} = {saved}'
    yield f'table.load 2 {LONGEST} {saved} = {saved}'


def drawn(chance, size):
    """A fragment of at most four bytes of a datagram of this many. One in ten has another part than is due."""
    offset = chance.randrange(size + 1)
    reach = offset + chance.randrange(min(4, size - offset) + 1)
    lot = chance.randrange(40)
    flags = FIRST * (offset == 0) | MORE * ((reach < size) != (lot == 0))
    start = 0 if lot == 1 else offset
    data = b'abcdefghij'[start : start + reach - offset]
    other = {2: {'kind': UNIQUE}, 3: {'source': ANN}, 4: {'destination': IN_SCOPE}}.get(lot, {})
    return Fragment(GROUP, flags, KEYS[chance.randrange(4) == 0], offset, JOE, FRED, data)._replace(**other)


def byte_by_byte(data):
    """Each byte of a datagram in a fragment of its own, the last one first, and then all of them once more."""
    fragments = [read_fragment(it) for it in reversed(pieces(1, data, 1))] * 2
    return f'table.insert 1 65535 | {" ".join(map(worded, fragments))} = {"; ".join(changes(fragments))}'


def main():
    """Prints all of them."""
    chance = random.Random(53)
    for _ in range(1500):
        size = chance.randrange(LONGEST)
        fragments = [drawn(chance, size) for _ in range(chance.randrange(1, 12))]
        for line in examples_of(fragments, chance):
            print(example(line))
    print(example(byte_by_byte(bytes(chance.randbytes(300)))))


if __name__ == '__main__':
    main()
