#!/usr/bin/env python3
"""Prints examples of nb_names, with the answers that the model finds (tests/model/names.py).

They are some thirty thousand: each short text of the bytes that matter in the texts of names, each offset of four
hundred small packets, and longer texts and packets made by chance, the same in each run. Give them to the program of
crates/nb_examples as its standard input: it prints how many there were, and each that it answers otherwise.
"""
import itertools
import random
import re
import sys

sys.path[1:1] = [f'{sys.path[0]}/../{it}' for it in ('.', 'lib')]
from example_lines import word
from model.names import LONGEST_SCOPE, Name, Refused, name_of, name_of_text, read_labels, spelled, text_of

# Bytes of small packets: length bytes of each kind, and letters.
SMALL = b'\x00\x00\x00\x01\x01\x01\x02\x02\xc0\xc0\x3f\x40\x80\xc1\xffa'



def domain_answer(labels):
    """A domain name as `Debug` prints it."""
    return f'DomainName {{ bytes: [{word(spelled(labels))}] }}'


def name_answer(name):
    """A name as `Debug` prints it."""
    return f'Name {{ bytes: [{word(name.bytes)}], scope: Scope {{ domain: {domain_answer(name.scope)} }} }}'


# What calls answer of the labels that they read.
READERS = {'read_domain': domain_answer, 'read_name': lambda labels: name_answer(name_of(labels))}


def answer(read, *words):
    """What is read, or what is wrong."""
    try:
        return read(*words)
    except Refused as refused:
        return str(refused)


def text_answer(text):
    """The name of a text."""
    return name_answer(name_of_text(text))


def text_example(text):
    """A text as it is, where that can stand in an example, and else its bytes."""
    call, given = ('from_text', text.decode()) if re.fullmatch(rb'[!-z|~]+', text) else ('from_bytes', word(text))
    return f'names.{call} {given} = {answer(text_answer, text)}'


def packet_answer(call, packet, at, followed):
    """What is read at an offset of a packet, and the offset after it."""
    labels, after = read_labels(packet, at, pointers=followed)
    return f'({READERS[call](labels)}, {after})'


def packet_example(call, packet, at, followed=True):
    """The same as an example."""
    return f'names.{call} {"followed" if followed else "refused"} {at} {word(packet)} = {answer(packet_answer, call, packet, at, followed)}'


def short_texts():
    """Each text of up to three of these bytes, after each of these fronts."""
    for front in (b'', b'\\4', b'A<2', b'A<20>.A'):
        for count in range(4):
            for ending in itertools.product(b'A2g<>.\\', repeat=count):
                yield text_example(front + bytes(ending))


def longest_scopes():
    """The longest scope that a name may have, and one that is a byte longer."""
    for last in (28, 29):
        yield text_example(b'A<20>' + (b'.' + b'x' * 63) * 3 + b'.' + b'y' * last)


def made_name(chance):
    """A name."""
    front = chance.choice([b'FRED', chance.randbytes(chance.randrange(16))])
    kinds = [b'COM', b'a.b', chance.randbytes(4), b'x' * chance.randrange(50, 64)]
    return Name(front.ljust(15) + chance.randbytes(1), tuple(chance.choices(kinds, k=chance.randrange(5))))


def made_texts(chance, count):
    """Names that are written, and their texts with a change."""
    for _ in range(count):
        name = made_name(chance)
        text = text_of(name)
        if len(spelled(name.scope)) <= LONGEST_SCOPE:
            yield f'names.name_text {" ".join(map(word, [name.bytes, *name.scope]))} = {text}'
        yield text_example(text.encode())
        place = chance.randrange(len(text) + 1)
        change = chance.choice(['', 'A', '0', '\\', '\\4', '\\2E', '<', '>', '.', ' ', 'é', '{', 'xxxxxxxx'])
        yield text_example((text[:place] + change + text[place + chance.randrange(3):]).encode())


def small_packets(chance, count):
    """Each offset of small packets, and some past their ends."""
    for number in range(count):
        packet = bytes(chance.choices(SMALL, k=number % 20))
        for at, followed in itertools.product(range(22), (True, False)):
            yield packet_example('read_domain', packet, at, followed)


def made_packet(chance):
    """A packet of labels, pointers and ends, and the offsets at which they stand."""
    packet, places = b'', []
    for _ in range(chance.randrange(1, 12)):
        places.append(len(packet))
        letters = b'\x20' + bytes(chance.choices(b'ABCDEFGHIJKLMNOP', k=32))
        size = chance.randrange(40, 64)
        pointer = (0xC000 + chance.choice(places)).to_bytes(2, 'big')
        pieces = [letters, bytes([size]) + b'y' * size, b'\3COM\0', b'\1a', pointer, b'\0']
        packet += chance.choice(pieces + [letters, letters.replace(b'P', b'Q'), chance.randbytes(1)])
    return packet[:chance.choice([len(packet), chance.randrange(len(packet) + 1)])], places


def made_packets(chance, count):
    """Names at several offsets of packets."""
    for _ in range(count):
        packet, places = made_packet(chance)
        for at in sorted({places[0], places[-1], chance.choice(places)}):
            followed = chance.random() < 0.8
            yield from (packet_example(call, packet, at, followed) for call in READERS)


def longest_way():
    """As many pointers as there can be, each to the one before, and the first to a name or to itself."""
    pointers = b''.join((0xC000 + max(0, 2 * k - 1)).to_bytes(2, 'big') for k in range(8193))
    yield from (packet_example(call, front + pointers, 16385) for front in (b'\0', b'\xc0') for call in READERS)


def main():
    """Prints all of them."""
    chance = random.Random(1002)
    print(*short_texts(), *longest_scopes(), *made_texts(chance, 2000), sep='\n')
    print(*small_packets(chance, 400), *made_packets(chance, 1500), *longest_way(), sep='\n')


main()
