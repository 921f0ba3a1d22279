"""Where captures may be cut.

A capture is cut into ranges of whole lines. Of a capture without ticks every line end is a place to cut. A tick drops
keys, so in a capture with ticks these are: the end of a tick that leaves no key, and every line end after the last
tick. With groups by source address each range gives a shard for each group: the group's lines, and all ticks.
"""
import re
from collections import namedtuple

from nbt_pcap.header import INPUT, KEPT_FOR
from nbt_pcap.process import Stopped, faults_of


# Whole lines of an input: the offsets between which they stand, the number of the first, and how many they are.
Range = namedtuple('Range', 'capture begin end first lines')
# What one `nbt save` reads: the lines of a range, or those of them that are of a group (None: all of them).
Shard = namedtuple('Shard', 'name range group groups')
# The end of some lines, how many they are, and whether an input may be cut there.
Place = namedtuple('Place', 'end lines safe')

TICK = re.compile(rb'tick ([0-9]{1,20})\n?\Z')
PAYLOAD = re.compile(rb'138 ([0-9]{1,20}) ')


def ranges_of(capture, options):
    """The ranges of an input, in order: of at most --shard-bytes for each group, but where it can't be cut so often."""
    with faults_of(capture):
        if options.tables:
            places = table_ends(capture)
        elif has_ticks(capture):
            places = tick_places(capture)
        else:
            places = line_ends(capture, options.shard_bytes)
        ranges = list(packed(capture, places, options.shard_bytes * (options.by_source or 1)))
    for each in ranges:
        if each.end - each.begin > INPUT and not options.by_source:
            raise too_long(each, options)
    return ranges


def has_ticks(capture):
    """Whether some line may be a tick."""
    last = b'\n'
    with open(capture, 'rb') as file:
        while block := file.read(1 << 22):
            last += block
            if b'\ntick ' in last:
                return True
            last = last[-6:]
    return False


def table_ends(path):
    """The ends of all lines of a file of saved tables."""
    at = 0
    with open(path, 'rb') as file:
        for line in file:
            at += len(line)
            yield Place(at, 1, True)


def line_ends(capture, most):
    """The ends of rows of lines of a capture without ticks, each of at most so many bytes."""
    at, lines, rest = 0, 0, b''
    with open(capture, 'rb') as file:
        while block := file.read(most - len(rest)):
            rest += block
            cut = rest.rfind(b'\n') + 1
            if cut:
                at, count, rest = at + cut, rest.count(b'\n'), rest[cut:]
                lines += count
                yield Place(at, count, True)
            elif len(rest) == most:
                raise Stopped(1, '%s: line %d is malformed' % (capture, lines + 1))
    if rest:
        yield Place(at + len(rest), 1, True)


def tick_places(capture):
    """The ends of all lines of a capture with ticks.

    A key lives from the moment of its first payload, and the first tick KEPT_FOR or more after that drops it. So a tick
    leaves none that shows as much after the moments of all payloads since the last such tick.
    """
    last = last_tick(capture)
    at, latest = 0, -KEPT_FOR
    with open(capture, 'rb') as file:
        for line in file:
            at += len(line)
            leaves_none = False
            if payload := PAYLOAD.match(line):
                latest = max(latest, int(payload[1]))
            elif tick := TICK.match(line):
                leaves_none = latest + KEPT_FOR <= int(tick[1])
            if leaves_none:
                latest = -KEPT_FOR
            yield Place(at, 1, leaves_none or at > last)


def last_tick(capture):
    """The offset at which the last tick begins."""
    at = last = 0
    with open(capture, 'rb') as file:
        for line in file:
            if line.startswith(b'tick '):
                last = at
            at += len(line)
    return last


def packed(capture, places, most):
    """Ranges that end at safe places: as long as `most` allows, and longer where no such place stands before that.

    The end of a capture is always a safe place.
    """
    begin = end = first = lines = waiting = 0
    for place in places:
        waiting += place.lines
        if not place.safe:
            continue
        if lines and place.end - begin > most:
            yield Range(capture, begin, end, first + 1, lines)
            begin, first, lines = end, first + lines, 0
        end, lines, waiting = place.end, lines + waiting, 0
    yield Range(capture, begin, end, first + 1, lines)


def too_long(each, options):
    """Why a range isn't cut further."""
    size = each.end - each.begin
    if options.tables:
        return Stopped(1, '%s: line %d has %d bytes, and `nbt merge` reads %d' % (each.capture, each.first, size, INPUT))
    return Stopped(1,
        '%s has %d bytes, of which `nbt save` reads %d, and can\'t be cut there: keys live across each of its ticks. Cut it '
        'by source address (--by-source %d), or leave the ticks out (nbt-look --lines --no-ticks) where no key has to be dropped'
        % (place_of(each), size, INPUT, 1 + size // (INPUT // 2)))


def place_of(each):
    return '%s: lines %d to %d' % (each.capture, each.first, each.first + each.lines - 1)


def shards_of(options):
    """The shards of all inputs, in order: those of each range, a group after another."""
    ranges = [each for capture in options.captures for each in ranges_of(capture, options)]
    groups = range(options.by_source) if options.by_source else [None]
    return [Shard('g%04d-%06d' % (group or 0, place), each, group, options.by_source)
            for place, each in enumerate(ranges) for group in groups]
