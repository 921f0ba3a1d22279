"""What a shard has, read where it is saved, and what is said of a shard that was refused."""
import hashlib
import io
import re
import zlib

from nbt_pcap.header import INPUT, MOST_KEYS
from nbt_pcap.process import Stopped

from .cutting import place_of
from .sources import groups_of

BLOCK = 1 << 22
MALFORMED = re.compile('nbt: line ([0-9]+)')


def lines_of(each):
    """The lines of a range, which has to have as many bytes and lines as when it was cut."""
    left, lines = each.end - each.begin, 0
    with open(each.capture, 'rb') as file:
        file.seek(each.begin)
        while left and (line := file.readline(left)):
            left, lines = left - len(line), lines + 1
            yield line
    if left or lines != each.lines:
        raise Stopped(3, '%s have changed while they were read' % place_of(each))


def whole(each):
    """The bytes of a range, which has to have as many lines as when it was cut."""
    with open(each.capture, 'rb') as file:
        file.seek(each.begin)
        data = file.read(each.end - each.begin)
    if len(data) != each.end - each.begin or line_count(data) != each.lines:
        raise Stopped(3, '%s have changed while they were read' % place_of(each))
    return data


def line_count(data):
    """How many lines there are; the last may lack its line feed."""
    return data.count(b'\n') + (not data.endswith(b'\n') and len(data) > 0)


def digest_of(each):
    """The digest of a range: by it a task elsewhere tells that it reads the same bytes."""
    left, digest = each.end - each.begin, hashlib.sha256()
    with open(each.capture, 'rb') as file:
        file.seek(each.begin)
        while left and (block := file.read(min(left, BLOCK))):
            digest.update(block)
            left -= len(block)
    return digest.digest()


def shard_lines(shard, wanted, sent, program, seconds):
    """The shard's lines, and their places in its range; all of them are one piece, and have no places. Of a group `nbt show` says which it has.
    The bytes that are read here have the digest that is wanted."""
    read, lines, places = hashlib.sha256(), [], []
    if shard.group is None:
        lines = [whole(shard.range) if sent is None else sent]
        read.update(lines[0])
    else:
        groups = groups_of(program, range_lines(shard.range, sent), shard.groups, seconds)
        for place, line in enumerate(range_lines(shard.range, sent), 1):
            read.update(line)
            if group_of(line, shard.groups, groups.get(place, 0)) in (None, shard.group):
                lines.append(line)
                places.append(place)
    if sent is None and read.digest() != wanted:
        raise Stopped(3, '%s: a worker reads other bytes there; --send sends the shards' % place_of(shard.range))
    return lines, places


def range_lines(each, sent):
    return lines_of(each) if sent is None else io.BytesIO(sent)


def group_of(line, groups, source):
    """The group of a line, or None for a tick, which each group has. Comments and payloads of other ports, which a table has
    nothing of, are spread over all groups; what else there is has the group of its source."""
    if line.startswith(b'tick '):
        return None
    if line.startswith((b'#', b'137 ', b'139 ')):
        return zlib.crc32(line) % groups
    return source


def judge_size(shard, size):
    """Refuses a shard that `nbt save` wouldn't read."""
    if size > INPUT:
        raise Stopped(1, '%s: group %d has %d bytes, of which `nbt save` reads %d. More groups (--by-source) make it smaller, or '
                      'shorter shards (--shard-bytes) where no tick is in the way' % (place_of(shard.range), shard.group, size, INPUT))


def placed(words, places):
    """The program's words on a line of the shard, with its place in the range."""
    malformed = MALFORMED.fullmatch(words)
    return 'nbt: line %d' % places[int(malformed[1]) - 1] if malformed and places else words


def refusal(shard, words):
    """The text for a shard of which the program had these words on standard error."""
    malformed = MALFORMED.fullmatch(words)
    if malformed:
        return '%s: line %d is malformed (shard %s)' % (shard.range.capture, shard.range.first + int(malformed[1]) - 1, shard.name)
    return '%s (shard %s): %s' % (place_of(shard.range), shard.name, explained(words))


def explained(words):
    """The program's words, and what to do about them."""
    if words == 'nbt: full':
        return '%s: there are more than %d keys. Cut by source address, into twice as many groups (--by-source)' % (words, MOST_KEYS)
    return words or 'the program was ended, or a device failed'
