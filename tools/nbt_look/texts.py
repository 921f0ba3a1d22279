"""The packets of a capture that is text, with the frames that its comments name."""
import io
import sys

from nbt_pcap import lines
from nbt_pcap.arguments import title_of

from .items import Cut, Frame, Packet

PART = 1_000


def batches_of(path, pipe):
    """The packets of a file, some at a time. Those before a malformed line come before its refusal."""
    title = title_of(path)
    with io.BufferedReader(pipe) if pipe else sys.stdin.buffer if path == '-' else open(path, 'rb') as file:
        items = []
        try:
            for each in lines.payloads_of(lines.lines_of(file, title)):
                items.append(item_of(*each))
                if len(items) == PART:
                    yield items
                    items = []
        except lines.BadTime as refused:
            yield items
            raise lines.Refused('%s: %s' % (title, refused)) from refused
        except lines.Refused as refused:
            yield items
            raise lines.Refused('%s: %s is none of a capture' % (title, refused)) from refused
        yield items


def item_of(number, service, moment, digits, comment, size):
    """A packet, or what is left of a cut one."""
    held = len(digits) // 2
    packet = packet_of(frame_of(number, moment, comment, max(held, size or 0), held), service, moment, digits, comment)
    return Cut(*packet, size) if size and size > held else packet


def frame_of(number, moment, comment, size, captured):
    """The frame of a comment; without one that is the number of its line, and its moment counts from 1970."""
    if comment is None:
        return Frame(number, moment * 10**6, size=size, captured=captured)
    at = comment.microseconds()
    return Frame(comment.number, None if at is None else at * 1000, *comment.words, size=size, captured=captured)


def packet_of(frame, service, moment, digits, comment):
    return Packet(frame, service, moment, digits, *(comment.words if comment else [''] * 4), None)
