"""All of the packets of one frame, and what to do about a fault, by its port."""
import re
import subprocess

from nbt_pcap.process import say

from .listing import ends
from .objects import ENCODE, Objects
from .places import is_in_name, place_of
from .screen import Sink
from .shown import counted, left_out_words

ROW = 16


class Whole(Sink):
    """What stands in a frame: where it comes from, what it says, its fields and bytes, its fault, and how Wireshark finds it."""

    def __init__(self, screen, times, number, program):
        super().__init__(screen, times)
        self.number, self.program, self.status = number, program, 1

    def packet(self, item, shown, _text):
        self.payload(item, shown, ['show'], 'refused' if 'refused' in shown else None)

    def cut(self, item, shown):
        """A front is shown as a packet, with the place where it was cut in brackets unless a fault stands before."""
        self.payload(item, {'at': len(item.digits) // 2, **shown}, ['show', '--partial'], 'left out')

    def payload(self, item, shown, words, style):
        self.head(item.frame, ends(item, ()))
        self.screen.line(shown['brief'], style)
        self.screen.line('')
        for line in asked(self.program, words, '%d %d %s\n' % (item.service, item.moment, item.digits or 'empty')):
            self.screen.line(line.removeprefix('1 '))
        self.screen.line('')
        self.screen.line('payload, %s' % counted(len(item.digits) // 2, 'byte'), 'head')
        data = bytes.fromhex(item.digits)
        place = place_of(item.service, data, shown)
        self.dump(data, place)
        if 'refused' in shown:
            self.advise(item.service, shown['refused'])
            self.place(shown['refused'], place)
        if item.source:
            self.screen.line('')
            self.screen.line('Wireshark: frame.number == %d' % self.number)
            self.screen.line('of the same: ' + wireshark(item, shown))

    def left_out(self, item):
        self.head(item.frame, ends(item.frame, ()))
        self.screen.line('left out: ' + left_out_words(item), 'left out')
        self.screen.line('Wireshark: frame.number == %d' % self.number)

    def head(self, frame, addresses):
        if self.status == 0:
            self.screen.line('')
        self.status = 0
        self.screen.line('frame %d, %s, %s' % (frame.number, self.times.text(frame.at), self.times.utc(frame.at) or '-'), 'head')
        words = ['%s > %s' % addresses, '%d of %d bytes captured' % (frame.captured, frame.size)]
        if frame.source_mac:
            words.append('MAC %s > %s' % (frame.source_mac, frame.target_mac or '-'))
        words += ['%s %s' % each for each in (('VLAN', frame.vlans), ('interface', frame.interface_name)) if each[1]]
        self.screen.line(', '.join(words))

    def advise(self, port, refused):
        """What to do about a fault, and how nbt is asked for it."""
        self.screen.line('')
        self.screen.line("nbt help '%s'" % refused)
        for line in advice_of(self.program, port, refused):
            self.screen.line('  ' + line)

    def place(self, refused, place):
        """Which byte of the payload it is, where the place of a fault counts in a name."""
        if place is not None and is_in_name(refused):
            self.screen.line('  byte %s of the name is byte %d of the payload' % (refused.rpartition(' ')[2], place))

    def dump(self, data, mark):
        """The bytes, sixteen a row; the one with the fault stands in brackets, and so does the place after the last one."""
        for at in range(0, max(len(data) + (mark == len(data)), 1), ROW):
            row = data[at:at + ROW]
            digits = ''.join('[%02x]' % byte if at + place == mark else ' %02x ' % byte for place, byte in enumerate(row))
            if mark == len(data) and at <= mark < at + ROW:
                digits += '[  ]'
            text = ''.join(chr(byte) if 0x20 <= byte < 0x7f else '.' for byte in row)
            self.screen.line(('%05x  %-64s  %s' % (at, digits, text)).rstrip())

    def finish(self, tally, _left_out):
        for each in why_none(self.number, tally) if self.status else ():
            self.screen.line(each)


class WholeObject(Objects):
    """The objects of the packets of one frame, with their bytes, what to do about a fault, and how Wireshark finds them."""

    def __init__(self, screen, times, number, program):
        super().__init__(screen, times)
        self.number, self.program, self.status = number, program, 1

    def packet(self, item, shown, text):
        super().packet(item, shown, text)
        self.add(item, shown)

    def cut(self, item, shown):
        super().cut(item, shown)
        self.add(item, shown)

    def left_out(self, item):
        self.status = 0
        super().left_out(item)

    def add(self, item, shown):
        """Takes more of the latest object."""
        self.status = 0
        more = {'payload': item.digits}
        if 'refused' in shown:
            more['help'] = advice_of(self.program, item.service, shown['refused'])
        if item.source:
            more['wireshark'] = ['frame.number == %d' % self.number, wireshark(item, shown)]
        self.screen.lines[-1] = self.screen.lines[-1][:-1] + ',' + ENCODE(more)[1:]

    def finish(self, tally, _left_out):
        """Why there is none stands on standard error, since it is no object."""
        for each in why_none(self.number, tally) if self.status else ():
            say(each, name=False)


def why_none(number, tally):
    """Why a frame has no packet, in lines."""
    if tally.frames is not None and number > tally.frames:
        return ['there is no frame %d: the capture has %s' % (number, counted(tally.frames, 'frame'))]
    why = ['frame %d completes no packet of these ports' % number]
    if tally.sought and tally.sought.completed_by:
        why.append('it has a part of the packet that frame %d completes' % tally.sought.completed_by)
    return why


def advice_of(program, port, refused):
    """What to do about a fault, in lines."""
    advice = of_port(port, refused)
    return [advice] if advice else asked(program, ['help', refused], '')


def asked(program, words, text):
    """What nbt prints."""
    done = subprocess.run([program, *words], input=text.encode(), stdout=subprocess.PIPE, check=False)
    return done.stdout.decode(errors='replace').splitlines()


def wireshark(item, shown):
    """The filter of Wireshark for what belongs together."""
    if item.service == 137 and len(item.digits) >= 4:
        return 'nbns.id == 0x' + item.digits[:4]
    if item.service == 138 and 'key' in shown:
        address, _, rest = shown['key'].partition(':')
        return 'nbdgm.src.ip == %s && nbdgm.dgram_id == 0x%s' % (address, rest.partition('/')[2])
    return 'tcp.stream == %s' % item.stream if item.stream else 'udp.port == %d' % item.service


# The words of a fault without what stands before a colon, and without its place.
WORDS = re.compile(r'(?:.*: )?(.*?)(?: \d+)?$')
# What `nbt help` says of some faults is about other ports or commands too: here stands what is about packets of each port.
OF_EACH = {'truncated': 'the bytes end too early: capture whole packets, as by `tcpdump -s 0`',
           'too long': 'a name passes 255 bytes: leave it out, its sender is broken or hostile'}
OF_PORT = {
    (137, 'reserved label'): 'no name stands there: perhaps other traffic',
    (138, 'reserved label'): 'no name stands there: other traffic, or a later piece of a datagram cut by RFC 1002, section 5.3',
    (139, 'reserved label'): 'no name stands there: perhaps other traffic',
    (138, 'unknown type'): "the first byte is none of port 138's types, such as 13: perhaps other traffic",
    (139, 'unknown type'): "the first byte is none of port 139's types, such as 85: perhaps other traffic, or a stream whose start is missing",
    (139, 'trailing bytes'): 'bytes follow the two names with which a session request ends: leave it out, its sender is broken or hostile'}


def of_port(port, refused):
    """What to do about a fault, where that isn't all that `nbt help` says of it; or else None."""
    words = WORDS.match(refused)[1]
    return OF_PORT.get((port, words)) or OF_EACH.get(words)
