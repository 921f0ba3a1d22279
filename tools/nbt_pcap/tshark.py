"""tshark as a process: what is asked of it, the capture filter of a network (these ports, in IPv4 and IPv6, below VLAN tags and PPPoE), the rows that
it prints, and how it ends."""
import ctypes
import os
import re
import select
import signal
import subprocess

from .process import ReaderEnded, heeded, say
from .rows import BETWEEN, FIELDS

PART = 65_536
BETWEEN_TICKS = 0.5
# How often tshark is asked to end a capture, before it is killed.
MOST_REQUESTS = 10
# What ends the capture of a network.
ENDING = (signal.SIGINT, signal.SIGTERM, signal.SIGHUP, signal.SIGQUIT)
# Frames whose headers end before their ports do.
HEADER_CUT = '((_ws.short || _ws.malformed) && frame.protocols matches ":(udp|tcp)$")'
# Fragments of IP, of which only the times are wanted.
FRAGMENT = 'ip.flags.mf == 1 || ip.frag_offset > 0 || ipv6.fraghdr'
# Several packets in one frame of 802.11: one may stand beside an ICMP error, or be where tshark doesn't come to.
AGGREGATE = 'wlan_aggregate.a_mdsu.length'
# Payloads as they are on the wire: IP fragments are put together, and no dissector above TCP joins segments. What tshark
# would keep of each packet, to say something of later ones, it doesn't.
PREFERENCES = ('ip.defragment:TRUE', 'ipv6.defragment:TRUE', 'tcp.relative_sequence_numbers:FALSE',
               'tcp.desegment_tcp_streams:FALSE', 'tcp.analyze_sequence_numbers:FALSE', 'tcp.calculate_timestamps:FALSE',
               'udp.calculate_timestamps:FALSE')
# How tshark counts all frames.
COUNTING = 'plen,tree'
NO_CAPTURE = b"isn't a capture file"
# What it says once it captures, and of which interface.
STARTED, TITLE = b'-- Capture started.', re.compile(rb"^Capturing on '(.*)'$", re.MULTILINE)
CHATTER = (b'Running as user', b'Capturing on', b' ** (tshark:', b'tshark: \n')


def command_of(options, fields, statistics):
    udp = sorted({port for port, service in options.ports if service != 139})
    tcp = sorted({port for port, service in options.ports if service == 139})
    command = ['tshark', '-n', '-Y', wanted(udp, tcp), '-T', 'fields', '-E', 'separator=/t', '-E', 'occurrence=a',
               '-E', 'aggregator=' + BETWEEN]
    for each in (COUNTING, *statistics):
        command += ['-z', each]
    for each in PREFERENCES:
        command += ['-o', each]
    for kind, ports in (('udp', udp), ('tcp', tcp)):
        for port in ports:
            command += ['-d', '%s.port==%d,data' % (kind, port)]
    for field in (*FIELDS, *fields):
        command += ['-e', field]
    if not options.live:
        return command + (['-l'] if options.file == '-' else []) + ['-r', os.fsencode(options.file)]
    command += ['-l', '-f', filter_of(udp, tcp)]
    return command + (['-i', options.interface] if options.interface else [])


def wanted(udp, tcp):
    """The display filter of the frames that give a row."""
    ports = 'udp.port in {%s} || tcp.port in {%s}' % (', '.join(map(str, udp)), ', '.join(map(str, tcp)))
    return ('frame.number == 1 || ((%s || %s) && ((!icmp && !icmpv6) || %s)) || %s || (%s && (_ws.short || _ws.malformed))'
            % (ports, HEADER_CUT, AGGREGATE, FRAGMENT, AGGREGATE))


def start(options, settings, errors, fields=(), statistics=(), given=None):
    """Starts it over a folder of settings, so that the user's own, and the user's plugins, aren't read. A row has these fields
    after the ones that packets are made of, and these statistics come at the end. `given` is where the file comes from by a pipe of ours."""
    given = given or (None if options.file == '-' else subprocess.DEVNULL)
    return subprocess.Popen(command_of(options, fields, statistics), stdin=given, stdout=subprocess.PIPE, stderr=errors,
                            preexec_fn=end_with_us, start_new_session=True, env=environment(settings))


def environment(settings):
    """The variables of tshark: none by which it finds settings or plugins of the user."""
    kept = {name: value for name, value in os.environ.items()
            if not name.startswith('WIRESHARK_') and name != 'XDG_CONFIG_HOME'}
    return dict(kept, HOME=settings, WIRESHARK_CONFIG_DIR=settings)


def end_with_us():
    """Called in the child: it is ended where this process is."""
    ctypes.CDLL(None).prctl(1, signal.SIGTERM)


class Listening:
    """What says on standard error on which interface a network's capture listens, once it does."""

    def __init__(self, options, errors):
        self.interface, self.errors = options.interface, errors.fileno()
        self.is_said = options.quiet or not options.live

    def look(self, rows):
        """Looks at what tshark said, without moving the place where it goes on; rows show it too."""
        if self.is_said:
            return
        text = os.pread(self.errors, PART, 0)
        if rows or STARTED in text:
            self.is_said = True
            title = self.interface.encode(errors='surrogateescape') if self.interface else b''.join(TITLE.findall(text)[:1])
            say(b'listening on %s; Ctrl-C ends it' % title)


class Stopping:
    """The end of a network's capture by a signal. tshark is asked again where it is silent: while it starts what captures
    for it, it may miss a request."""

    def __init__(self, process, signals):
        self.process = process
        self.requests = 0
        for each in heeded(signals):
            signal.signal(each, self.begin)

    def begin(self, *_):
        if not self.requests:
            self.request()

    def insist(self):
        """Asks again; tshark printed nothing for a while."""
        if self.requests == MOST_REQUESTS:
            os.killpg(self.process.pid, signal.SIGKILL)
        elif self.requests:
            self.request()

    def request(self):
        self.requests += 1
        self.process.terminate()

    def status(self):
        """How tshark ended; well, where it was asked to."""
        status = self.process.wait()
        return 0 if self.requests and status < 0 else status


def end(process):
    """Ends tshark, which ends what captures for it and removes its file; and all of its group where it doesn't."""
    process.stdout.close()
    process.terminate()
    try:
        process.wait(timeout=2)
    except subprocess.TimeoutExpired:
        os.killpg(process.pid, signal.SIGKILL)
        process.wait()


def rows_of(pipe, pause):
    """What tshark prints, some rows at a time as they come; none of them where it printed nothing for a while, if `pause`."""
    rest = b''
    ready = select.poll()
    ready.register(pipe, select.POLLIN)
    ready.register(1, 0)
    while True:
        events = dict(ready.poll(BETWEEN_TICKS * 1000 if pause else None))
        if events.get(1, 0) & select.POLLERR:
            raise ReaderEnded
        if not events:
            yield ()
        if pipe not in events:
            continue
        data = os.read(pipe, PART)
        if not data:
            return
        *rows, rest = (rest + data).split(b'\n')
        yield b'\n'.join(rows).decode(errors='surrogateescape').split('\n')


def reasons(errors):
    """What tshark said on standard error, without what it says of each run."""
    errors.seek(0)
    lines = [line for line in errors if line.strip() and not line.startswith(CHATTER)]
    return b' '.join(line.strip() for line in lines)


FRAGMENTS = 'ip[6:2] & 0x3fff != 0'
# IPv6 extension headers after which the ports stand further on: a hop-by-hop, routing or destination options header, whose
# next header is UDP, TCP, or another one of these; and a fragment.
EXTENDED = ('(ip6[6] = 0 or ip6[6] = 43 or ip6[6] = 60) and '
            '(ip6[40] = 17 or ip6[40] = 6 or ip6[40] = 0 or ip6[40] = 43 or ip6[40] = 44 or ip6[40] = 60)')
# The kernel takes off the first VLAN tag before the filter sees a frame. What is left of a second one, or of PPPoE: the
# type before it, where the type of its packet is, and what IPv4 and IPv6 are there.
INSIDE = (('0x8100', 16, 0x0800, 0x86dd), ('0x88a8', 16, 0x0800, 0x86dd), ('0x8864', 20, 0x0021, 0x0057))


def filter_of(udp, tcp):
    heard = ['udp port %d' % port for port in udp] + ['tcp port %d' % port for port in tcp]
    heard += ['(%s)' % FRAGMENTS, 'ip6 proto 44', '(%s)' % EXTENDED]
    for kind, at, four, six in INSIDE:
        heard.append('(ether proto %s and (%s or %s))' % (kind, inside_four(at, four, udp, tcp), inside_six(at, six, udp, tcp)))
    return ' or '.join(heard)


def inside_four(at, kind, udp, tcp):
    """Ports of an IPv4 packet whose type stands at this place of a frame, and its fragments."""
    ip = at + 2
    start = '%d + ((ether[%d] & 15) << 2)' % (ip, ip)
    protocol = 'ether[%d]' % (ip + 9)
    return '(ether[%d:2] = %d and (ether[%d:2] & 0x3fff != 0 or %s))' % (
        at, kind, ip + 6, ports(protocol, 'ether[%s:2]' % start, 'ether[%s + 2:2]' % start, udp, tcp))


def inside_six(at, kind, udp, tcp):
    """The same of an IPv6 packet; one with another header in between is let through."""
    ip = at + 2
    header = 'ether[%d]' % (ip + 6)
    others = ' or '.join('%s = %d' % (header, each) for each in (0, 43, 44, 60))
    return '(ether[%d:2] = %d and (%s or %s))' % (
        at, kind, others, ports(header, 'ether[%d:2]' % (ip + 40), 'ether[%d:2]' % (ip + 42), udp, tcp))


def ports(protocol, source, target, udp, tcp):
    return ' or '.join('(%s = %d and (%s = %d or %s = %d))' % (protocol, number, source, port, target, port)
                       for number, each in ((17, udp), (6, tcp)) for port in each)
