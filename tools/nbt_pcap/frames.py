"""Frames: the rows of tshark, and the packets that they give."""
from .clock import Clock, Fragments
from .layers import TCP_HEADER, UDP_HEADER, Segment, Unpaired, packets_of, shape_of
from .process import Stopped
from .reasons import BAD_LENGTH, CUT, FRAGMENTS, STOPPED, UNPAIRED
from .rows import is_joined, row_of
from .streams import Streams

# The words before the count of all frames, which comes last.
COUNTED = 'Packet Lengths '
# What tshark takes files for that hold no packets: the first protocol of their first frame.
NO_PACKETS = {'': 'a file of another kind', 'json': 'JSON', 'mime_dlt': 'a file of another kind', 'ber': 'a certificate',
              'tnef': 'a mail', 'systemd_journal': 'a journal', 'logcat': 'a log', 'logcat_text': 'a log', 'log3gpp': 'a log'}


class Reader:
    """Makes packets of the frames that tshark prints; `payload` and `cut_payload` take them."""

    def __init__(self, options, report):
        self.services = {str(port): service for port, service in options.ports if service != 139}
        self.session_ports = {str(port) for port, service in options.ports if service == 139}
        self.clock = Clock()
        self.fragments = Fragments()
        self.report = report
        self.streams = Streams(self.report)

    def row(self, text):
        if text.startswith(COUNTED):
            self.report.frames = int(text[len(COUNTED):].split()[0])
            return
        row = row_of(text)
        if row is None:
            return
        self.clock.read(row.time)
        if self.report.frames == 0:
            self.begin(row)
        self.report.begin(row)
        shape = shape_of(row.protocols)
        if shape.is_fragment:
            self.fragments.keep(row, self.clock.at)
        if not shape.quotes or row.aggregate:
            self.frame(row, shape)

    def begin(self, row):
        """Takes the first frame."""
        judge_kind(row.protocols)

    def frame(self, row, shape):
        try:
            packets = [each for each in packets_of(row, shape) if self.is_wanted(each)]
        except Unpaired:
            self.report.ours += 1
            self.report.leave_out(UNPAIRED, "it isn't known which of its ports and payloads belong together")
            return
        ours = any(each.target for each in packets)
        self.report.ours += ours
        why = ours and is_joined(row) and self.fragments.why_not(row, self.clock.at)
        if why:
            self.report.leave_out(FRAGMENTS, why)
            return
        for each in packets:
            self.packet(row, each)
        if row.aggregate and (row.short or row.malformed) and not self.report.mark.counted:
            self.report.note(STOPPED, 'frame %s: tshark stopped before the end of its aggregate of packets' % row.number)

    def is_wanted(self, packet):
        """Whether a packet is of these ports, or the file lacks its ports."""
        ports = self.session_ports if isinstance(packet, Segment) else self.services
        return not packet.target or packet.source in ports or packet.target in ports

    def packet(self, row, packet):
        if isinstance(packet, Segment):
            self.segment(row, packet)
        elif not packet.target:
            self.report.leave_out(self.report.cut, 'the file ends before its ports')
        else:
            self.datagram(row, packet)

    def datagram(self, row, packet):
        length, digits = packet.length, packet.payload
        if not length:
            self.report.leave_out(self.report.cut, 'the file ends inside its UDP header')
            return
        if ':' in digits:
            digits = digits.replace(':', '')
        size = 2 * (int(length) - UDP_HEADER)
        service = self.services.get(packet.source) or self.services[packet.target]
        is_cut = size > len(digits) and self.report.cut is CUT
        if 0 <= size <= len(digits):
            self.payload(row, service, digits[:size], packet)
        elif is_cut and digits:
            self.cut_payload(row, service, digits, packet, size // 2)
        else:
            self.report.leave_out(CUT if is_cut else BAD_LENGTH,
                                  'its UDP length is %s, and the file has %d bytes of its payload' % (length, len(digits) // 2))

    def segment(self, row, packet):
        if packet.size and packet.flags:
            sides = [(packet.stream, host, port) for host, port in ((packet.host.source, packet.source), (packet.host.target, packet.target))]
            data = bytes.fromhex(packet.payload.replace(':', ''))
            for whole in self.streams.segment(*sides, int(packet.flags, 16), int(packet.sequence), int(packet.size), data):
                self.payload(row, 139, whole.hex(), packet)
        elif packet.host.size is None or packet.host.size > TCP_HEADER:
            self.report.leave_out(self.report.cut, 'the file ends ' + ('inside its TCP header' if packet.target else 'before its ports'))


def judge_kind(protocols):
    """Refuses a file whose first frame is the text of a file, as it is for tshark."""
    kind = NO_PACKETS.get(protocols.partition(':')[0])
    if kind:
        raise Stopped(2, 'the file holds no packets: tshark takes it for %s' % kind)
