"""What the last lines say: the counts of packets, the frames that have neither a packet nor something that is left out, and what a capture has of
NetBIOS that this tool doesn't read."""
import collections

from nbt_pcap.report import left_out_text

from .shown import counted


class Tally:
    """How many packets there were, how many of them are malformed, and how many were shown."""

    def __init__(self):
        self.packets = self.malformed = self.shown = 0
        self.frames = None           # of a capture that has frames
        self.sought = None           # the frame that is asked for, if it has a row
        self.without = {}            # how many frames have neither a packet nor something that is left out, and what they hold

    def take(self, text):
        self.packets += 1
        self.malformed += '"refused":' in text

    def text(self, left_out, is_all):
        frames = '' if self.frames is None else counted(self.frames, 'frame') + ', '
        shown = '' if is_all else '; %d shown' % self.shown
        return '%s%s, %d malformed, %s%s' % (frames, counted(self.packets, 'packet'), self.malformed, left_out_text(left_out), shown)

    def notes(self, is_all):
        """What the frames are that have no packet, where all of them are shown, and some are of these ports."""
        is_other = not self.packets and set(self.without) == {OTHER}
        return [without_text(self.without)] if self.without and is_all and not is_other else []


# What a frame holds: a packet, or else one of these, each with its words.
PACKET = 'packet'
FRAGMENT, EMPTY, PART, OTHER = 'fragments', 'empty_segments', 'partial_segments', 'others'
WORDS = {FRAGMENT: ('fragment', 'of IP'), EMPTY: ('TCP segment', 'without data'), OTHER: ('frame', 'of other ports and protocols'),
         PART: ('TCP segment', 'of a packet that another frame completes')}


class Without:
    """The counts of these frames. One that is left out later is none of them any more."""

    def __init__(self):
        self.counts = collections.Counter()
        self.others = 0              # how many frames have a packet, or something that is left out

    def take(self, frame, row, is_fragment, is_ours):
        """Takes a frame after all that is made of it."""
        if frame.holds or frame.counted:
            self.others += 1
        elif is_fragment or is_ours:
            frame.holds = FRAGMENT if is_fragment else PART if row.tcp_len.strip('0,') else EMPTY
            self.counts[frame.holds] += 1

    def leave_out(self, frame):
        """Something of a frame is left out that may have been taken."""
        if frame.holds and frame.holds != PACKET:
            self.counts[frame.holds] -= 1
            self.others += 1
            frame.holds = None

    def of(self, frames):
        """How many of so many frames hold what, the most first."""
        rest = frames - self.others - sum(self.counts.values())
        return {what: count for what, count in collections.Counter(self.counts, **{OTHER: rest}).most_common() if count}


def without_text(counts):
    """What these frames are, in words."""
    words = ('%s %s' % (counted(count, WORDS[what][0]), WORDS[what][1]) for what, count in counts.items())
    return '%s without a packet: %s' % (counted(sum(counts.values()), 'frame'), ', '.join(words))


# A filter of Wireshark, and what its frames are.
KINDS = (('tcp.port == 445 || udp.port == 445', 'of port 445, SMB without NetBIOS'),
         ('netbios', 'of NetBEUI, NetBIOS over LLC'), ('nbipx', 'of NetBIOS over IPX'))
WITHOUT_IP = '!ip && !ipv6'
STATISTIC = 'io,stat,0,' + ','.join([each for each, _ in KINDS] + [WITHOUT_IP])


class Others:
    """The counts of these frames, by tshark's statistics."""

    def __init__(self):
        self.counts = [0] * (len(KINDS) + 1)

    def take(self, line):
        """Takes a line of the statistics; answers whether it is one."""
        if not line.startswith(('|', '=')):
            return False
        if '<>' in line:
            self.counts = [int(each) for each in line.split('|')[2:-1:2]]
        return True

    def lines(self, frames, ours, first):
        """What is said of them at the end; `first` are the protocols of the first frame."""
        found = [f"{counted(count, 'frame')} {what}" for count, (_, what) in zip(self.counts, KINDS) if count]
        if frames and not ours and self.counts[-1] == frames:
            found.append(f'no frame with IP: the first one is {first}')
        return ['not read by this tool: ' + ', '.join(found)] if found else []
