"""An object of JSON for each packet, on a line of its own."""
import json
import re

from .screen import Sink

# Of what nbt says: how many bytes of the payload it read, and the flags of a packet of port 137.
USED, FLAGS = re.compile('"used":([0-9]+)'), re.compile(r'"flags":\[([^]]*)\]')
ENCODE = json.JSONEncoder(separators=(',', ':')).encode


class Objects(Sink):
    """The objects: what the frame has, and then what `nbt show --json` says; `flags` is a text of each port, and `trailing` what follows the
    packet in its payload."""

    def packet(self, item, shown, text):
        if shown and 'refused' in shown:
            members = {key: value for key, value in shown.items() if key not in ('line', 'comment')}
            self.put(item, item, ENCODE(in_words(members)))
            return
        # All of the text but its first member, the number of its line, which no file has.
        text = text.split(',', 1)[1]
        if item.service == 137:
            text = FLAGS.sub(flags_in_words, text, 1)
        trailing = item.digits[2 * int(USED.search(text)[1]):]
        self.put(item, item, '{%s,"trailing":"%s"}' % (text[:-1], trailing))

    def cut(self, item, shown):
        self.put(item, item, ENCODE(in_words(shown)))

    def left_out(self, item):
        missing = {'missing': item.missing} if item.missing else {}
        self.put(item, item.frame, ENCODE({'left_out': item.reason, **missing}))

    def put(self, item, ends, members):
        """Prints an object: what the frame of an item has, whose ends these are, and then members."""
        self.screen.lines.append(self.front(item.frame, (ends.source, ends.target, ends.source_port, ends.target_port))[:-1] + ',' + members[1:])

    def front(self, frame, ends):
        source, target, *ports = ends
        return ENCODE({
            'frame': frame.number, 'time': self.times.utc(frame.at), 'from': source or None, 'to': target or None,
            'ports': [int(each) for each in ports if each], 'interface': frame.interface_name,
            'vlan': [int(each, 0) for each in frame.vlans.split(',') if each],
            'mac': [frame.source_mac, frame.target_mac or None] if frame.source_mac else None,
            'size': frame.size, 'captured': frame.captured})


def in_words(members):
    """The members of an object, with flags as a text."""
    flags = members.get('flags')
    return dict(members, flags='+'.join(flags)) if isinstance(flags, list) else members


def flags_in_words(found):
    """The flags of a text of JSON, RD+B in the place of RD and B in an array."""
    return '"flags":"%s"' % found[1].replace('"', '').replace(',', '+')
