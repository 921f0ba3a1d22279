"""What nbt-look prints of a capture as objects, and what the model of tests/model/traffic.py would have it print."""
import collections
import json
import subprocess

from model.objects import front_of, shown
from model.phrases import said
from model.traffic import LACKS, UNREAD, LeftOut, Traffic

# What other scripts compare; and what an object has of its frame, before what is said of the packet.
ELSEWHERE = 'time', 'moment', 'interface', 'vlans', 'from_mac', 'to_mac', 'size', 'captured'
OF_FRAMES = 'frame', 'from', 'to', 'source_port', 'target_port', 'port', 'brief'
UNFINISHED = 'a session packet whose rest is missing', 'fragments of IP whose others are missing'
CUT, BAD_LENGTH = 'cut by the snap length', 'a length that the packet lacks'


def listed(program, path):
    """The objects that are printed of a file, and that of the counts."""
    done = subprocess.run([program, '--json', path], stdout=subprocess.PIPE, check=True)
    found = (json.loads(line, object_pairs_hook=members) for line in done.stdout.splitlines()[:-1])
    return [{key: value for key, value in each.items() if key not in ELSEWHERE} for each in found], counts_in(done.stdout)


def counts_in(output):
    """The object of the counts."""
    counts = json.loads(output.splitlines()[-1], object_pairs_hook=members)
    return counts | {'left_out': {each['reason']: each['frames'] for each in counts['left_out']}}


def members(pairs):
    """An object of JSON; no two of its members have one name."""
    found = dict(pairs)
    assert len(found) == len(pairs), pairs
    return found


def modelled(frames):
    """The same by the model."""
    traffic, found, without = Traffic(), [], collections.Counter()
    for number, (time, data, snap) in enumerate(frames, 1):
        brings = traffic.take(1, data[:snap], time * 1_000)
        if isinstance(brings, str):
            without[brings] += 1
        else:
            found += [object_of(each, number, data, snap) for each in brings]
    packets = [each for each in found if 'left_out' not in each and 'cut' not in each]
    left_out = collections.Counter(each.get('left_out', CUT) for each in found if each not in packets)
    left_out.update({each: without[each] for each in UNREAD.values()})
    left_out.update(dict(zip(UNFINISHED, (traffic.connections.unfinished(), traffic.fragments.unfinished()))))
    return found, {'frames': len(frames), 'packets': len(packets), 'malformed': sum('refused' in each for each in packets), 'left_out': dict(+left_out),
                   **{each: without[each] for each in LACKS}, 'shown': len(found)}


def object_of(item, number, data, snap):
    """The object of what a frame brings."""
    source, target, *ports = item.ends
    told = {'frame': number, 'from': str(source), 'to': str(target), 'source_port': ports[0], 'target_port': ports[1], 'port': item.port}
    if isinstance(item, LeftOut):
        count = '' if item.count is None else f', {item.count} byte' + 's' * (item.count != 1)
        return told | {'brief': f'left out: {item.reason}{count}', 'left_out': item.reason}
    port, payload, captured = item.port, item.payload, len(data[:snap])
    if len(payload) == item.wire:
        return told | {'brief': said(port, payload)} | told_of(port, payload)
    if captured == len(data):
        return told | {'brief': f'left out: {BAD_LENGTH}', 'left_out': BAD_LENGTH}
    if not payload:
        return told | {'brief': f'left out: {CUT}, {captured} of {len(data)} bytes', 'left_out': CUT}
    return told | {'brief': f'cut: {len(payload)} of {item.wire} bytes', 'cut': item.wire} | told_of(port, payload)


def told_of(port, payload):
    """What an object has of a payload."""
    return shown(port, payload) | front_of(port, payload)


def unfinished_of(counts):
    """How many sessions and packets of IP are said to lack something at the end."""
    return tuple(counts['left_out'].get(each, 0) for each in UNFINISHED)


def ends_of(shown_packet):
    """From where to where an object goes, with the ports."""
    return tuple(shown_packet[each] for each in OF_FRAMES[1:5])


def told_in(shown_packet):
    """What an object has of its packet."""
    return {member: value for member, value in shown_packet.items() if member not in OF_FRAMES}
