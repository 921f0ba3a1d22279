"""The kinds of packets."""
from nbt_pcap.header import MORE

from .vocabulary import MULTIHOMED, PIECES, STATUS_TYPE
from .words import REGISTERING, is_response, statuses_of


def kinds_of(port, shown):
    """The kinds of a packet of a port, by its object of JSON; None stands for what is left out. Of one that is cut or malformed those that its
    header says are kinds of it too."""
    if shown is None:
        return ['left-out']
    if 'cut' in shown:
        return ['left-out', *told_kinds(port, shown)]
    return ['malformed', *told_kinds(port, shown)] if 'refused' in shown else told_kinds(port, shown)


def told_kinds(port, shown):
    """The kinds that a header says; none where it doesn't stand."""
    if port == 137:
        return service_kinds(shown) if 'op' in shown else []
    kind = shown.get('kind', None if 'refused' in shown or 'cut' in shown else 'message')
    if kind is None:
        return []
    if port == 139:
        return [kind, 'session']
    if kind in PIECES:
        is_piece = int(shown['flags'], 16) & MORE or shown.get('offset', 0)
        return [kind, 'datagram', 'fragment'] if is_piece else [kind, 'datagram']
    return [kind, *{'found': ['positive'], 'missing': ['negative']}.get(kind, [])]


def service_kinds(shown):
    asks_status = any(each.get('type') == STATUS_TYPE for each in (*shown['questions'], *shown['answers'], shown.get('about', {})))
    operation = 'registration' if shown['op'] == MULTIHOMED else shown['op']
    kinds = ['status' if asks_status else str(operation)]
    if not is_response(shown):
        return kinds
    is_of_conflict = is_taken(shown['op'], shown['rcode']) or any('CNF' in each['set'] for record in statuses_of(shown) for each in record['names'])
    return [*kinds, 'response', *kinds_of_response(shown['op'], shown['rcode']), *(['conflict'] if is_of_conflict else [])]


def is_taken(operation, code):
    """Whether a response says that a name is in conflict, or refuses one that another station has: RFC 1002 section 4.2.6."""
    return code == 'CFT_ERR' or (code == 'ACT_ERR' and operation in REGISTERING)


def kinds_of_response(operation, code):
    """What a response says by its code. A conflict demand answers nothing."""
    if code == 'ok':
        return [] if operation == 'wack' else ['positive']
    return [] if code == 'CFT_ERR' and operation == 'registration' else ['negative']
