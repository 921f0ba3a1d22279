"""The words and limits of the summary, which nbt-look-tshark and the page have alike: tools/lists.py --made makes page/src/made/vocabulary.js of it."""
import enum

from nbt_pcap.header import FRAGMENTS, NBSTAT


class Word(enum.Enum):
    """What a packet says of a name at an address; each has its section of RFC 1002. docs/SUMMARY.md has the table."""

    CLAIMS = 'claims'                             # name registration request 4.2.2, operation 15 too
    REFRESHES = 'refreshes'                       # name refresh request 4.2.4
    TAKES = 'takes'                               # name overwrite request and demand 4.2.3
    GIVES_UP = 'gives up'                         # name release request and demand 4.2.9
    ANSWERS = 'answers'                           # positive name query response 4.2.13, with its sender's own address
    LISTS = 'lists it'                            # node status response 4.2.18
    LISTS_CONFLICT = 'lists it in conflict'       # the same, with CNF
    LISTS_INACTIVE = 'lists it inactive'          # the same, without ACT
    GRANTED = 'granted'                           # positive name registration response 4.2.5
    TO_ASK = 'to ask the holder'                  # end-node challenge registration response 4.2.7
    TOLD = 'told of a conflict'                   # name conflict demand 4.2.8, or a negative response with CFT_ERR
    REFUSED = 'refused'                           # negative name registration response 4.2.6
    TO_WAIT = 'to wait'                           # WACK response 4.2.16
    RELEASED = 'released'                         # positive name release response 4.2.10
    NOT_RELEASED = 'not released'                 # negative name release response 4.2.11
    SAID = 'said to have it'                      # positive name query response 4.2.13, with another address


# How much of a packet stands, where that isn't all.
CUT, MALFORMED = 'cut', 'malformed'
# What came of a request that found nothing, beside the words of a negative response: a late one, one by another station, one to a later request.
LATE, OTHER, LATER = 'late', 'by', 'later'
# The kinds of packets by the port of their packets, with a word on each.
KINDS_OF = {
    'port 137': {
        'query': 'asks for a name, and what is answered', 'status': 'asks what names a station has, and what is answered',
        'registration': 'claims a name, and what is answered', 'refresh': 'claims a name again, and what is answered',
        'release': 'gives a name up, and what is answered', 'wack': 'asks to wait', 'response': 'any answer',
        'conflict': 'refuses a name that another station has, or says that one is in conflict'},
    'port 138': {
        'datagram': 'unique, group or broadcast', 'unique': 'a datagram to one station', 'group': 'a datagram to a group',
        'broadcast': 'a datagram to all', 'fragment': 'a piece of a datagram', 'error': 'a datagram is not taken',
        'find': 'asks whether datagrams are relayed to a name', 'found': 'answers that they are relayed', 'missing': 'answers that none are relayed'},
    'port 139': {
        'session': 'any packet', 'request': 'calls a name', 'retarget': 'sends the caller elsewhere', 'message': 'data',
        'keepalive': 'keeps the session alive'},
    'each port': {
        'positive': 'an answer that grants, finds or accepts', 'negative': 'an answer that refuses, or finds nothing',
        'malformed': 'nbt refuses to read it', 'left-out': 'cut, or not read for another reason'}}
# Another word for a kind, and the words for kinds of packets.
KIND_SAME = {'conflicts': 'conflict'}
KINDS = tuple(kind for kinds in KINDS_OF.values() for kind in kinds)
# The kinds of packets with a piece of a datagram, or with a whole one; and what answers a call.
PIECES = tuple(FRAGMENTS.values())
SESSION_RESPONSES = ('positive', 'negative', 'retarget')
# The sections of a packet of port 137.
SECTIONS = ('questions', 'answers', 'authorities', 'additional')
# RR_TYPE NBSTAT and NB, as objects of JSON have them; the operation by which a station claims a name for several addresses of its own.
STATUS_TYPE, ADDRESS_TYPE = f'{NBSTAT:04x}', '0020'
MULTIHOMED = 15
# What the last byte of a name says, where it is unique and where it is a group's.
SUFFIXES = {'00': ('workstation', 'domain'), '01': ('messenger', 'master browser'), '03': ('messenger', 'messenger'),
            '06': ('remote access server', ''), '1b': ('domain master browser', ''), '1c': ('', 'domain controllers'),
            '1d': ('master browser', ''), '1e': ('', 'browser elections'), '1f': ('NetDDE', ''), '20': ('file server', ''),
            '21': ('remote access client', ''), 'be': ('network monitor', ''), 'bf': ('network monitor application', '')}
# The tables, by the words that choose them: their titles and columns.
OF_ROW = ('group', 'says', 'frame', 'is_told', 'by', 'told_frame', 'time', 'first', 'claims', 'refusals', 'lifetime', 'kind')
TABLES = {
    'names': ('names', ('name', 'address', *OF_ROW)),
    'several': ('several', ('name', 'address', 'mac', *OF_ROW)),
    'refusals': ('refusals', ('name', 'address', 'by', 'reason', 'times', 'first', 'last', 'time')),
    'queries': ('queries that found nothing', ('name', 'type', 'by', 'asked', 'times', 'frames', 'since', 'answered')),
    'sessions': ('sessions', ('calling', 'called', 'from', 'to', 'calls', 'accepted', 'refused', 'sent', 'received')),
    'stations': ('stations', ('address', 'macs', 'packets', 'names', 'refused', 'status', 'unit')),
    'datagrams': ('datagrams', ('source', 'destination', 'kind', 'whole', 'incomplete', 'spoilt', 'cut')),
    'failed': ('failed datagrams', ('key', 'state', 'source', 'destination', 'bytes_known', 'size', 'missing', 'frames')),
    'malformed': ('malformed', ('reason', 'packets', 'frame', 'payload_byte')),
    'left-out': ('left out', ('reason', 'frames'))}
# What a table has over a column whose key is another one, and the columns that a narrow terminal lets go, the last one first.
HEADS = {'told_frame': 'frame'}
DROPPED = ('time', 'first', 'claims', 'refusals', 'lifetime', 'kind')
# The start of 1970, which stands for the time of a frame without one.
EPOCH = 0
# How long after its latest repeat a request may be answered: twice UCAST_REQ_RETRY_TIMEOUT, our choice.
ANSWERING = 10_000_000_000
IN_NANOSECONDS = ('EPOCH', 'ANSWERING')
# How many names are kept, rows of each table, and requests; the rest is counted.
MOST_ENTRIES = 65_536
# How many names of a node status are kept, and how many frames of a row.
MOST_OF_STATION = 64
MOST_FRAMES = 16
# How many streams are known; the one that was silent longest is let go.
MOST_STREAMS = 16_384
# How many bytes of pieces are held of datagrams that aren't whole, to say what they lack.
MOST_HELD = 16_777_216
