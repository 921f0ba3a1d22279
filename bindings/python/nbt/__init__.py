"""NetBIOS packets over TCP and UDP (RFC 1001, RFC 1002), read and written by the shared library libnbt.

names       texts, parts and spellings of names
packets     what `nbt show` prints of a payload
service     requests of port 137
responses   responses of port 137
service_packets, rdata
            packets of port 137
datagrams   packets of port 138
sessions    packets of port 139
stations    stations, which put datagrams together
tables      saved tables
captures    lines of captures
turns       calls on a station, one at a time
statuses    why a call did nothing, as exceptions
header      the numbers and structures of nbt.h
numbers     numbers, addresses and texts, judged before a call
buffers     the bytes of buffers
library     the shared library, found and loaded

`python3 -m nbt` says which version of the library is loaded, and from which file.

The calls may be made from any thread, and let other threads run meanwhile, but for those that read one packet. On one
station a call waits for another to end.
"""
from . import rdata
from .buffers import Buffer
from .captures import Line, capture_line
from .datagrams import Datagram, DatagramFront, datagram_error, datagram_query
from .header import (DatagramFlag, DatagramType, HeaderFlag, LineKind, NameFlag, NodeType, Operation, Outcome, RecordType, ResultCode,
                     SessionType, Status)
from .library import VERSION
from .names import NameParts, join_name, spell, split_name, text
from .packets import brief, json, show
from .rdata import *
from .responses import negative_query_response, node_status_response, query_response, response
from .service import node_status, query, refresh, registration, release
from .service_packets import Question, Record, ServicePacket
from .sessions import SessionFront, SessionPacket, SessionStream
from .stations import Delivery, Station, Taken
from .statuses import MoreNeeded, NbtError
from .tables import Key, differ, list_table, merge, table_json
from .turns import ReentryError

__version__ = VERSION().decode()
__all__ = ['Buffer', 'Datagram', 'DatagramFlag', 'DatagramFront', 'DatagramType', 'Delivery', 'HeaderFlag', 'Key', 'Line', 'LineKind',
           'MoreNeeded', 'NameFlag', 'NameParts', 'NbtError', 'NodeType', 'Operation', 'Outcome', 'Question', 'Record', 'RecordType',
           'ReentryError', 'ResultCode', 'ServicePacket', 'SessionFront', 'SessionPacket', 'SessionStream', 'SessionType', 'Station',
           'Status', 'Taken', 'brief', 'capture_line', 'datagram_error', 'datagram_query', 'differ', 'join_name', 'json', 'list_table',
           'merge', 'negative_query_response', 'node_status', 'node_status_response', 'query', 'query_response', 'refresh',
           'registration', 'release', 'response', 'show', 'spell', 'split_name', 'table_json', 'text']
__all__ += rdata.__all__
