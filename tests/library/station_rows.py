"""What stations should answer, and calls on saved tables, by tests/model: rows for payload_rows.py."""
import json
from itertools import product
from struct import pack

from model.captures import Line, digits
from model.names import Refused, name_of_text, spelling_of
from model.objects import key_text
from model.packets import read_fragment
from model.reports import addressed, hears, listed, listing, report_text, reported
from model.tables import PER_SOURCE, Table, load

MOMENT, KEPT_FOR = 7, 2000
# Why a station takes no fragment. Why other payloads are refused it says in its answer.
UNTAKEN = ('misplaced first', 'too long', 'full source', 'full')


def handed_over(entry, between=b''):
    """The names and the data of a datagram."""
    _, source, destination = entry.parts()
    return spelling_of(source) + spelling_of(destination) + between + entry.data()


class Station:
    """A station with a label, and its table by the model. A call changes both, and answers its row; `row` makes the station."""

    def __init__(self, label, names, keys, per_source):
        self.label, self.table = label, Table(keys, per_source)
        self.names = [name_of_text(it.encode()) for it in names.split(' ') if it]
        self.row = f'station_create {digits(names.encode())} 0 138 {keys} {per_source} {label} :'

    def take(self, moment, payload):
        """A payload comes; what is written is the datagram that is handed over, or the error packet. The packages answer words."""
        said = reported(self.table, self.names, Line(0, 138, moment, payload))
        row = f'station_take {self.label} {moment} {digits(payload)}'
        if said.get('refused') in UNTAKEN:
            return f'{row} ! {said["refused"]}'
        written = bytes.fromhex(said.get('error', ''))
        if said.get('outcome') == 'delivered':
            written = handed_over(self.table.entries[read_fragment(payload).key])
        return f'{row} = {digits(written)} : {report_text(said)}'

    def absorb(self, moment, data):
        """A table is taken in; what is written are the datagrams that are whole by it, and heard."""
        row, held = f'station_absorb {self.label} {moment} {digits(data)}', {key: it.is_whole() for key, it in self.table.entries.items()}
        try:
            self.table.merge(loaded(data, 'table', self.table.keys, self.table.per_source))
        except Refused as fault:
            return f'{row} ! {fault}'
        for key in self.table.entries.keys() - held.keys():
            self.table.entries[key].start = moment
        heard = [(key, it) for key, it in sorted(self.table.entries.items()) if it.is_whole() and not held.get(key) and hears(self.names, it)]
        return f'{row} = {digits(b"".join(with_key(*it) for it in heard))} : {" and ".join(told(*it) for it in heard) or "none"}'

    def tick(self, moment):
        dropped = self.table.drop(moment)
        return f'station_tick {self.label} {moment} ~ {pack("<I", dropped).hex()} : {dropped}'

    def save(self):
        return f'station_save {self.label} = {self.table.saved().hex()}'

    def list(self):
        return f'station_list {self.label} = {digits(listing(self.table).encode())}'


def with_key(key, entry):
    """A datagram that a table's key makes whole."""
    address, port, identifier = key
    return address + pack('>HHB', port, identifier, entry.parts()[0]) + handed_over(entry, pack('>H', len(entry.data())))


def told(key, entry):
    """The words of one."""
    return ' '.join([key_text(key), *addressed(entry).values(), digits(entry.data())])


def loaded(data, role, keys=PER_SOURCE, per_source=PER_SOURCE):
    """A saved table; a fault says which one it is."""
    try:
        return load(data, keys, per_source)
    except Refused as fault:
        raise Refused(f'{role}: {fault}') from None


def answer(call, *words):
    """What a call answers, or why it is refused."""
    try:
        return call(*words)
    except Refused as fault:
        return f'! {fault}'


def merged(first, second, *limits):
    table, other = (loaded(it, role, *limits) for it, role in ((first, 'table'), (second, 'second table')))
    table.merge(other)
    return f'= {table.saved().hex()}'


def differ(first, second):
    """The least key of which two tables say other things."""
    entries = [loaded(it, role).entries for it, role in ((first, 'table'), (second, 'second table'))]
    for key in sorted(entries[0].keys() | entries[1].keys()):
        if len({entry and entry.saved() for entry in (it.get(key) for it in entries)}) == 2:
            return f'~ {key[0][::-1].hex()}{pack("<HHB", *key[1:], 1).hex()} : {key_text(key)}'
    return f'~ {bytes(9).hex()} : none'


def lines(data):
    return f'= {digits(listing(loaded(data, "table")).encode())}'


def objects(data):
    return '= ' + digits(''.join(f'{json.dumps(it, separators=(",", ":"))}\n' for it in listed(loaded(data, 'table'))).encode())


def told_rows(tables):
    """How tables are told, compared and joined, in both ways, where there are few keys too."""
    yield from (f'let T{number} = {digits(data)}' for number, data in enumerate(tables))
    for number, data in enumerate(tables):
        yield f'table_list T{number} {answer(lines, data)}'
        yield f'table_json T{number} {answer(objects, data)}'
    for one, other in product(range(len(tables)), repeat=2):
        yield f'table_differ T{one} T{other} {answer(differ, tables[one], tables[other])}'
        for limits in (65535, PER_SOURCE), ((one + other) % 5, 1 + one % 2):
            yield f'table_merge T{one} T{other} {limits[0]} {limits[1]} {answer(merged, tables[one], tables[other], *limits)}'


def table_rows(payloads, tables, number):
    """The rows of stations that are given payloads of port 138: as they came, in another order, and with room for few keys. Another one takes in
    what the first one knows, and saved tables."""
    limits = (40, 20), (40, 20), (40, 20), (3, 9 if number % 2 else 2)
    names = 'FRED<20> JOE<00>', 'JOE<00> FRED<20>', 'FRED<20>', 'FRED<20>'
    one, shuffled, other, small = stations = [Station(f'S{place}', *it) for place, it in enumerate(
        (name, *limit) for name, limit in zip(names, limits))]
    yield from (it.row for it in stations)
    for station, order in (one, payloads), (shuffled, sorted(payloads)), (small, payloads):
        yield from (station.take(MOMENT, it) for it in order)
        yield from (station.save(), station.list())
    yield from (other.absorb(MOMENT, it) for it in (one.table.saved(), one.table.saved(), *tables))
    yield other.save()
    yield from told_rows([one.table.saved(), small.table.saved(), *tables[:2]])
    for station in one, small:
        yield from (it for moment in (KEPT_FOR - 1, KEPT_FOR) for it in (station.tick(MOMENT + moment), station.save()))
