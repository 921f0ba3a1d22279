"""What a system does to tools/nbt-station: the files that it is given, signals, standard streams, and networks."""
import importlib
import multiprocessing
import os
import runpy
import shlex
import signal
import socket
import stat
import subprocess
import sys
import tempfile
import time
import unittest

from station_runs import (DELIVERED, EMPTY, ENDING, GROUP, NOBODY, OWN, PATIENCE, PROGRAM, TOOL, UNIQUE, capture, expect, nbt, packet, read,
                          station, until, whole_tables, written)
from wire import FRED, pieces

# More lines than a pipe and the station's own room take: each has some 120,000 bytes.
MANY, LONG = 110, bytes(60_000)
# The path of a file in so many bytes that some of them fill a pipe.
LONG_PATH = './' * 1_500 + 'table'
# A network of its own, with an address that has broadcasts, and one that has none.
NETWORK = 'ip link set lo up && ip address add 10.9.0.1/24 dev lo && ip address add 10.8.0.1/32 dev lo'
# Files, and the beginnings that are refused beside them: the status, the last line, and the words. {busy} is an address that is taken.
# Behind them the files that aren't of the kind that an option wants.
FILES = {'text': 'text\n', 'cut': EMPTY[:-1], 'two': EMPTY * 2, 'end': EMPTY[:-1] + 'x\n', 'newer': '4e425433\n', 'zero': '0\n',
         'less': '-1\n', 'pids': '12 13\n', 'long': '9' * 20, 'running': f'{os.getpid()}\n', 'bad': EMPTY + 'x\n',
         'full': nbt('save', text=capture(packet(GROUP, it, FRED, b'') for it in range(2)))}
REFUSED = r"""
1 | bad text 4 | FRED
1 | bad text 8 | 'FRED<20> JOE<00>'
1 | bad text 0 | ''
1 | name: present 9 | 'FRED<20>'
1 | bad: line 2: bad hex | --save new --join bad
1 | full: line 1: table: full | --save new --join full --keys 1
3 | none: No such file or directory | --save new --join none
3 | {busy}: Address already in use | --bind {busy}
2 | error: argument --bind: 'localhost' is no IPv4 address | --bind localhost
2 | error: argument --bind: '' is no IPv4 address | --bind ::1
2 | error: argument --port: 'x' is no number from 0 to 65535 | --port x
2 | error: argument --keys: '0' is no number from 1 to 65535 | --keys 0
2 | error: argument --per-source: '65536' is no number from 1 to 65535 | --per-source 65536
2 | --bind has the port 138, and --port another | --bind 127.0.0.1:138 --port 139
2 | --pid and --save name one file | --pid new --save ./new
3 | running: the process {pid} is running | --pid running
3 | folder: it is a folder, and stays as it is | --save folder
3 | link: it is a link, and stays as it is | --save link
3 | loose: it is a link, and stays as it is | --save loose
3 | pipe: it is no regular file, and stays as it is | --save pipe
3 | /dev/null: it is no regular file, and stays as it is | --pid /dev/null
3 | none/new: No such file or directory | --save none/new
3 | none/new: No such file or directory | --pid none/new
3 | text/new: Not a directory | --save text/new
"""
OTHERS = ('--save', 'saved table', 'text cut two end newer'), ('--pid', 'pid file', 'text zero less pids long')


# ---- files

def begin(folder, said, words):
    os.chdir(folder)
    os.dup2(said.fileno(), 2)
    sys.argv[:] = TOOL, *words
    runpy.run_path(TOOL, run_name='__main__')


def begun(folder, *words):
    """The status with which the tool ends, and its last line, in a process that has the modules of others from the start."""
    with tempfile.TemporaryFile('w+') as said:
        each = multiprocessing.get_context('fork').Process(target=begin, args=(folder, said, words))
        each.start()
        each.join(PATIENCE)
        each.kill()
        each.join()
        said.seek(0)
        return each.exitcode, said.read().strip().rpartition('\n')[2]


def refused_beginnings():
    """The station isn't begun so, and all files stay as they are."""
    sys.path[1:1] = os.path.dirname(TOOL), os.path.join(os.path.dirname(TOOL), '../bindings/python')
    for each in 'argparse', 'asyncio', 'nbt':
        importlib.import_module(each)
    rows = REFUSED.strip().splitlines()
    rows += [f'3 | {it}: it is no {kind}, and stays as it is | {option} {it}' for option, kind, names in OTHERS for it in names.split()]
    with tempfile.TemporaryDirectory() as folder, socket.socket(socket.AF_INET, socket.SOCK_DGRAM) as taken:
        taken.bind(('127.0.0.1', 0))
        busy = '127.0.0.1:%d' % taken.getsockname()[1]
        for name, text in FILES.items():
            written(folder, name, text)
        os.mkdir(os.path.join(folder, 'folder'))
        os.mkfifo(os.path.join(folder, 'pipe'))
        for name, target in ('link', 'text'), ('loose', 'nowhere'):
            os.symlink(target, os.path.join(folder, name))
        before = sorted(os.listdir(folder))
        for row in rows:
            status, why, words = row.format(busy=busy, pid=os.getpid()).split(' | ')
            expect((int(status), f'nbt-station: {why}'), begun(folder, *OWN, *shlex.split(words), 'FRED<20>'))
        expect((before, FILES), (sorted(os.listdir(folder)), {it: read(folder, it) for it in FILES}))


def modes_of_saved_tables():
    """A saved table keeps its mode, and a new one has that of the umask."""
    for files, mode in ({'table': EMPTY}, 0o600), ({'table': '4e425431' + EMPTY[8:]}, 0o664), ({'table': ''}, 0o604), ({}, 0o640):
        with station('--save', 'table', files=files, umask=0o027) as each:
            path = os.path.join(each.folder, 'table')
            if files:
                os.chmod(path, mode)
            expect((0, ''), each.ended())
            expect((mode, EMPTY, ['out', 'table']), (stat.S_IMODE(os.stat(path).st_mode), each.saved(), each.files()))


def pid_files():
    """A pid file stands as long as the station listens, in place of one whose process ended; another that comes to stand there stays."""
    done = subprocess.Popen(['true'])
    done.wait()
    for text, then in (f'{done.pid}\n', None), (str(done.pid), None), ('', f'{os.getpid()}\n'):
        with station('--pid', 'pid', files={'pid': text}) as each:
            expect(f'{each.process.pid}\n', read(each.folder, 'pid'))
            if then:
                written(each.folder, 'pid', then)
            expect((0, ''), each.ended())
            expect(['out', 'pid'] if then else ['out'], each.files())


# ---- standard streams and signals

def failing_devices():
    """Standard output that takes nothing ends the station, and its table is saved."""
    with station('--save', 'table', out='/dev/full') as each:
        each.send(*pieces(1, b'hello'))
        each.process.wait(PATIENCE)
        expect((3, 'nbt-station: standard output: deliveries that were left out: 1\n'
                   'nbt-station: standard output: No space left on device\n'), (each.process.returncode, each.process.stderr.read().decode()))
        whole_tables(each.saved(), 1)


def unread_output():
    """While nobody reads its lines, a station takes payloads, saves its table and ends. What was left out is counted; the rest is
    printed in order once somebody reads."""
    reader, writer = os.pipe()
    with station('--save', 'table', out=writer) as each, open(reader, encoding='ascii') as lines:
        printed = lambda count: [int(lines.readline().split('/')[1][:4], 16) for _ in range(count)]
        stand_still(each, 0)
        each.send_signal()
        began = time.monotonic()
        each.saved()
        expect(True, time.monotonic() - began < 1)
        expect(list(range(60)), printed(60))
        goes_on = each.process.stderr.readline().decode().split()
        expect(['its', 'reader', 'goes', 'on;'], goes_on[3:7])
        left = int(goes_on[-1])
        expect(list(range(60, MANY - left)), printed(MANY - 60 - left))
        stand_still(each, MANY)
        status, said = each.ended(within=1)
        expect((3, 'nbt-station: standard output: deliveries that were left out:'), (status, said.rpartition(' ')[0]))
        expect(True, MANY - 2 <= int(said.split()[-1]) - left <= MANY)


def stand_still(each, first):
    """Sends more than there's room for."""
    for identifier in range(MANY):
        each.send(packet(GROUP, first + identifier, FRED, LONG))
        each.reached()
    expect(b'nbt-station: standard output: its reader stands still, and deliveries are left out\n', each.process.stderr.readline())


def unread_errors():
    """What comes to stand where the table is to be saved stays, and the station goes on, and says so; where nobody reads that, it ends all
    the same."""
    with station('--save', LONG_PATH) as each:
        written(each.folder, 'table', 'text\n')
        each.send_signal()
        expect(f'nbt-station: {LONG_PATH}: it is no saved table, and stays as it is\n', each.process.stderr.readline().decode())
        for _ in range(30):
            each.send_signal()
            each.reached()
        each.send_signal(signal.SIGTERM)
        expect(3, each.process.wait(1))
        expect(True, len(os.read(each.process.stderr.fileno(), 1 << 20)) > 40_000)
        expect('text\n', read(each.folder, 'table'))


def closed_streams():
    """Standard output that is closed is said; without standard error the station runs, and no line of it goes elsewhere."""
    with tempfile.TemporaryDirectory() as folder:
        command = lambda closed, *words: ['sh', '-c', f'exec "$@" {closed}', '-', TOOL, *OWN, *words, 'FRED<20>']
        done = subprocess.run(command('>&-'), cwd=folder, stderr=subprocess.PIPE, text=True, timeout=PATIENCE)
        expect((3, 'nbt-station: standard output is closed\n'), (done.returncode, done.stderr))
        with open(os.path.join(folder, 'out'), 'wb') as out:
            each = subprocess.Popen(command('2>&- <&-', '--pid', 'pid', '--save', 'table'), cwd=folder, stdout=out)
        try:
            until(lambda: os.path.exists(os.path.join(folder, 'pid')) or each.poll() is not None, 'it didn\'t begin')
            each.send_signal(signal.SIGTERM)
            expect(0, each.wait(PATIENCE))
            expect(['out', 'table'], sorted(os.listdir(folder)))
            expect('', read(folder, 'out'))
        finally:
            each.kill()
            each.wait()


def interrupted_before_it_listens():
    """A signal while it begins, or waits for a table to join, ends it without a traceback."""
    with tempfile.TemporaryDirectory() as folder:
        os.mkfifo(os.path.join(folder, 'pipe'))
        for number, words in (signal.SIGINT, 'interrupted'), (signal.SIGTERM, 'ended by a signal'), \
                (signal.SIGHUP, 'ended by a signal'), (signal.SIGQUIT, 'ended by a signal'):
            for moment in 0, 0.02, 0.05, 0.1, 0.2, 1:
                each = subprocess.Popen([TOOL, *OWN, '--join', 'pipe', '--save', 'table', '--pid', 'pid', 'FRED<20>'], cwd=folder,
                                        stdout=subprocess.DEVNULL, stderr=subprocess.PIPE, text=True)
                try:
                    time.sleep(moment)
                    each.send_signal(number)
                    said = each.communicate(timeout=PATIENCE)[1]
                finally:
                    each.kill()
                expect(True, (each.returncode, said) in ((128 + number, f'nbt-station: {words}\n'), (-number, '') if moment < 1 else ()))
                expect(['pipe'], os.listdir(folder))


def hangup_that_is_ignored():
    """A station that nohup starts goes on at SIGHUP."""
    with station(preexec_fn=lambda: signal.signal(signal.SIGHUP, signal.SIG_IGN)) as each:
        each.send_signal(signal.SIGHUP)
        each.send(*pieces(1, b'hello'))
        each.reached()
        expect((0, ''), each.ended())
        expect([DELIVERED % (1, b'hello'.hex())], each.lines(1))


def nothing_is_left():
    """However a signal ends it, a station leaves no folder in TMPDIR, and no file beside its table."""
    for number in ENDING:
        with tempfile.TemporaryDirectory() as temporary, station('--save', 'table', env=dict(os.environ, TMPDIR=temporary)) as each:
            expect((0, ''), each.ended(number))
            expect((['out', 'table'], []), (each.files(), os.listdir(temporary)))


def names_on_a_terminal():
    """Bytes of a name that act on a terminal are shown by their numbers; without standard error the statuses are the same."""
    name, shown = 'no\x1b[31m\nsuch\udc9b\u202e', 'no\\x1b[31m\\nsuch\\x9b\\u202e'
    for words, status, said in ((('--save', f'{name}/table'), 3, f'{shown}/table: No such file or directory'),
                                (('--join', name), 3, f'{shown}: No such file or directory'),
                                ((f'--{name}',), 2, f'error: unrecognized arguments: --{shown}'),
                                ((name,), 1, 'bad text')):
        command = [TOOL, *OWN, *words, *(['FRED<20>'] if status != 1 else [])]
        done = subprocess.run(command, capture_output=True, timeout=PATIENCE)
        expect((status, True), (done.returncode, said in done.stderr.decode()))
        expect([], [each for each in done.stderr if each < 0x20 and each != 0x0a or each > 0x7e])
        expect((status, b''), (lambda it: (it.returncode, it.stdout))(
            subprocess.run(['sh', '-c', 'exec "$@" 2>&-', '-', *command], stdout=subprocess.PIPE, timeout=PATIENCE)))


# ---- networks

def broadcast(address, port, *payloads, source='127.0.0.1'):
    """Sends payloads to an address of broadcasts; answers the socket."""
    sock = socket.socket(socket.AF_INET, socket.SOCK_DGRAM)
    sock.setsockopt(socket.SOL_SOCKET, socket.SO_BROADCAST, 1)
    sock.setsockopt(socket.SOL_SOCKET, socket.SO_BINDTODEVICE, b'lo')
    sock.bind((source, 0))
    for each in payloads:
        sock.sendto(each, (address, port))
    return sock


def broadcasts_heard():
    """A station at one address hears the broadcasts of its network too, and answers none; so do two at one port."""
    with station(bind='127.0.0.2:0') as one, station(bind=f'127.0.0.3:{one.port}') as other:
        for each in one, other:
            expect('nbt-station: hears broadcasts to 127.255.255.255 and 255.255.255.255\n', each.broadcasts)
        nobody = packet(UNIQUE, 9, NOBODY, b'')
        with broadcast('127.255.255.255', one.port, nobody, packet(GROUP, 1, FRED, b'to the network')) as sock, \
                broadcast('255.255.255.255', one.port, packet(GROUP, 2, FRED, b'to all')):
            for each in one, other:
                expect([b'to all'.hex(), b'to the network'.hex()], sorted(it.split()[-1] for it in each.lines(2)))
                each.reached()
            sock.settimeout(0.2)
            try:
                raise AssertionError(f'a broadcast was answered: {sock.recv(100)!r}')
            except TimeoutError:
                pass
    with station(bind='0.0.0.0:0') as each, broadcast('127.255.255.255', each.port, *pieces(1, b'hi')):
        expect(1, len(each.lines(1)))


def broadcasts_of_a_network():
    """The same in a network of its own, and at an address that has no broadcasts."""
    unshare = ['unshare', '-n'] if os.geteuid() == 0 else ['unshare', '-rn']
    try:
        allowed = subprocess.run([*unshare, 'sh', '-c', NETWORK], capture_output=True, text=True, check=False)
    except FileNotFoundError as error:
        raise unittest.SkipTest(error) from error
    if allowed.returncode:
        raise unittest.SkipTest(allowed.stderr.strip())
    done = subprocess.run([*unshare, 'sh', '-c', NETWORK + ' && exec "$@"', '-', sys.argv[0], TOOL, PROGRAM, 'within_a_network'],
                          capture_output=True, text=True, timeout=PATIENCE, check=False)
    expect(('1 passed, 0 failed, 0 skipped\n', ''), (done.stdout, done.stderr))


def within_a_network():
    with station(bind='10.9.0.1:0') as each:
        expect('nbt-station: hears broadcasts to 10.9.0.255 and 255.255.255.255\n', each.broadcasts)
        with broadcast('10.9.0.255', each.port, *pieces(1, b'hi'), source='10.9.0.1'):
            expect(1, len(each.lines(1)))
    with station(bind='10.8.0.1:0') as each:
        expect('nbt-station: hears no broadcasts: 10.8.0.1 is in no network that has them\n', each.broadcasts)


CASES = (refused_beginnings, modes_of_saved_tables, pid_files, failing_devices, unread_output, unread_errors, closed_streams,
         interrupted_before_it_listens, hangup_that_is_ignored, nothing_is_left, names_on_a_terminal, broadcasts_heard, broadcasts_of_a_network)
# Run by broadcasts_of_a_network, elsewhere.
WITHIN = (within_a_network,)
