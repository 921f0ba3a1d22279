#!/usr/bin/env python3
"""tools/nbt-dask with workers of its own, of which some are killed or stand still, and ended by signals.

Usage: killed.py PYTHON TOOL PROGRAM ROOM signals|kills. ROOM has what tests/scale.sh makes there: captures, their tables, and the program
slowed. The last line is 'N passed, M failed'.
"""
import os
import random
import signal
import subprocess
import sys
import time
from pathlib import Path

sys.dont_write_bytecode = True
sys.path.insert(1, f'{sys.path[0]}/../lib')
from parts import tally

PYTHON, TOOL, PROGRAM, ROOM, PART = sys.argv[1:]
# A run of some seconds, and how many it may take on a busy machine.
PATIENCE = 60
RUNS = 12
WAITING = "nbt-dask: the scheduler of this run has no workers: waiting 60 seconds for one\n"


class Run:
    """A run in a folder of its own, with a folder for what is temporary."""

    def __init__(self, capture, *words, program=f'{ROOM}/slow', before=None, closed=()):
        self.folder = Path(ROOM, 'run')
        subprocess.run(['rm', '-rf', self.folder], check=True)
        (self.folder / 'temporary').mkdir(parents=True)
        environment = dict(os.environ, TMPDIR=str(self.folder / 'temporary'))
        environment.pop('DASK_TEMPORARY_DIRECTORY', None)

        def prepare():
            for each in signal.SIGINT, signal.SIGQUIT, signal.SIGHUP, signal.SIGTERM:
                signal.signal(each, signal.SIG_DFL)
            if before:
                before()
            for each in closed:
                os.close(each)
        with open(self.folder / 'errors', 'wb') as errors:
            self.process = subprocess.Popen([PYTHON, TOOL, '--program', program, *words, f'{ROOM}/{capture}', self.folder / 'out'], env=environment,
                                            stdin=subprocess.DEVNULL, stderr=errors, preexec_fn=prepare)

    def wait(self):
        """The status; None where it doesn't end."""
        try:
            return self.process.wait(PATIENCE)
        except subprocess.TimeoutExpired:
            self.process.kill()
            return self.process.wait() and None

    def errors(self):
        return (self.folder / 'errors').read_text()

    def temporary(self):
        return sorted(each.name for each in (self.folder / 'temporary').iterdir())

    def made(self, table):
        """Whether OUT is the table, byte for byte."""
        out = self.folder / 'out'
        return out.exists() and out.read_bytes() == Path(ROOM, table).read_bytes()

    def left(self):
        """What is left besides standard error, and besides OUT."""
        return self.temporary() + sorted(each.name for each in self.folder.iterdir() if each.name not in ('errors', 'out', 'temporary'))

    def workers(self):
        """The processes that it began, but for those that ended."""
        found = []
        for task in Path(f'/proc/{self.process.pid}/task').iterdir():
            found += map(int, (task / 'children').read_text().split())
        return [each for each in found if 'from distributed import Worker' in Path(f'/proc/{each}/cmdline').read_text()]

    def await_workers(self, number):
        while self.process.poll() is None and len(self.workers()) < number:
            time.sleep(0.01)

    def await_program(self):
        """Waits until a worker runs the slowed program, which goes on once `held` is gone."""
        while self.process.poll() is None and not Path(ROOM, 'started').read_text():
            time.sleep(0.01)


def held(*words, **how):
    """A run whose first run of the program stands still."""
    Path(ROOM, 'started').write_text('')
    Path(ROOM, 'held').write_text('1')
    run = Run('gaps', *(words if '--workers' in words else ('--workers', '1', *words)), **how)
    run.await_program()
    return run


def let_go():
    Path(ROOM, 'held').unlink()


# ---- signals, and standard error

def ended_by(number, words):
    """It ends with its line and status, and leaves nothing; before, its workers had a folder."""
    run = held()
    folders = run.temporary()
    run.process.send_signal(number)
    status = run.wait()
    let_go()
    found = status, run.errors(), run.left(), (run.folder / 'out').exists()
    wanted = 128 + number, f'nbt-dask: {words}\n', [], False
    return None if len(folders) == 1 and found == wanted else f'{found}, not {wanted}; before {folders}'


def hung_up():
    """A hangup that was ignored at the start stays ignored."""
    run = held(before=lambda: signal.signal(signal.SIGHUP, signal.SIG_IGN))
    run.process.send_signal(signal.SIGHUP)
    time.sleep(0.5)
    let_go()
    found = run.wait(), run.errors(), run.left(), run.made('gaps.table')
    return None if found == (0, '', [], True) else found


def closed(capture, status):
    """Standard error that is closed makes no other status, and no other OUT."""
    run = Run(capture, '--workers', '1', program=PROGRAM, closed=[2])
    found = run.wait(), run.errors(), run.left(), run.made('gaps.table')
    wanted = status, '', [], status == 0
    return None if found == wanted else f'{found}, not {wanted}'


def signals():
    for number, words in (signal.SIGTERM, 'ended by a signal'), (signal.SIGHUP, 'ended by a signal'), (signal.SIGQUIT, 'ended by a signal'), \
            (signal.SIGINT, 'interrupted'):
        yield f'nbt-dask, {number.name}', ended_by(number, words)
    yield 'nbt-dask, SIGHUP that is ignored', hung_up()
    for capture, status in ('gaps', 0), ('bad', 1), ('nowhere', 3):
        yield f'nbt-dask over {capture}, standard error closed', closed(capture, status)


# ---- workers that are killed, or stand still

def killed(rng):
    """Up to three workers are killed, each at any moment: others go on, and OUT is the same."""
    run = Run('many', '--workers', '2', '--shard-bytes', '600000')
    run.await_workers(2)
    began, hit = time.monotonic(), []
    for moment in sorted([rng.uniform(0, 1), *(rng.uniform(0, 4) for _ in range(rng.randrange(3)))]):
        time.sleep(max(0, began + moment - time.monotonic()))
        workers = run.workers() if run.process.poll() is None else []
        if workers:
            os.kill(rng.choice(workers), signal.SIGKILL)
            hit.append(round(moment, 2))
    status = run.wait()
    found = status, run.errors().replace(WAITING, ''), run.left(), run.made('table')
    print(f'killed after {hit} s: status {status} after {time.monotonic() - began:.1f} s', file=sys.stderr)
    return None if hit and found == (0, '', [], True) else f'{found}, killed after {hit} s'


def one_stopped():
    """One of two workers stands still, and the other one does all."""
    run = held('--wait', '40', '--workers', '2', '--shard-bytes', '600000')
    os.kill(int(Path(ROOM, 'started').read_text().split()[1]), signal.SIGSTOP)
    let_go()
    found = run.wait(), run.errors(), run.left(), run.made('gaps.table')
    return None if found == (0, '', [], True) else found


def deadly():
    """A program that kills its worker each time ends the run with a line."""
    run = Run('gaps', '--workers', '2', program=f'{ROOM}/deadly')
    found = run.wait(), run.errors().replace(WAITING, ''), run.left(), (run.folder / 'out').exists()
    wanted = 3, f'nbt-dask: {ROOM}/gaps: lines 1 to 4440 (shard g0000-000000): each worker that tried it died\n', [], False
    return None if found == wanted else f'{found}, not {wanted}'


def stopped():
    """A worker that stands still ends the run with a line."""
    run = held('--wait', '3')
    for each in run.workers():
        os.kill(each, signal.SIGSTOP)
    status = run.wait()
    let_go()
    return idle(run, status)


def hangs():
    """So does a program that does."""
    return idle(run := Run('gaps', '--workers', '1', '--wait', '3', program=f'{ROOM}/hanging'), run.wait())


def idle(run, status):
    found = status, run.errors(), run.left(), (run.folder / 'out').exists()
    wanted = 3, 'nbt-dask: the workers of the scheduler of this run ended no task, 3 seconds long (--wait)\n', [], False
    return None if found == wanted else f'{found}, not {wanted}'


def kills():
    seed = random.randrange(1 << 32)
    rng = random.Random(seed)
    for number in range(RUNS):
        yield f'nbt-dask, workers killed, run {number} of seed {seed}', killed(rng)
    yield 'nbt-dask, one of two workers stands still', one_stopped()
    yield 'nbt-dask, a program that kills its worker', deadly()
    yield 'nbt-dask, a worker that stands still', stopped()
    yield 'nbt-dask, a program that stands still', hangs()


if __name__ == '__main__':
    sys.exit(tally({'signals': signals, 'kills': kills}[PART]()))
