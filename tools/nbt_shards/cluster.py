"""A cluster of dask.distributed: its workers on this machine, and waits that end."""
import contextlib
import logging
import queue
import subprocess
import sys
import tempfile
import time
import warnings

from nbt_pcap.process import Stopped

from .ending import limited, say

TRIES = 3
# How often it is looked whether the cluster goes on, in seconds, and how long its parts are given to end.
LOOK, CLOSING = 1, 5
# The address of this machine alone.
HERE = '127.0.0.1'
# A worker of this machine, which ends with its standard input: with the run that holds the other end, however that ends.
WORKER = '''
import asyncio, os, sys, threading
threading.Thread(target=lambda: os._exit(0 * len(sys.stdin.buffer.read())), daemon=True).start()
from distributed import Worker
async def run():
    async with Worker(sys.argv[1], nthreads=1, local_directory=sys.argv[2], dashboard=False) as worker:
        await worker.finished()
asyncio.run(run())
'''


@contextlib.contextmanager
def cluster_of(options):
    """The cluster that is asked for, with its client."""
    settle(options.wait)
    name = options.scheduler or 'of this run'
    with contextlib.ExitStack() as ends:
        place, workers = options.scheduler, None
        with limited(options.wait, 'the scheduler %s doesn\'t answer, %d seconds long' % (name, options.wait)):
            if place is None:
                place = ends.enter_context(local_scheduler())
                workers = ends.enter_context(contextlib.closing(Workers(place, options.workers)))
            client = ends.enter_context(client_of(place))
        yield Cluster(client, workers, name, options.wait)


def settle(seconds):
    """What dask does by itself: how often it tries, when a worker that is silent counts as lost, and that it says nothing."""
    import dask
    dask.config.set({'distributed.scheduler.allowed-failures': TRIES, 'distributed.comm.timeouts.connect': '10s',
                     'distributed.scheduler.worker-ttl': '%ds' % max(10, seconds // 4)})
    for each in ('distributed', 'asyncio', 'tornado'):
        logging.getLogger(each).setLevel(logging.CRITICAL)
    warnings.filterwarnings('ignore')


@contextlib.contextmanager
def local_scheduler():
    """The address of a scheduler in this process."""
    from distributed import LocalCluster
    cluster = LocalCluster(n_workers=0, threads_per_worker=1, processes=True, host=HERE, dashboard_address=HERE + ':0',
                           silence_logs=logging.CRITICAL)
    try:
        yield cluster.scheduler_address
    finally:
        closed(cluster)


@contextlib.contextmanager
def client_of(place):
    from distributed import Client
    try:
        client = Client(place, timeout=10)
    except (OSError, ValueError) as error:
        raise Stopped(3, 'no scheduler at %s: %s' % (place, error)) from error
    try:
        yield client
    finally:
        closed(client)


def closed(part):
    """Closes a client or a scheduler, for some seconds at most: what is left of it ends with this process."""
    with contextlib.suppress(Exception), limited(CLOSING, 'late'):
        part.close(timeout=CLOSING)


class Workers:
    """Workers on this machine, each a process. One that ended is followed by another."""

    def __init__(self, place, number):
        import dask
        self.place, self.processes = place, []
        self.folder = tempfile.TemporaryDirectory(prefix='nbt-dask.', dir=dask.config.get('temporary-directory', None), ignore_cleanup_errors=True)
        try:
            for _ in range(number):
                self.processes.append(self.begun())
        except BaseException:
            self.close()
            raise

    def begun(self):
        return subprocess.Popen([sys.executable, '-c', WORKER, self.place, self.folder.name], stdin=subprocess.PIPE,
                                stdout=subprocess.DEVNULL, stderr=subprocess.DEVNULL, start_new_session=True)

    def follow(self):
        for at, each in enumerate(self.processes):
            if each.poll() is not None:
                each.stdin.close()
                self.processes[at] = self.begun()

    def close(self):
        for each in self.processes:
            each.kill()
        for each in self.processes:
            with contextlib.suppress(subprocess.TimeoutExpired):
                each.wait(CLOSING)
        self.folder.cleanup()


class Cluster:
    """A client, and waits that end where nothing is done any more."""

    def __init__(self, client, workers, name, seconds):
        self.client, self.workers, self.name, self.seconds = client, workers, name, seconds
        # How many seconds long there were no workers, and workers that ended no task, since one was ended.
        self.alone = self.idle = 0

    def submit(self, task, *words, **how):
        return self.client.submit(task, *words, **how)

    def ended(self, futures):
        """The futures as they end."""
        ended = queue.SimpleQueue()
        for each in futures:
            each.add_done_callback(ended.put)
        for _ in futures:
            yield self.next_of(ended)

    def next_of(self, ended):
        while True:
            began = time.monotonic()
            try:
                future = ended.get(timeout=LOOK)
            except queue.Empty:
                self.look(time.monotonic() - began)
                continue
            if future.status in ('cancelled', 'lost'):
                raise self.gone()
            self.alone = self.idle = 0
            return future

    def look(self, waited):
        """Ends the wait where the scheduler is gone, or nothing was done for long."""
        if self.workers:
            self.workers.follow()
        if self.client.status != 'running':
            raise self.gone()
        if self.has_workers():
            self.idle += waited
        elif not self.alone:
            self.alone = waited
            say('the scheduler %s has no workers: waiting %d seconds for one' % (self.name, self.seconds))
        else:
            self.alone += waited
        if self.alone > self.seconds:
            raise Stopped(3, 'the scheduler %s has no workers, %d seconds long' % (self.name, self.seconds))
        if self.idle > self.seconds:
            raise Stopped(3, 'the workers of the scheduler %s ended no task, %d seconds long (--wait)' % (self.name, self.seconds))

    def has_workers(self):
        try:
            with limited(self.seconds, 'the scheduler %s doesn\'t answer, %d seconds long' % (self.name, self.seconds)):
                return bool(self.client.scheduler_info()['workers'])
        except (OSError, RuntimeError, TimeoutError) as error:
            raise self.gone() from error

    def gone(self):
        return Stopped(3, 'the scheduler %s has ended, or can\'t be reached any more' % self.name)

    def answer(self, future, what):
        """What a task that ended answered; Stopped where it failed. It is fetched."""
        with limited(self.seconds, '%s can\'t be fetched, %d seconds long' % (what, self.seconds)):
            if future.status != 'finished':
                raise Stopped(3, '%s: %s' % (what, why_failed(future.exception())))
            try:
                return future.result()
            except Stopped:
                raise
            except Exception as error:
                raise Stopped(3, '%s can\'t be fetched: %s' % (what, ' '.join(str(error).split()))) from error

    def table(self, result):
        """The table of a result, which is fetched."""
        for future in self.ended([result]):
            return self.answer(future, 'a table')[1]


def why_failed(error):
    if type(error).__name__ == 'KilledWorker':
        return 'each worker that tried it died'
    return 'each try failed: %s' % ' '.join(str(error).split())
