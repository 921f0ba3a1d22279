#!/usr/bin/env python3
"""Programs that use dask.distributed take longer to import it than for their work: one process imports it, and forks for each run.

serving.py SOCKET serves, by a Python that has the package, until SIGTERM; serving.py SOCKET FILE|MODULE WORD.. is a run there, with this
folder, these streams and settings. It ends where this process is killed.
"""
import json
import os
import socket
import sys

here = socket.socket(socket.AF_UNIX, socket.SOCK_SEQPACKET)
if sys.argv[2:]:
    here.connect(sys.argv[1])
    socket.send_fds(here, [json.dumps([sys.argv[2:], os.getcwd(), dict(os.environ)]).encode()], [0, 1, 2])
    sys.exit(int(here.recv(8) or b'137'))
import argparse, distributed, fcntl, gc, runpy, signal


def run(asking):
    """A run, in its process."""
    signal.signal(signal.SIGTERM, signal.SIG_DFL)
    asked, streams, _, _ = socket.recv_fds(asking, 1 << 20, 3)
    sys.argv, folder, settings = json.loads(asked)
    for number, each in enumerate(streams):
        os.dup2(each, number)
        os.close(each)
    os.chdir(folder)
    os.environ.clear()
    os.environ.update(settings)
    # SIGIO, which ends it, comes where its client is gone.
    fcntl.fcntl(asking, fcntl.F_SETOWN, os.getpid())
    fcntl.fcntl(asking, fcntl.F_SETFL, os.O_ASYNC)
    sys.path[0], status = os.path.dirname(sys.argv[0]), 0
    try:
        (runpy.run_path if '/' in sys.argv[0] else runpy.run_module)(sys.argv[0], run_name='__main__')
    except SystemExit as end:
        status = end.code or 0
    fcntl.fcntl(asking, fcntl.F_SETFL, 0)
    asking.send(b'%d' % status)


def end(*_):
    """Waits for all runs, so that what they took is counted."""
    while True:
        try:
            os.wait()
        except ChildProcessError:
            os._exit(0)


here.bind(sys.argv[1])
here.listen()
signal.signal(signal.SIGTERM, end)
gc.freeze()
while asking := here.accept()[0]:
    if os.fork() == 0:
        here.close()
        run(asking)
        break
    asking.close()
