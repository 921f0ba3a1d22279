#!/usr/bin/env -S python3 -IS
"""Runs a command whose standard error is a terminal, and prints what it shows there.  Usage: tests/lib/terminal.py OUT|--columns=N COMMAND..

Standard output goes to the file OUT, or to the terminal too, which then has so many columns. The status is that of the command.
"""
import fcntl
import os
import struct
import sys
import termios

SIGPIPE = 13
terminal, side = os.openpty()
where, _, columns = sys.argv[1].partition('=')
if columns:
    fcntl.ioctl(side, termios.TIOCSWINSZ, struct.pack('4H', 24, int(columns), 0, 0))
devices = (os.devnull, os.O_RDONLY), (where, os.O_WRONLY | os.O_CREAT | os.O_TRUNC)
streams = [*([side, side] if columns else (os.open(*it, 0o666) for it in devices)), side]
command = os.posix_spawnp(sys.argv[2], sys.argv[2:], os.environ, setsigdef=[SIGPIPE],
                          file_actions=[(os.POSIX_SPAWN_DUP2, of, at) for at, of in enumerate(streams)])
os.close(side)
try:
    while data := os.read(terminal, 65_536):
        os.write(1, data)
except OSError:
    pass
sys.exit(os.waitstatus_to_exitcode(os.waitpid(command, 0)[1]))
