#!/usr/bin/env python3
"""Runs a command and sends it Ctrl-C, or another signal.  Usage: tests/lib/interrupted.py [SIGTERM|..] SECONDS|TEXT FILE OUT COMMAND..

Its input, a pipe, has the bytes of FILE and no end. Its output goes to the file OUT. The signal comes so many seconds after the shell at the
front of a tool has begun Python, or once OUT has TEXT. The status is that of the command; 124 is one that waits two minutes for that.
"""
import pathlib
import signal
import subprocess
import sys
import time

PATIENCE = 120


def main():
    words = sys.argv[1:]
    number = signal.Signals[words.pop(0)] if words[0].startswith('SIG') else signal.SIGINT
    when, given, path, *command = words
    is_time = when.replace('.', '', 1).isdigit()
    with open(path, 'wb') as out:
        process = subprocess.Popen(command, stdin=subprocess.PIPE, stdout=out, bufsize=0)
    process.stdin.write(pathlib.Path(given).read_bytes())
    watched, sign = (f'/proc/{process.pid}/comm', 'python') if is_time else (path, when)
    until = time.monotonic() + PATIENCE
    while process.poll() is None and sign.encode() not in pathlib.Path(watched).read_bytes():
        if time.monotonic() > until:
            process.kill()
            return 124
        time.sleep(0.001 if is_time else 0.02)
    time.sleep(float(when) if is_time else 0)
    process.send_signal(number)
    try:
        status = process.wait(PATIENCE)
        return status if status >= 0 else 128 - status
    except subprocess.TimeoutExpired:
        process.kill()
        return 124


if __name__ == '__main__':
    sys.exit(main())
