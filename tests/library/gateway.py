#!/usr/bin/env python3
"""Runs the gateway of docs/CALLING.md on a free port of the loopback interface. What the page sends it waits there, and the gateway ends
where nothing more comes. Usage: tests/library/gateway.py PROGRAM"""
import runpy
import socket
import sys

import nbt

bind = socket.socket.bind


def bound(gateway, place):
    """Binds the gateway elsewhere, and sends it a registration and the front of it."""
    assert place == ('', 137), place
    bind(gateway, ('127.0.0.1', 0))
    gateway.settimeout(1)
    payload = nbt.registration(2, 'FRED<20>', 300_000, 0, '10.0.0.6', broadcast=True)
    with socket.socket(type=socket.SOCK_DGRAM) as sender:
        for each in payload, payload[:60]:
            sender.sendto(each, gateway.getsockname())


socket.socket.bind = bound
try:
    runpy.run_path(sys.argv[1])
except TimeoutError:
    pass
