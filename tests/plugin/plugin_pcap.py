"""Frames for the captures that the plugin for Wireshark is tried with, and what tshark prints of them."""
import subprocess

from wire import ACK, CLIENT, SERVER, TCP, ethernet, ip, sent, tcp

# Between fields, and between the values of one.
FIELDS, VALUES = '\x1f', '\x1e'


def framed(packet):
    """A frame with its padding."""
    return ethernet(packet).ljust(60, b'\0')


def datagram_frame(port, payload, *source):
    return framed(sent(port, payload, *source))


def segment_frame(port, sequence, payload, flags=ACK, source=CLIENT, target=SERVER):
    """Bytes of a connection by its client, which has this port, or by its server."""
    ports = (139, port) if source == SERVER else (port, 139)
    return framed(ip(TCP, tcp(*ports, sequence, payload, flags), source, target))


def fields_of(tshark, path, fields, *words):
    """Of each frame the values of these fields, a list for each. tshark writes a backslash as two."""
    command = [tshark, '-n', '-r', path, *words, '-T', 'fields', '-E', 'separator=' + FIELDS, '-E', 'aggregator=' + VALUES]
    done = subprocess.run([*command, *(f'-e{each}' for each in fields)], capture_output=True, text=True, check=True, timeout=300)
    rows = done.stdout.replace('\\\\', '\\').split('\n')[:-1]
    return [[value.split(VALUES) if value else [] for value in row.split(FIELDS)] for row in rows]
