"""Which lines of a capture are of which source address: `nbt show` reads the packets."""
import contextlib
import ipaddress
import re
import subprocess
import threading

from nbt_pcap.process import Stopped

from .programs import ProgramFailed, missing

# What the program prints of a payload with a key: its line's number, and the key's address.
SHOWN = re.compile(rb'([0-9]+) 138 [a-z]+ flags=[0-9a-f]{2} key=([0-9.]+):')
MOST_BYTES = 2**64 - 1


def groups_of(program, lines, groups, seconds):
    """The groups of the lines that have a source address, by their numbers: the remainder of the address by how many groups there are."""
    command = [program, 'show', '--input-limit', str(MOST_BYTES)]
    try:
        child = subprocess.Popen(command, stdin=subprocess.PIPE, stdout=subprocess.PIPE, stderr=subprocess.DEVNULL)
    except FileNotFoundError as error:
        raise missing(program) from error
    threading.Thread(target=give, args=(child.stdin, lines), daemon=True).start()
    limit = threading.Timer(seconds, child.kill)
    limit.daemon = True
    limit.start()
    with child.stdout:
        found = {int(shown[1]): int(ipaddress.IPv4Address(shown[2].decode())) % groups for shown in map(SHOWN.match, child.stdout) if shown}
    status = child.wait()
    limit.cancel()
    # With 1 a line is malformed, and the group that has it refuses it.
    if status not in (0, 1):
        raise ProgramFailed('nbt show ended with status %d' % status)
    return found


def give(file, lines):
    """Writes the lines as long as they are taken. Whoever reads them again says what is wrong with them."""
    with contextlib.suppress(OSError, Stopped), file:
        file.writelines(lines)
