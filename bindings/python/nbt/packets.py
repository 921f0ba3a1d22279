"""What the command `nbt show` prints of a payload: as lines, as a phrase and as JSON."""
from __future__ import annotations

from .buffers import Buffer, given
from .library import BYTES, PORT, writer
from .numbers import number

SHOW = writer('nbt_show', PORT, *BYTES, places=False)
JSON = writer('nbt_json', PORT, *BYTES, places=False)
BRIEF = writer('nbt_brief', PORT, *BYTES, places=False)


def show(port: int, payload: Buffer) -> str:
    """What `nbt show` prints of a payload that came to this port, line feeds included: the packet that it begins with, or
    why it begins with none. 137 is the name service, 138 the datagram service; any other port is taken for a session."""
    data = payload if type(payload) is bytes else given(payload)
    return SHOW(port if type(port) is int and not port >> 16 else number(port, 16, 'port'), data, len(data)).decode()


def json(port: int, payload: Buffer) -> str:
    """The JSON object of a payload that came to this port, without a line feed: what `nbt show --json` prints of it, but for
    the members `line`, `port`, `moment` and `comment`. Ports are as of `show`."""
    data = payload if type(payload) is bytes else given(payload)
    return JSON(port if type(port) is int and not port >> 16 else number(port, 16, 'port'), data, len(data)).decode()


def brief(port: int, payload: Buffer) -> str:
    """The phrase of a payload that came to this port, without a line feed: what `nbt show --brief` prints of it after the two
    numbers of its line. Ports are as of `show`."""
    data = payload if type(payload) is bytes else given(payload)
    return BRIEF(port if type(port) is int and not port >> 16 else number(port, 16, 'port'), data, len(data)).decode()
