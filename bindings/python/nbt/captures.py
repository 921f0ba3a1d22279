"""Lines of captures: what came to the ports of NetBIOS and when, as the commands of `nbt` read it."""
from __future__ import annotations

import ctypes
from dataclasses import dataclass
from typing import Union

from . import header
from .buffers import Buffer, given
from .header import LineKind
from .library import ADDRESS, BYTES, writer
from .numbers import encoded


@dataclass(frozen=True)
class Line:
    """A line of a capture. What it doesn't have is 0, or no bytes."""

    kind: LineKind
    port: int       # of a packet: the port that it came to, 137, 138 or 139
    moment: int     # when a packet came, or what the clock shows, in milliseconds
    payload: bytes  # of a packet


LINE = writer('nbt_capture_line', *BYTES, ADDRESS, places=False)


def capture_line(line: Union[str, Buffer]) -> Line:
    """What a line of a capture says: a text or its bytes, of which a line feed at the end is passed over.

    NbtError: BAD_LINE.
    """
    data, told = encoded(line, 'line') if isinstance(line, str) else given(line), header.Line()
    payload = LINE(data, len(data) - data.endswith(b'\n'), ctypes.addressof(told))
    return Line(LineKind(told.kind), told.port, told.moment, payload)
