"""libnbt, found and loaded, and how its calls are made.

The library is the file that the environment's NBT_LIBRARY names, or else libnbt.so.0 beside this package, or else the
one that the system's loader finds.
"""
from __future__ import annotations

import ctypes
import os
from typing import Any, Callable, List, Optional, Tuple, Type

from .buffers import Buffer, lend
from .header import Status
from .numbers import whole_number
from .statuses import NbtError, refusal

NAME = 'libnbt.so.0'
# How many bytes an answer may have before a call is made a second time, and how many a room has that is kept.
ROOM, MOST_SPARE = 4_096, 1 << 20
# How many bytes of a buffer are copied at first.
FRONT = 4_096
# Whole numbers, which are compared sooner.
DONE, NO_ROOM = int(Status.DONE), int(Status.NO_ROOM)

# Addresses are given as numbers. Lengths have the same type: both are as wide, so C is passed the same, and ctypes takes a
# number for c_void_p in half the time that it wants for c_size_t.
# A port is the first word of its calls, which stands in a register of its own: one of sixteen bits is the same in a wider one.
ADDRESS = LENGTH = PORT = ctypes.c_void_p
BYTES = (ctypes.c_char_p, LENGTH)


def loaded(kind: Type[ctypes.CDLL]) -> ctypes.CDLL:
    """The shared library; ImportError where there is none."""
    beside = os.path.join(os.path.dirname(os.path.abspath(__file__)), NAME)
    path = os.environ.get('NBT_LIBRARY') or (beside if os.path.exists(beside) else NAME)
    try:
        return kind(path)
    except OSError as error:
        raise ImportError(f'{error}; NBT_LIBRARY may name the file') from error


# By the second no other thread runs during a call.
LIBRARY, ALONE = loaded(ctypes.CDLL), loaded(ctypes.PyDLL)


def call(name: str, *arguments: Any, library: ctypes.CDLL = LIBRARY, answer: Any = ctypes.c_uint32) -> Any:
    """A call of the library, which answers a status; ImportError where the library is of another version and lacks it."""
    try:
        function = getattr(library, name)
    except AttributeError as error:
        raise ImportError(f'{error}: the library is of another version than this package; install both of one') from error
    function.argtypes, function.restype = arguments, answer
    return function


def behind(address: int, length: int, offset: int) -> Tuple[int, int]:
    """Where the bytes at an address go on behind an offset, and how many they are; ValueError where it lies outside."""
    if not 0 <= offset <= length:
        raise ValueError(f'offset: {offset} lies outside of {length} bytes')
    return address + offset, length - offset


class Loaded(ctypes.Structure):
    """Dl_info."""

    _fields_ = [('file', ctypes.c_char_p), ('base', ctypes.c_void_p), ('symbol', ctypes.c_char_p), ('address', ctypes.c_void_p)]


def found_at() -> str:
    """The file of the library."""
    loaded = Loaded()
    ctypes.CDLL(None).dladdr(ctypes.cast(LIBRARY.nbt_version, ctypes.c_void_p), ctypes.byref(loaded))
    return os.path.abspath(os.fsdecode(loaded.file))


def copied(address: int, length: int, offset: int, most: int) -> Tuple[bytes, int]:
    """A copy of so many bytes at most that stand at an offset of those at an address, and how many stand there."""
    front, left = behind(address, length, offset)
    return ctypes.string_at(front, min(left, most)), left


class Reader:
    """A call that fills in a structure of numbers, and of places: of each part where it begins and its length. It reads `bytes`
    where they lie. What others may change meanwhile is copied before it is judged: FRONT bytes, and as many as are wanted
    where no packet stands in those."""

    def __init__(self, name: str, structure: Any, *parts: str, longest: int = FRONT) -> None:
        self.structure, self.longest = structure, longest
        self.parts = [(part, f'{part}_length') for part in parts]
        self.call = call(name, ADDRESS, LENGTH, ADDRESS, ADDRESS, library=ALONE)

    def __call__(self, data: Buffer, offset: int) -> Tuple[Any, List[bytes]]:
        """What the bytes of a buffer from an offset on fill in, and the bytes of each part."""
        place = whole_number(offset, 'offset')
        if type(data) is bytes:
            return lend(data, self.read, place)
        most = FRONT
        while True:
            copy, left = lend(data, copied, place, most)
            wanted = lend(copy, self.wanted) if most < min(left, self.longest) else 0
            if wanted <= most:
                return lend(copy, self.read, 0)
            most = wanted

    def wanted(self, address: int, length: int) -> int:
        """How many bytes a packet may have whose front stands at an address; no more than there are, where it stands whole."""
        found, at = self.structure(), ctypes.c_size_t()
        status = self.call(address, length, ctypes.addressof(found), ctypes.addressof(at))
        return length + at.value if status == Status.MORE else length if status == DONE else self.longest

    def read(self, address: int, length: int, offset: int) -> Tuple[Any, List[bytes]]:
        """The same of the bytes at an address."""
        front, left = behind(address, length, offset)
        found, at = self.structure(), ctypes.c_size_t()
        status = self.call(front, left, ctypes.addressof(found), ctypes.addressof(at))
        if status != DONE:
            raise failure(status, at.value)
        return found, [ctypes.string_at(front + getattr(found, place), size) if (size := getattr(found, part_length)) else b''
                       for place, part_length in self.parts]

    def fault(self, data: Buffer, offset: int) -> Optional[NbtError]:
        """Why there is nothing to read in a buffer from an offset on; None where there is."""
        try:
            self(data, offset)
        except NbtError as fault:
            return fault.with_traceback(None)
        return None


class Room:
    """What a call writes to: bytes, how many of them it used, and a place; `words` are what a call is told of it that answers no place,
    and what one is told that does."""

    def __init__(self) -> None:
        self.used, self.at = ctypes.c_size_t(), ctypes.c_size_t()
        self.grow(ROOM)

    def grow(self, length: int) -> None:
        """Room for so many bytes."""
        self.length = length
        self.into: Any = ctypes.create_string_buffer(length)
        placed = ctypes.addressof(self.into), length, ctypes.addressof(self.used), ctypes.addressof(self.at)
        self.words: Any = placed[:3], placed


# Rooms that no call uses now. A call takes one and puts it back, so no two calls ever have the same.
SPARE: List[Room] = []


def writer(name: str, *arguments: Any, places: bool = True) -> Callable[..., bytes]:
    """A call that writes bytes into a buffer: it is made again with more room where that is wanted."""
    made = call(name, *arguments, *(ADDRESS, LENGTH, ADDRESS, ADDRESS)[:4 if places else 3])

    def write(*arguments: Any) -> bytes:
        try:
            room = SPARE.pop()
        except IndexError:
            room = Room()
        try:
            while status := made(*(arguments + room.words[places])):  # DONE is 0.
                if status != NO_ROOM:
                    raise failure(status, room.at.value)
                room.grow(room.used.value)
            written: bytes = room.into[:room.used.value]
            return written
        finally:
            if room.length <= MOST_SPARE:
                SPARE.append(room)

    return write


VERSION = writer('nbt_version', places=False)
STATUS_TEXT = writer('nbt_status_text', ctypes.c_uint32, places=False)


def words_of(status: int) -> str:
    """The words of a status; of one that the library doesn't know those of UNKNOWN_STATUS."""
    try:
        return STATUS_TEXT(status).decode()
    except NbtError as unknown:
        return unknown.words


def error_of(status: int, at: int) -> NbtError:
    """The error of a status, with its words."""
    return refusal(status, at, words_of(status))


def failure(status: int, at: int) -> Exception:
    """What a call raises at a status: MemoryError where memory ran out, else the error."""
    return MemoryError(words_of(status)) if status == Status.NO_MEMORY else error_of(status, at)
