"""The bytes of buffers: as `bytes`, or where they lie."""
from __future__ import annotations

import ctypes
from array import array
from mmap import mmap
from typing import Any, Callable, TypeVar, Union

Buffer = Union[bytes, bytearray, memoryview, mmap, 'array[Any]']
Answer = TypeVar('Answer')


class View(ctypes.Structure):
    """Py_buffer."""

    _fields_ = [('address', ctypes.c_void_p), ('owner', ctypes.c_void_p), ('length', ctypes.c_ssize_t),
                ('item_length', ctypes.c_ssize_t), ('read_only', ctypes.c_int), ('dimensions', ctypes.c_int),
                ('format', ctypes.c_void_p), ('shape', ctypes.c_void_p), ('strides', ctypes.c_void_p),
                ('suboffsets', ctypes.c_void_p), ('internal', ctypes.c_void_p)]


BORROW, GIVE_BACK = ctypes.pythonapi.PyObject_GetBuffer, ctypes.pythonapi.PyBuffer_Release
BORROW.argtypes, GIVE_BACK.argtypes = (ctypes.py_object, ctypes.c_void_p, ctypes.c_int), (ctypes.c_void_p,)
# PyBUF_SIMPLE: bytes in a row.
IN_A_ROW = 0
ADDRESS_OF = ctypes.pythonapi.PyBytes_AsString
ADDRESS_OF.argtypes, ADDRESS_OF.restype = (ctypes.py_object,), ctypes.c_void_p
NOTHING = ctypes.c_char()


def given(data: Buffer) -> bytes:
    """The bytes of a buffer, of which nothing is copied where it is `bytes`."""
    if type(data) is bytes:
        return data
    try:
        return bytes(memoryview(data))
    except TypeError:
        raise TypeError(f'{type(data).__name__} is no buffer of bytes') from None


def lend(data: Buffer, borrower: Callable[..., Answer], *words: Any) -> Answer:
    """What a call answers that is given the address and the length of a buffer's bytes, which stay there until it ends."""
    if type(data) is bytes:
        return borrower(ADDRESS_OF(data), len(data), *words)
    view = View()
    place = ctypes.addressof(view)
    try:
        try:
            BORROW(data, place, IN_A_ROW)
        except (BufferError, TypeError):
            return lend(given(data), borrower, *words)
        return borrower(view.address or ctypes.addressof(NOTHING), view.length, *words)
    finally:
        GIVE_BACK(place)
