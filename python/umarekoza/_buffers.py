"""Python's buffers as the pointers that the library takes, without a copy."""

import ctypes
import operator
from contextlib import ExitStack

_WRITABLE = 0x0001
_SIZE_MOST = 2 ** (8 * ctypes.sizeof(ctypes.c_size_t)) - 1


class _View(ctypes.Structure):
    """Py_buffer of Python's C interface."""

    _fields_ = [
        ("buf", ctypes.c_void_p),
        ("obj", ctypes.c_void_p),
        ("len", ctypes.c_ssize_t),
        ("itemsize", ctypes.c_ssize_t),
        ("readonly", ctypes.c_int),
        ("ndim", ctypes.c_int),
        ("format", ctypes.c_char_p),
        ("shape", ctypes.c_void_p),
        ("strides", ctypes.c_void_p),
        ("suboffsets", ctypes.c_void_p),
        ("internal", ctypes.c_void_p),
    ]


_get = ctypes.pythonapi.PyObject_GetBuffer
_get.argtypes = [ctypes.py_object, ctypes.POINTER(_View), ctypes.c_int]
_release = ctypes.pythonapi.PyBuffer_Release
_release.argtypes = [ctypes.POINTER(_View)]
_release.restype = None


class Lent(ExitStack):
    """Buffers that are lent for the length of a call; each is (address, bytes)."""

    def __init__(self):
        super().__init__()
        self._all = []
        self._written = []

    def reads(self, buffer):
        return self._lend(buffer, 0)

    def writes(self, buffer):
        """A buffer that may be written, and overlaps no other of the call."""
        lent = self._lend(buffer, _WRITABLE)
        self._written.append(lent)
        return lent

    def writes_numbers(self, run):
        """A buffer of unsigned 32-bit numbers that may be written."""
        with memoryview(run) as view:
            if view.itemsize != 4 or view.format.lstrip("@=<") not in ("I", "L"):
                raise TypeError("a run is a buffer of unsigned 32-bit numbers, such as array('I')")
        address, length = self.writes(run)
        if address % 4:
            raise ValueError("a run starts at a multiple of four bytes")
        return address, length

    def _lend(self, buffer, flags):
        view = _View()
        _get(buffer, view, flags)
        self.callback(_release, view)
        # An empty buffer may have any address, and NULL is taken as one.
        lent = (view.buf, view.len) if view.len else (0, 0)
        self._all.append(lent)
        return lent

    def see_that_none_overlap(self):
        for start, length in self._written:
            others = self._all.copy()
            others.remove((start, length))
            if any(start < at + size and at < start + length for at, size in others if size and length):
                raise ValueError("a buffer that is written overlaps another one")


def index_of(index):
    """A field's index as the library takes it."""
    index = operator.index(index)
    if index < 0:
        raise ValueError("an index counts from 0")
    return min(index, _SIZE_MOST)
