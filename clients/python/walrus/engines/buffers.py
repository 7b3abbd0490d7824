"""Memory that a library in C reads and writes: the caller's own for its input, and ours for its output."""

import contextlib
import ctypes
import mmap
from collections.abc import Iterator
from typing import Union

Buffer = Union[bytes, bytearray, memoryview, mmap.mmap]
SMALL = 65_536  # bytes; a larger room is mapped, so that pages that are never written take no memory
NOWHERE = ctypes.create_string_buffer(1)  # the address of an empty input, as the library accepts no null pointer


class View(ctypes.Structure):
    """Python's description of an object's memory (`Py_buffer` of the buffer protocol)."""

    _fields_ = [
        ("address", ctypes.c_void_p),
        ("owner", ctypes.c_void_p),
        ("size", ctypes.c_ssize_t),
        ("item_size", ctypes.c_ssize_t),
        ("is_read_only", ctypes.c_int),
        ("dimensions", ctypes.c_int),
        ("format", ctypes.c_char_p),
        ("shape", ctypes.c_void_p),
        ("strides", ctypes.c_void_p),
        ("suboffsets", ctypes.c_void_p),
        ("internal", ctypes.c_void_p),
    ]


take_view = ctypes.pythonapi.PyObject_GetBuffer
take_view.argtypes = [ctypes.py_object, ctypes.POINTER(View), ctypes.c_int]
give_back = ctypes.pythonapi.PyBuffer_Release
give_back.argtypes = [ctypes.POINTER(View)]
give_back.restype = None


@contextlib.contextmanager
def pinned(data: Buffer) -> Iterator[tuple[int, int]]:
    """Yield the address and size of an object's bytes, which do not move meanwhile. Raises `BufferError` for gaps."""
    view = View()
    take_view(data, ctypes.byref(view), 0)
    try:
        yield view.address or ctypes.addressof(NOWHERE), view.size
    finally:
        give_back(ctypes.byref(view))


def mapped(size: int) -> mmap.mmap:
    """Return a mapping of `size` bytes, of which a page takes memory only once it is written. It is private: a shared
    one takes half as long again to map and clear."""
    return mmap.mmap(-1, size, flags=mmap.MAP_PRIVATE | mmap.MAP_ANONYMOUS)


def in_large_pages(memory: mmap.mmap) -> mmap.mmap:
    """Ask for large pages, if the system has them, for memory that will be written: it takes a quarter of the time."""
    with contextlib.suppress(AttributeError, OSError):
        memory.madvise(mmap.MADV_HUGEPAGE)
    return memory


class Room:
    """Memory for `size` bytes of output. Raises `MemoryError` if the system has too little."""

    def __init__(self, size: int) -> None:
        self.size = size
        self.memory: Union[bytearray, mmap.mmap]
        try:
            self.memory = bytearray(max(size, 1)) if size <= SMALL else in_large_pages(mapped(size))
        except OSError as error:
            raise MemoryError(f"{size} bytes for the output cannot be allocated: {error.strerror}") from None
        self.first = ctypes.c_char.from_buffer(self.memory)

    @property
    def address(self) -> int:
        return ctypes.addressof(self.first)

    def front(self, size: int) -> memoryview:
        """Return a read-only view of the first `size` bytes, which are not written any more."""
        return memoryview(self.memory)[:size].toreadonly()
