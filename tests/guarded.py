"""Bytes that a call of the library for C is passed, and can't read past."""

import ctypes
import mmap

SIZE = ctypes.c_size_t


class Guarded:
    """Bytes that end where a page begins that can't be touched."""

    def __init__(self, room):
        self.room = -(-room // mmap.PAGESIZE) * mmap.PAGESIZE
        self.map = mmap.mmap(-1, self.room + mmap.PAGESIZE)
        self.start = ctypes.addressof(ctypes.c_char.from_buffer(self.map))
        protect = ctypes.CDLL(None, use_errno=True).mprotect
        if protect(ctypes.c_void_p(self.start + self.room), SIZE(mmap.PAGESIZE), 0):
            raise OSError(ctypes.get_errno(), "mprotect")

    def put(self, data):
        self.map[self.room - len(data):self.room] = data
        return self.at(len(data))

    def at(self, size):
        return ctypes.c_void_p(self.start + self.room - size)

    def get(self, size):
        return self.map[self.room - size:self.room]
