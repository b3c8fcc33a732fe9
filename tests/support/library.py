"""The library for C, called by the names of its header."""
import ctypes
from pathlib import Path

OK = 0
MIXED = 1
KINDS = (None, "ideal", "general", "complex")


def coded(text):
    """The bytes of a text. Those of a lone surrogate are not UTF-8."""
    return text.encode("utf-8", "surrogatepass")


class Library:
    """The calls of a folder that c/build has built. A form is bytes, and so is a text."""

    def __init__(self, folder):
        self.library = ctypes.CDLL(f"{Path(folder).resolve()}/libversions.so")
        self.buffer = ctypes.create_string_buffer(1 << 20)

    def call(self, name, *words):
        """Calls one, and passes bytes with their length."""
        passed = []
        for word in words:
            passed += (word, ctypes.c_size_t(len(word))) if isinstance(word, bytes) else (word,)
        return getattr(self.library, f"versions_{name}")(*passed)

    def made(self, name, *words):
        """The bytes that a call writes, or None where it fails."""
        length, room = ctypes.c_size_t(), ctypes.c_size_t(len(self.buffer))
        status = self.call(name, *words, self.buffer, room, ctypes.byref(length))
        return ctypes.string_at(self.buffer, length.value) if status == OK else None

    def flag(self, name, *words):
        """What a call of a flag writes; its status where that is not OK."""
        flag = ctypes.c_bool()
        status = self.call(name, *words, ctypes.byref(flag))
        return flag.value if status == OK else status

    def kind(self, text):
        return KINDS[self.call("kind", coded(text))]

    def compare(self, a, b):
        order = ctypes.c_int32()
        assert self.call("compare", MIXED, coded(a), coded(b), ctypes.byref(order)) == OK, (a, b)
        return order.value

    def intervals(self, form):
        """The ends of each interval, with None where it has no high end."""
        found, ends = [], [ctypes.c_size_t() for _ in range(4)]
        while self.call("set_interval", form, ctypes.c_size_t(len(found)), *map(ctypes.byref, ends)) == OK:
            low, low_end, high, high_end = (end.value for end in ends)
            found.append((form[low:low_end], form[high:high_end] or None))
        return found
