"""Producers of Arrow arrays and streams in capsules, laid out by ctypes as Arrow's C data interface says.

`made` and `released` count the structures that were handed out and the calls of their release callbacks.
"""

import ctypes
import struct
from ctypes import CFUNCTYPE, POINTER, PYFUNCTYPE, c_char_p, c_int, c_int64, c_void_p
from itertools import count

made, released = [], []


class CSchema(ctypes.Structure):
    _fields_ = [
        ("format", c_char_p),
        ("name", c_char_p),
        ("metadata", c_char_p),
        ("flags", c_int64),
        ("n_children", c_int64),
        ("children", c_void_p),
        ("dictionary", c_void_p),
        ("release", c_void_p),
        ("private_data", c_void_p),
    ]


class CArray(ctypes.Structure):
    _fields_ = [
        ("length", c_int64),
        ("null_count", c_int64),
        ("offset", c_int64),
        ("n_buffers", c_int64),
        ("n_children", c_int64),
        ("buffers", c_void_p),
        ("children", c_void_p),
        ("dictionary", c_void_p),
        ("release", c_void_p),
        ("private_data", c_void_p),
    ]


class CStream(ctypes.Structure):
    _fields_ = [(name, c_void_p) for name in ("get_schema", "get_next", "get_last_error", "release", "private_data")]


Release = CFUNCTYPE(None, c_void_p)
Destructor = PYFUNCTYPE(None, c_void_p)
get_pointer = ctypes.pythonapi.PyCapsule_GetPointer
get_pointer.argtypes, get_pointer.restype = (c_void_p, c_char_p), c_void_p
new_capsule = ctypes.pythonapi.PyCapsule_New
new_capsule.argtypes, new_capsule.restype = (c_void_p, c_char_p, c_void_p), ctypes.py_object

NAMES = {CSchema: b"arrow_schema", CArray: b"arrow_array", CStream: b"arrow_array_stream"}
numbers = count()
kept = {}  # what structures point to, by their number, for as long as they are not released


def hand_out(structure, *owned):
    """Gives a structure a release callback of its own, and keeps what it points to until that is called."""
    number = next(numbers)

    def release(address):
        released.append(number)
        type(structure).from_address(address).release = None

    callback = Release(release)
    structure.release, structure.private_data = ctypes.cast(callback, c_void_p), number
    kept[number] = (callback, *owned)
    made.append(number)
    return structure


def in_capsule(structure):
    name = NAMES[type(structure)]

    def destroy(capsule):
        held = type(structure).from_address(get_pointer(capsule, name))
        if held.release:
            Release(held.release)(ctypes.addressof(held))

    destructor = Destructor(destroy)
    kept[ctypes.addressof(structure)] = structure, destructor
    return new_capsule(ctypes.addressof(structure), name, ctypes.cast(destructor, c_void_p))


def schema(format, dictionary=None):
    dictionary = ctypes.byref(dictionary) if dictionary else None
    return hand_out(CSchema(format=format, name=b"", dictionary=ctypes.cast(dictionary, c_void_p)), dictionary)


class Array:
    """Of texts, each bytes or None, of which a slice is `texts[first:first + length]`."""

    def __init__(self, texts, format=b"U", first=0, length=None, front=b"", pad=0, **changed):
        self.format, self.changed, self.first = format, changed, first
        self.length = len(texts) - first if length is None else length
        offsets, content = [len(front)], front
        for text in texts:
            # What a null has in its place counts for nothing.
            content += b"7.7" if text is None else text
            offsets.append(len(content))
        bits = bytearray((len(texts) + 7) // 8)
        for place, text in enumerate(texts):
            bits[place // 8] |= (text is not None) << place % 8
        self.validity = bytes(bits) if None in texts else None
        self.offsets = struct.pack(f"={len(offsets)}{'q' if format in b'UZ' else 'i'}", *offsets)
        self.content, self.pad = content or None, pad

    def c_array(self):
        blocks = [
            None if part is None else ctypes.create_string_buffer(b"\0" * self.pad + part, self.pad + len(part))
            for part in (self.validity, self.offsets, self.content)
        ]
        pointers = (c_void_p * 3)(*(block and ctypes.addressof(block) + self.pad for block in blocks))
        fields = {"length": self.length, "null_count": -1, "offset": self.first, "n_buffers": 3, **self.changed}
        return hand_out(CArray(buffers=ctypes.addressof(pointers), **fields), blocks, pointers)

    def __arrow_c_array__(self, requested_schema=None):
        return in_capsule(schema(self.format)), in_capsule(self.c_array())


class Views(Array):
    """The same as views, of which those of more than 12 bytes are of two buffers in turn."""

    def __init__(self, texts, format=b"vu", first=0, length=None, pad=0, **changed):
        super().__init__(texts, b"U", first, length, b"", pad)
        self.format, self.changed = format, changed
        self.parts, self.views = [b"", b"9.9"], b""
        for place, text in enumerate(texts):
            if text is None:
                # What a null has in its place may be anything.
                self.views += struct.pack("=4i", -7, -7, 9, -7)
            elif len(text) <= 12:
                self.views += struct.pack("=i12s", len(text), text)
            else:
                part = place % 2
                self.views += struct.pack("=i4s2i", len(text), text[:4], part, len(self.parts[part]))
                self.parts[part] += text
        self.lengths = struct.pack("=2q", *map(len, self.parts))

    def c_array(self):
        blocks = [
            None if part is None else ctypes.create_string_buffer(b"\0" * self.pad + part, self.pad + len(part))
            for part in (self.validity, self.views, *self.parts, self.lengths)
        ]
        pointers = (c_void_p * 5)(*(None if block is None else ctypes.addressof(block) + self.pad for block in blocks))
        fields = {"length": self.length, "null_count": -1, "offset": self.first, "n_buffers": 5, **self.changed}
        return hand_out(CArray(buffers=ctypes.addressof(pointers), **fields), blocks, pointers)


class Stream:
    """Of arrays. `error_at` is the call that fails: 0 is that of the schema, n is that of the n-th array."""

    def __init__(self, *arrays, format=b"U", error_at=None, words=b"no more"):
        self.arrays, self.format, self.error_at, self.words = list(arrays), format, error_at, words

    def __arrow_c_stream__(self, requested_schema=None):
        arrays, calls = iter(self.arrays), count(1)

        @CFUNCTYPE(c_int, c_void_p, POINTER(CSchema))
        def get_schema(stream, out):
            if self.error_at == 0:
                return 5
            out[0] = schema(self.format)
            return 0

        @CFUNCTYPE(c_int, c_void_p, POINTER(CArray))
        def get_next(stream, out):
            if next(calls) == self.error_at:
                return 5
            array = next(arrays, None)
            out[0] = CArray() if array is None else array.c_array()
            return 0

        # A pointer, since a callback of ctypes can't return a text.
        words = ctypes.create_string_buffer(self.words) if self.words is not None else None

        @CFUNCTYPE(c_void_p, c_void_p)
        def get_last_error(stream):
            return words and ctypes.addressof(words)

        calls_of = [ctypes.cast(call, c_void_p) for call in (get_schema, get_next, get_last_error)]
        return in_capsule(hand_out(CStream(*calls_of), get_schema, get_next, get_last_error, words))
