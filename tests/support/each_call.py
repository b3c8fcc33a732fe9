"""Rows for each call of versions.h whose arguments can't be exchanged unseen: where two are, an answer is another.

A row has what is passed, in the order of the header: bytes or numbers for an array that is read, and each number that is
not the length of such an array. Then what is answered: the status and what is written. Its values are those of the
header and of the pages; keys are from docs/ORDER.md.
"""
import ctypes
import itertools

KEYS = {
    "1": "00 03013102 02 02", "2": "00 03013202 02 02", "3": "00 03013302 02 02", "4": "00 03013402 02 02",
    "1.2": "00 03013102 03013202 02 02", "2.5": "00 03013202 03013502 02 02",
    "1.0": "00 03013102 030002 02 02", "2.0": "00 03013202 030002 02 02",
    "1.2.3": "00 03013102 03013202 03013302 02 02", "1.20.4": "00 03013102 0302323002 03013402 02 02",
}
KEYS = {text: bytes.fromhex(key) for text, key in KEYS.items()}
OK, NO_VERSION_A = 0, 2
TEXTS, TWO = b"1.02.0x!", [0, 3, 6, 8]
SIZE, READ, WRITTEN = 4096, b"!", b"\xaa"  # of each place in memory, and what is there before and behind what is passed


def form(scheme, *ends):
    """A set by its ends: the scheme, how many there are, where each is over, and the ends, by eight bytes a number."""
    numbers = [len(ends), *itertools.accumulate(map(len, ends))]
    return bytes([scheme]) + b"".join(number.to_bytes(8, "little") for number in numbers) + b"".join(ends)


def alone(text):
    return KEYS[text], KEYS[text] + b"\0"


SPLIT = form(1, b"", KEYS["1"], KEYS["2.5"])  # <1 || >=2.5
FROM_2_5, BELOW_2_5 = form(1, KEYS["2.5"]), form(1, b"", KEYS["2.5"])
FROM_1, FROM_2 = form(1, KEYS["1"]), form(1, KEYS["2"])
BELOW_1, BELOW_2 = form(1, b"", KEYS["1"]), form(1, b"", KEYS["2"])
NO_MEMBER = b"a member is missing: * has all versions"
ROWS = {
    "kind": [((b"1:2.0rc1-3",), (2,))],
    "compare": [((1, b"1.2", b"1.10.0"), (OK, -1)), ((2, b"1.0-1", b"1.0-10"), (OK, -1))],
    "has": [((2, b"1.0-1"), (OK, 1))],
    "key": [((1, b"1.2.3", 20), (OK, KEYS["1.2.3"], 15))],
    "key_bound": [((6, 4), (OK, 20))],
    "keys": [((1, b"1.2.3x!", [0, 5, 7], 100, 3), (OK, KEYS["1.2.3"], [0, 15, 15]))],
    "sort": [((1, b"2.01.0", [0, 3, 6], 100, 3, 2), (OK, KEYS["2.0"] + KEYS["1.0"], [0, 10, 20], [1, 0]))],
    "compare_total": [((b"1.2", b"1.10.0"), (OK, -1))],
    "parse": [((b"1.2.3", 20), (OK, 1, KEYS["1.2.3"], 15))],
    "matches": [((b">=1.1,<2", b"1.5"), (OK, 1))],
    "wrong_member": [((b"*,^1.*",), (OK, 2, 6))],
    "range": [((b"*,>=1.2.3,<1.20.4", 15, 16), (OK, KEYS["1.2.3"], 15, KEYS["1.20.4"], 16, 31))],
    "inexact": [((b">0,~1.2", 30), (OK, b"~1.2", 4))],
    "in_range": [((b"1.2.3", KEYS["1.2.3"], KEYS["1.20.4"][:-4], 9), (OK, 1)),
                 ((b"1.2.3", KEYS["1"][:4], KEYS["1.2.3"] + b"\0", 9), (OK, 1))],
    "match_in_range": [((b"1.2.3", KEYS["1.2.3"], KEYS["1.20.4"][:-4], 9, b">=1.2.3"), (OK, 1)),
                       ((b"1.2.3", KEYS["1"][:4], KEYS["1.2.3"] + b"\0", 9, b">=1.2.3"), (OK, 1))],
    "nth": [((b"10.20.30", 1), (OK, 20))],
    "epoch": [((b"7:2.0-3",), (OK, 7))],
    "field": [((b"1.2.3-rc.1+x86", 2), (OK, 6, 10))],
    "is_prerelease": [((b"1.2.0-rc.1",), (OK, 1))],
    "in_tag": [((b"release-1.2.3",), (OK, 8))],
    "after_prefix": [((b"go-", b"go-v1.2"), (OK, 4))],
    "stability": [((b"1.0-beta",), (3,))],
    "difference": [((b"1.2.3", b"1.3.35"), (OK, 3, 1)), ((b"x!", b"1.2.3"), (NO_VERSION_A,))],
    "next": [((b"1.2.3", 1, 30), (OK, b"1.3.0", 5))],
    "next_release": [((b"1.2.3-rc.1", 30), (OK, b"1.2.3", 5))],
    "next_pre": [((b"1.2.3", b"rc", 30), (OK, b"1.2.4-rc.1", 10))],
    "why_not": [((b"<2,>=1.5", b"1.4"), (OK, 3, 8, 2))],
    "why_text": [((b"<2,>=1.5", b"1.4", 50), (OK, b"1.4 is below >=1.5", 18))],
    "conflict": [((b">=2,<1",), (OK, 0, 3, 4, 6))],
    "scheme": [((b"deb",), (OK, 2))],
    "scheme_name": [((2, 16), (OK, b"deb", 3))],
    "wrong": [((1, b"1.2.3-"), (OK, 6, 2))],
    "wrong_text": [((1, b"1.2.3-", 100), (OK, b"nothing after the hyphen", 24))],
    "set": [((1, b">=1.2, <2", 400), (OK, form(1, KEYS["1.2"], KEYS["2"]), 43))],
    "set_bound": [((1, b">=1.2, <2"), (OK, 2 * (9 + 3 * (9 + 3 * 5 + 5) + 9 + 3 * (9 + 3 * 2 + 5))))],
    "set_wrong": [((1, b">=1, 2"), (OK, 5, 3))],
    "set_wrong_text": [((1, b">=1,", 100), (OK, NO_MEMBER, len(NO_MEMBER)))],
    "set_of_version": [((1, b"1.2", 100), (OK, form(1, *alone("1.2")), 48))],
    "set_scheme": [((form(2, b""),), (OK, 2))],
    "set_has": [((FROM_1, b"1.5"), (OK, 1))],
    "set_has_all": [((FROM_2, TEXTS, TWO, 3), (OK, bytes([0, 1, 2])))],
    "set_and": [((FROM_1, BELOW_2_5, 100), (OK, form(1, KEYS["1"], KEYS["2.5"]), 43))],
    "set_or": [((FROM_2_5, BELOW_1, 100), (OK, SPLIT, 51))],
    "set_not": [((FROM_1, 100), (OK, BELOW_1, 32))],
    "set_part_of": [((FROM_2_5, FROM_1), (OK, 1)), ((FROM_2, FROM_1), (OK, 1))],
    "set_meets": [((FROM_1, BELOW_2), (OK, 1))],
    "set_count": [((SPLIT,), (OK, 2))],
    "set_interval": [((SPLIT, 1), (OK, 40, 51, 33, 33)), ((SPLIT, 0), (OK, 33, 33, 33, 40))],
    "kinds": [((b"1.2.31.2-1", [0, 5, 10], 2), (OK, bytes([1, 2])))],
    "in_tags": [((b"v1.2name", [0, 4, 8], 2), (OK, [1, 8]))],
    "stabilities": [((b"1.0-beta1.0", [0, 8, 11], 2), (OK, bytes([3, 5])))],
    "newest": [((b"v1.5v1.7beta", [0, 4, 12], b"<1.8", 5, 1), (OK, 0))],
    "match_all": [((b"<1.25", TEXTS, TWO, 3), (OK, bytes([1, 0, 2])))],
    "in_range_all": [((TEXTS, TWO, KEYS["1.0"], KEYS["2.0"][:-4], 10, 3), (OK, bytes([1, 0, 2]))),
                     ((TEXTS, TWO, KEYS["1"][:4], KEYS["1.0"] + b"\0", 10, 3), (OK, bytes([1, 0, 2])))],
}
# What may be exchanged: two lengths that have to be the same, and two sets of which a call asks the same.
SAME_LENGTHS = ("offsets_len", "key_offsets_len")
ALIKE = {"set_and": ("one", "other"), "set_or": ("one", "other"), "set_meets": ("one", "other")}


def memory_for(call, given):
    """The arguments of a row, each array or value in a place of its own, and the kinds and places of what is written."""
    room = ctypes.create_string_buffer(SIZE * (len(call.parameters) + 1))
    places = itertools.count(ctypes.addressof(room) + -ctypes.addressof(room) % SIZE, SIZE)
    given, arguments, written, length = iter(given), [], [], None
    for kind, _ in call.parameters:
        if not kind.endswith("*"):
            arguments.append(next(given) if length is None else length)
            length = None
            continue
        arguments.append(next(places))
        ctypes.memset(arguments[-1], (READ if kind.startswith("const ") else WRITTEN)[0], SIZE)
        if kind.startswith("const "):
            value = next(given)
            length = len(value)
            value = value if isinstance(value, bytes) else b"".join(number.to_bytes(8, "little") for number in value)
            ctypes.memmove(arguments[-1], value, len(value))
        else:
            written.append((kind.strip(" *"), arguments[-1]))
    return room, arguments, written


def found_at(kind, place, wanted):
    """What lies where something was to be written, as long as that."""
    size = 8 if "64" in kind or kind == "size_t" else 4 if "32" in kind else 1
    count = 1 if isinstance(wanted, int) else len(wanted)
    bytes_found = ctypes.string_at(place, size * count)
    if isinstance(wanted, bytes):
        return bytes_found
    signed = kind.startswith("int")
    numbers = [int.from_bytes(bytes_found[size * i:size * (i + 1)], "little", signed=signed) for i in range(count)]
    return numbers[0] if isinstance(wanted, int) else numbers


def answer_of(call, function, given, wanted, order):
    """What is answered where the arguments are passed in an order of their places."""
    _room, arguments, written = memory_for(call, given)
    status = function(*(arguments[i] for i in order))
    return status, *(found_at(*where, value) for where, value in zip(written, wanted[1:]))


def exchanges(call):
    """Each way to exchange two pointers, two numbers, or two arrays with their lengths: their names, and the order."""
    kinds, names = zip(*call.parameters)
    pointers = [i for i, kind in enumerate(kinds) if kind.endswith("*")]
    arrays = [i for i in pointers if kinds[i + 1:i + 2] == ("size_t",)]
    numbers = [i for i in range(len(kinds)) if i not in pointers]
    for some, length in ((pointers, 1), (numbers, 1), (arrays, 2)):
        for i, j in itertools.combinations(some, 2):
            order = [*range(len(kinds))]
            order[i:i + length], order[j:j + length] = order[j:j + length], order[i:i + length]
            names_of = (names[i], names[j])
            if names_of != SAME_LENGTHS and (length == 1 or names_of != ALIKE.get(call.name.removeprefix("versions_"))):
                yield names_of, order


def try_each_call(functions, check):
    """Tries the rows. A function that passes two arguments on in each other's place answers as one that gets them so."""
    asked = set()
    for call, function in functions:
        name = call.name.removeprefix("versions_")
        asked.add(name)
        rows = ROWS.get(name, [])
        for given, wanted in rows:
            found = answer_of(call, function, given, wanted, range(len(call.parameters)))
            check(f"{call.name}{given}"[:200], found == wanted, found, wanted)
        for names, order in exchanges(call):
            answers = [answer_of(call, function, given, wanted, order) != wanted for given, wanted in rows]
            check(f"{call.name}: {names[0]} and {names[1]} can't be exchanged unseen", any(answers))
    check("each call has a row, and each row a call", asked == ROWS.keys(), asked ^ ROWS.keys())
