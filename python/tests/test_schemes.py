"""`scheme=`: the orders of other systems, in the calls, of `Version` and of `VersionSet`."""

import copy
import inspect
import itertools
import pickle
import random
import struct
import unittest
from typing import get_args

import arrow
import versions
from counted import of_library
from lists import LongLists
from rows import rows_of
from versions import InvalidVersion, InvalidVersionSet, Requirement, SCHEMES, Version, VersionSet

# In increasing order by Debian Policy, 5.6.12. Those of one line are equal.
DEB = [line.split() for line in """
    1.0~~
    1.0~~a
    1.0~
    1.0~rc1
    1.0 1.0-0 0:1.0 01.0
    1.0-1
    1.0a
    1.0+
    1.9
    1.10
    9
    1:0
""".strip().splitlines()]
RANKS = {text: rank for rank, tied in enumerate(DEB) for text in tied}

# No versions by the same, and what is no text of Unicode.
NO_DEB = ["a1", "1-", "a:1", "", "1_0", "1 0", "1\0", "1.é", "\ud800", "1.0\udcff"]

# A text of Python may have half a pair of surrogates, which is no character of ASCII.
SURROGATES = [(scheme, f"{half}1", 0, "a character past ASCII") for scheme in SCHEMES for half in ("\ud800", "\udcff")]

TWO = "versions of {} are wanted, and this is of {}"
NO_PARTS = "versions of deb have no kind, parts, fields or stability"


def deb(text):
    return Version(text, scheme="deb")


def debs(text):
    return VersionSet(text, scheme="deb")


class MyVersion(Version):
    pass


class DebVersion(Version):
    """With a scheme of its own, and slots."""

    __slots__ = ("place",)

    def __new__(cls, text):
        return super().__new__(cls, text, scheme="deb")


class Evil(str):
    def answer(self, *_):
        return b"9.9.9" * 1000

    encode = __str__ = __repr__ = __format__ = __iter__ = __getitem__ = __hash__ = answer

    def __eq__(self, other):
        return True


# Each call that takes a scheme, of a text that is a version in all of them.
CALLS = {
    "compare": lambda **named: versions.compare("1.0.0", "1.0.0", **named),
    "sort_key": lambda **named: versions.sort_key("1.0.0", **named),
    "sort_keys": lambda **named: versions.sort_keys(["1.0.0", None], **named),
    "sorted": lambda **named: versions.sorted(["1.0.1", "1.0.0"], **named),
    "newest": lambda **named: versions.newest(["1.0.1", "1.0.0"], **named),
    "Version": lambda **named: Version("1.0.0", **named),
    "VersionSet": lambda **named: VersionSet(">=1.0.0", **named),
    "VersionSet.of": lambda **named: VersionSet.of("1.0.0", **named),
}


class Names(unittest.TestCase):
    def test_the_names_of_all_schemes(self):
        self.assertIsInstance(SCHEMES, tuple)
        self.assertEqual(SCHEMES[:2], ("mixed", "deb"))
        self.assertEqual(len(set(SCHEMES)), len(SCHEMES))
        self.assertIn("SCHEMES", versions.__all__)

    def test_each_call_takes_each_name(self):
        for name, call in CALLS.items():
            for scheme in SCHEMES:
                answer = call(scheme=scheme)
                self.assertEqual(answer, call(scheme=Evil(scheme)), (name, scheme))
                self.assertIn(getattr(answer, "scheme", scheme), (scheme,))
            self.assertEqual(call(), call(scheme="mixed"), name)

    def test_the_names_of_people(self):
        # Each scheme, and what else it is called.
        known = {scheme: [scheme, *others] for scheme, _, *others in rows_of("scheme")}
        self.assertEqual((tuple(known), get_args(versions.Scheme)), (SCHEMES, SCHEMES))
        self.assertGreater(sum(map(len, known.values())), 18)
        self.assertEqual(set(get_args(versions.SchemeName)), {name for names in known.values() for name in names})
        for name, call in CALLS.items():
            for scheme, names in known.items():
                answer = call(scheme=scheme)
                for its in names:
                    for written in (its, its.upper(), its.title(), Evil(its)):
                        found = call(scheme=written)
                        self.assertEqual(found, answer, (name, written))
                        self.assertEqual(getattr(found, "scheme", scheme), scheme)
                        self.assertEqual(repr(found), repr(answer))

    def test_what_is_no_name(self):
        listed = f"a scheme is one of {', '.join(SCHEMES)}, and this is "
        for name, call in CALLS.items():
            for wrong in ("dpkg", "debia", "deb ", "deb\0", "", "\ud800", "é", "d" * 1_000_000):
                with self.subTest(name, wrong=wrong[:9]), self.assertRaises(ValueError) as raised:
                    call(scheme=wrong)
                self.assertEqual(type(raised.exception), ValueError)
                self.assertEqual(str(raised.exception), listed + repr(wrong))
            for wrong in (None, 2, b"deb", True, deb("1"), str):
                words = f"a scheme is a str, and this is of type {type(wrong).__name__}"
                self.assertRaisesRegex(TypeError, words, call, scheme=wrong)
        # A subclass of str is shown by its own `repr`, which returns no str.
        self.assertRaises(TypeError, versions.sort_key, "1", scheme=Evil("dpkg"))

    def test_it_is_given_by_its_name_alone(self):
        texts = ("compare", ("1", "2")), ("sort_key", ("1",)), ("sort_keys", (["1"],)), ("sorted", (["1"],))
        for name, words in texts:
            self.assertRaises(TypeError, getattr(versions, name), *words, "deb")
            self.assertIn(", *, ", str(inspect.signature(getattr(versions, name))))
        self.assertRaises(TypeError, versions.newest, ["1"], None, None, False, "deb")
        for call in (Version, VersionSet, VersionSet.of):
            self.assertRaises(TypeError, call, "1", "deb")
        for call in (versions.kind, versions.kinds, versions.stabilities, versions.in_tags, Requirement):
            self.assertRaises(TypeError, call, ["1"], scheme="mixed")
        self.assertRaises(TypeError, versions.compare_total, "1", "2", scheme="mixed")
        self.assertRaises(TypeError, versions.match_all, "*", [], scheme="mixed")

    def test_names_of_arguments(self):
        self.assertEqual(versions.compare(b="1.0a", a="1.0", scheme="deb"), -1)
        self.assertEqual(versions.compare("1.0", scheme="deb", b="1.0-0"), 0)
        self.assertEqual(versions.sort_key(scheme="deb", text="1.0"), deb("1.0-0").key)
        self.assertEqual(versions.sort_keys(scheme="deb", texts=["1.0"]), [deb("1.0-0").key])
        self.assertEqual((Version(text="1", scheme="deb"), VersionSet.of(version="1", scheme="deb")),
                         (deb("1"), VersionSet(text="=1", scheme="deb")))
        for wrong in ({}, {"a": "1"}, {"scheme": "deb"}, {"a": "1", "b": "1", "c": "1"}):
            self.assertRaises(TypeError, versions.compare, **wrong)


class Calls(LongLists):
    def test_order_and_keys(self):
        keys = {text: versions.sort_key(text, scheme="deb") for text in RANKS}
        for a, b in itertools.product(RANKS, repeat=2):
            wanted = (RANKS[a] > RANKS[b]) - (RANKS[a] < RANKS[b])
            with self.subTest(a=a, b=b):
                for x, y in itertools.product((a, deb(a)), (b, deb(b))):
                    self.assertEqual(versions.compare(x, y, scheme="deb"), wanted)
                self.assertEqual((keys[a] > keys[b]) - (keys[a] < keys[b]), wanted)
        self.assertEqual([versions.sort_key(deb(text), scheme="deb") for text in RANKS], list(keys.values()))
        texts = [*RANKS, *NO_DEB, None, float("nan"), *map(deb, RANKS)]
        nothing = [None] * (len(NO_DEB) + 2)
        for given in (texts, iter(texts), tuple(texts)):
            found = versions.sort_keys(given, scheme="deb")
            self.assertEqual(found, [*keys.values(), *nothing, *keys.values()])
        self.assertEqual(versions.sort_keys([], scheme="deb"), [])

    def test_rows_of_each_scheme(self):
        for scheme, *words in rows_of("chain"):
            for a, sign, b in zip(words[::2], words[1::2], words[2::2]):
                order = -1 if sign == "<" else 0
                with self.subTest(scheme, a=a, b=b):
                    found = versions.compare(a, b, scheme=scheme), versions.compare(b, a, scheme=scheme)
                    self.assertEqual(found, (order, -order))
                    one, other = (Version(text, scheme=scheme) for text in (a, b))
                    self.assertEqual((one < other, one.key < other.key, one == other), (order < 0, order < 0, order == 0))
        for scheme, *rising in rows_of("rising"):
            self.assertEqual(versions.sorted(rising[::-1], scheme=scheme), rising)
        for scheme, text in rows_of("none"):
            self.assertRaises(InvalidVersion, Version, text, scheme=scheme)
        for scheme, text, version, has in rows_of("set"):
            self.assertIs(version in VersionSet(text, scheme=scheme), has == "1", (scheme, text, version))
        for scheme, text, place, why in rows_of("no-set"):
            with self.subTest(scheme, text=text), self.assertRaises(InvalidVersionSet) as raised:
                VersionSet(text, scheme=scheme)
            self.assertEqual((raised.exception.start, raised.exception.reason), (int(place), why))

    def test_mixed_is_another_order(self):
        self.assertEqual([versions.compare("1.0", "1.0-0", scheme=name) for name in ("mixed", "deb")], [-1, 0])
        self.assertEqual(versions.sort_key("1.0", scheme="mixed"), Version("1.0").key)
        # In mixed `sorted` breaks the ties of `compare`.
        self.assertEqual(versions.sorted(["0:1.2", "1.2"], scheme="mixed"), ["1.2", "0:1.2"])
        self.assertEqual(versions.sorted(["0:1.2", "1.2"], scheme="deb"), ["0:1.2", "1.2"])

    def test_what_is_no_version(self):
        for text in NO_DEB:
            for call in (
                lambda: versions.sort_key(text, scheme="deb"),
                lambda: versions.compare(text, "1_1", scheme="deb"),
                lambda: versions.compare("1", text, scheme="deb"),
                lambda: versions.sorted(["1", text, "a"], scheme="deb"),
                lambda: deb(text),
                lambda: VersionSet.of(text, scheme="deb"),
                lambda: text in debs("*"),
            ):
                with self.subTest(text=text), self.assertRaises(InvalidVersion) as raised:
                    call()
                error = raised.exception
                self.assertEqual((error.text, error.scheme), (text, "deb"))
                self.assertEqual(str(error), f"not a version of deb: {text!r}; at {error.place}: {error.reason}")

    def test_what_is_no_text(self):
        for other in (None, 1.2, b"1", Requirement("*"), debs("*"), ["1"]):
            for call in (
                lambda: versions.sort_key(other, scheme="deb"),
                lambda: versions.compare("1", other, scheme="deb"),
                lambda: deb(other),
                lambda: Version(other),
                lambda: VersionSet.of(other),
                lambda: debs(deb("1") if other == debs("*") else other),
            ):
                self.assertRaisesRegex(TypeError, "a text is a str", call)
        for call in (versions.sort_keys, versions.sorted, versions.newest):
            for one in ("1", b"1"):
                self.assertRaisesRegex(TypeError, "many texts are wanted", call, one, scheme="deb")
            for other in (5, [5], ["1", b"1"]):
                self.assertRaises(TypeError, call, other, scheme="deb")

    def test_a_subclass_of_str_is_its_text(self):
        made = deb(Evil("1.0"))
        self.assertEqual((str(made), type(str(made)), repr(made)), ("1.0", str, "Version('1.0', scheme='deb')"))
        self.assertEqual(versions.compare(Evil("1.0"), "1.0-0", scheme="deb"), 0)
        self.assertEqual(repr(debs(Evil("=1.0"))), "VersionSet('=1.0', scheme='deb')")
        for call, kind in ((deb, InvalidVersion), (debs, InvalidVersionSet)):
            with self.assertRaises(kind) as raised:
                call(Evil("a1"))
            self.assertEqual((type(raised.exception.text), raised.exception.text), (str, "a1"))

    def test_sorted(self):
        chosen = random.Random(1)
        texts = [*RANKS, *NO_DEB, None]
        for _ in range(500):
            rows = [(n, text) for n, text in enumerate(chosen.choices(texts, k=chosen.randrange(12)))]
            right = [row for row in rows if row[1] in RANKS]
            wrong = [row for row in rows if row[1] not in RANKS]
            for reverse in (False, True):
                wanted = sorted(right, key=lambda row: RANKS[row[1]], reverse=reverse)
                named = {"reverse": reverse, "scheme": "deb", "key": lambda row: row[1]}
                self.assertEqual(versions.sorted(rows, invalid="last", **named), wanted + wrong)
                self.assertEqual(versions.sorted(right, **named), wanted)
                items = [deb(text) if chosen.random() < 0.5 else text for _, text in right]
                found = versions.sorted(iter(items), reverse=reverse, scheme="deb")
                self.assertEqual(list(map(id, found)), [id(items[right.index(row)]) for row in wanted])
        with self.assertRaises(InvalidVersion) as raised:
            versions.sorted(["1", "a1", "2", "1-"], reverse=True, scheme="deb")
        self.assertEqual(raised.exception.text, "a1")

    def test_newest(self):
        def newest(texts, *words, **named):
            return versions.newest(texts, *words, scheme="deb", **named)

        texts = ["1.0~rc1", "a9", "1.10", None, "1.9", float("nan"), "9-", "\ud800"]
        self.assertEqual((newest(texts), newest(iter(texts)), newest(["9", *texts])), ("1.10", "1.10", "9"))
        self.assertEqual([newest(empty) for empty in ([], [None], NO_DEB, {})], [None] * 4)
        tied = [deb("1.0-0"), "0:1.0", MyVersion("1.0", scheme="deb")]
        for items in itertools.permutations(tied):
            self.assertIs(newest([*items, "1.0~"]), items[0])
        for wanted, found in (("<1.10", "1.9"), ("<1.9 || =1.9-0", "1.9"), (">1.10", None), ("<1.0", "1.0~rc1")):
            for given in (wanted, debs(wanted), Evil(wanted), ~~debs(wanted)):
                self.assertEqual(newest(texts, given), found, wanted)
                self.assertEqual(newest(texts, requirement=given), found)
        for wrong in ("1.9", "<1-", ""):
            with self.assertRaises(InvalidVersionSet) as raised:
                newest([], wrong)
            self.assertEqual((raised.exception.text, raised.exception.scheme), (wrong, "deb"))
        for wrong in (Requirement("*"), 5, b"*", ["*"]):
            self.assertRaisesRegex(TypeError, type(wrong).__name__, newest, [], wrong)
        words = "stability and tags are for the scheme mixed alone, and this is deb"
        for named in ({"stability": "rc"}, {"tags": True}, {"stability": 7}, {"stability": 1, "tags": True}):
            self.assertRaisesRegex(ValueError, words, newest, texts, **named)
        self.assertEqual(newest(texts, None, None, False), "1.10")

    def test_newest_of_rows(self):
        self.assertEqual({scheme for scheme, *_ in rows_of("level")}, set(SCHEMES))
        for scheme, before, *level in rows_of("level"):
            rows = [(text,) for text in (before, *level, "", "1 0", None, float("nan"))]
            for order in itertools.permutations(rows[:5]):
                found = versions.newest((*order, *rows[5:]), key=lambda row: row[0], scheme=scheme)
                self.assertIs(found, next(row for row in order if row[0] in level), (scheme, order))
            made = [(Version(text, scheme=scheme),) for text in (before, *level)]
            self.assertIs(versions.newest(made[::-1], key=lambda row: row[0], scheme=scheme), made[2])
            some = VersionSet(f"<{level[0]}", scheme=scheme)
            self.assertIs(versions.newest(rows, some, key=lambda row: row[0], scheme=scheme), rows[0])
            self.assertIsNone(versions.newest(rows[3:], key=lambda row: row[0], scheme=scheme))
        self.assertRaisesRegex(ValueError, "mixed alone", versions.newest, [], tags=True, key=str, scheme="deb")
        self.assertRaises(TypeError, versions.newest, [5], key=lambda row: Version("1"), scheme="deb")

    def test_texts_of_arrow(self):
        texts = [b"1.0~rc1", None, b"a1", b"1.10-1", b"\xff"]
        wanted = versions.sort_keys(["1.0~rc1", None, None, "1.10-1", None], scheme="deb")
        for given in (arrow.Array(texts, b"u"), arrow.Views(texts)):
            self.assertEqual(versions.sort_keys(given, scheme="deb"), wanted)
            self.assertEqual(debs("<1.10").has_all(given), [True, None, None, False, None])

    def test_bad_offsets_of_arrow(self):
        largest = 2**63 - 1
        for offsets in ((0, -1, 0, 9), (-1, 3, 3, 9), (0, 7, 3, 9), (0, largest, 3, 9), (-largest - 1, largest, 3, 9)):
            array = arrow.Array([b"1.0", b"1.1", b"1.2"], b"U")
            array.offsets = struct.pack("=4q", *offsets)
            for scheme in SCHEMES:
                with self.subTest(offsets=offsets, scheme=scheme):
                    words = "offsets of texts descend, are negative or leave their buffer"
                    self.assertRaisesRegex(ValueError, words, versions.sort_keys, array, scheme=scheme)

    @of_library
    def test_long(self):
        for text in ("1." * 1_000_000 + "1", "9" * 3_000_000, "1" + "~" * 1_000_000, "1" + "a1" * 500_000):
            key = versions.sort_key(text, scheme="deb")
            self.assertEqual((deb(text).key, versions.sort_keys([text, text + "-"], scheme="deb")), (key, [key, None]))
            self.assertEqual(versions.compare(text, text + "-0", scheme="deb"), 0)
            self.assertEqual(versions.sorted([text + "a", text], scheme="deb"), [text, text + "a"])
            self.assertEqual(versions.newest([text, text + "a"], scheme="deb"), text + "a")
            self.assertTrue(text in debs(f">={text} <{text}a"))
        for length in (*range(1, 20), *range(240, 270), *range(500, 530), *range(1010, 1040), 5000, 65536, 65537):
            text = "1" + "~" * length
            self.assertEqual([versions.sort_key(text, scheme="deb")], versions.sort_keys([text], scheme="deb"))

    @of_library
    def test_a_million(self):
        texts = [f"{n % 7}.{n % 1000}~{n}" if n % 10 else "a1" for n in range(1_000_000)]
        keys = versions.sort_keys(texts, scheme="deb")
        for n in range(0, 1_000_000, 997):
            self.assertEqual(keys[n], versions.sort_key(texts[n], scheme="deb") if n % 10 else None)
        newest = max(range(1_000_000), key=lambda n: keys[n] or b"")
        self.assertIs(versions.newest(texts, scheme="deb"), texts[newest])


class Versions(unittest.TestCase):
    def test_order(self):
        for a, b in itertools.product(RANKS, repeat=2):
            x, y, i, j = deb(a), deb(b), RANKS[a], RANKS[b]
            with self.subTest(a=a, b=b):
                self.assertEqual((x < y, x <= y, x == y), (i < j, i <= j, i == j))
                self.assertEqual((x > y, x >= y, x != y), (i > j, i >= j, i != j))
        for tied in DEB:
            self.assertEqual((len({deb(text) for text in tied}), len({hash(deb(text)) for text in tied})), (1, 1))
        drawn = [deb(text) for text in RANKS]
        random.Random(1).shuffle(drawn)
        self.assertEqual([RANKS[str(version)] for version in sorted(drawn)], sorted(RANKS.values()))

    def test_two_schemes(self):
        a, b = Version("1.0"), deb("1.0")
        for x, y in ((a, b), (b, a), (MyVersion("1.0"), b), (b, MyVersion("1.0"))):
            self.assertEqual((x == y, x != y), (False, True))
            for call in (lambda: x < y, lambda: x <= y, lambda: x > y, lambda: x >= y):
                with self.assertRaises(TypeError) as raised:
                    call()
                self.assertIn(str(raised.exception), (TWO.format(*pair) for pair in (SCHEMES[:2], SCHEMES[1::-1])))
        self.assertEqual(len({a, b, deb("1.0-0")}), 2)
        self.assertEqual(({a: 1}.get(b), [a].count(b), b in (a, deb("1.0-0"))), (None, 0, True))
        self.assertRaises(TypeError, sorted, [a, b])
        self.assertEqual(Version("1.0", scheme="mixed"), a)

    def test_other_types(self):
        for other in ("1.0", None, 1.0, deb("1.0").key, debs("=1.0")):
            self.assertIs(deb("1.0").__eq__(other), NotImplemented)
            self.assertRaises(TypeError, lambda: deb("1.0") < other)

    def test_what_calls_of_another_scheme_say(self):
        a, b, requirement, both = Version("1.0"), deb("1.0"), Requirement(">=1.0"), TWO.format("mixed", "deb")
        strict, in_tags = Requirement("=1.0"), VersionSet("*")
        for call in (
            lambda: Version(b, scheme="mixed"),
            lambda: VersionSet(debs("*"), scheme="mixed"),
            lambda: versions.kind(b),
            lambda: versions.sort_key(b),
            lambda: versions.compare(a, b),
            lambda: versions.compare(b, "1..2"),
            lambda: versions.compare_total(b, a),
            lambda: versions.kinds([a, b]),
            lambda: versions.sort_keys([b]),
            lambda: versions.stabilities([b]),
            lambda: versions.in_tags([b]),
            lambda: versions.match_all("*", [b]),
            lambda: versions.sorted([a, b]),
            lambda: versions.sorted([a, b], invalid="last", reverse=True),
            lambda: versions.sorted([b], key=lambda item: item),
            lambda: versions.newest([b]),
            lambda: versions.newest([a, b, a]),
            lambda: versions.newest([b], tags=True),
            lambda: versions.newest([a], debs("*")),
            lambda: versions.newest([b], VersionSet("*")),
            lambda: Version.from_tag(b),
            lambda: a.difference(b),
            lambda: requirement.matches(b),
            lambda: strict.matches(b),
            lambda: b in requirement,
            lambda: requirement.filter([b]),
            lambda: strict.filter([a, b]),
            lambda: requirement.why_not(b),
            lambda: strict.why_not(b),
            lambda: VersionSet.of(b, scheme="mixed"),
            lambda: VersionSet.union([in_tags, debs("*")]),
            lambda: VersionSet.union([debs("*")], scheme="mixed"),
            lambda: in_tags - debs("*"),
            lambda: in_tags ^ debs("*"),
            lambda: b in in_tags,
            lambda: in_tags.filter([a, b]),
            lambda: in_tags.has_all([b]),
            lambda: versions.match_all(in_tags, [b]),
        ):
            with self.assertRaises(TypeError) as raised:
                call()
            self.assertEqual(str(raised.exception), both, inspect.getsource(call))
        for call in (
            lambda: deb(a),
            lambda: debs(in_tags),
            lambda: debs("*") - in_tags,
            lambda: VersionSet.union([debs("*"), debs("=1"), in_tags]),
            lambda: versions.sort_key(a, scheme="deb"),
            lambda: versions.compare(a, b, scheme="deb"),
            lambda: versions.compare("1", a, scheme="deb"),
            lambda: versions.sort_keys([a], scheme="deb"),
            lambda: versions.sorted([b, a], scheme="deb", invalid="last"),
            lambda: versions.newest([b, a], scheme="deb"),
            lambda: versions.newest([b], VersionSet("*"), scheme="deb"),
            lambda: VersionSet.of(a, scheme="deb"),
            lambda: a in debs("*"),
            lambda: debs("*").filter([a]),
            lambda: debs("*").has_all([a]),
        ):
            with self.assertRaises(TypeError) as raised:
                call()
            self.assertEqual(str(raised.exception), TWO.format("deb", "mixed"), inspect.getsource(call))
        with self.assertRaisesRegex(TypeError, "a set of versions|a text is a str"):
            versions.match_all(b, [])

    def test_what_versions_of_mixed_alone_have(self):
        for version in (deb("1:1.0~rc1-1"), DebVersion("1.2.3"), MyVersion("1.2.3", scheme="deb")):
            names = "kind is_ideal is_general is_complex is_prerelease stability pre_release release metadata epoch"
            methods = "nth difference next next_release next_pre"
            for name in (*names.split(), "major", "minor", "patch", "_mixed", *methods.split()):
                with self.subTest(name):
                    self.assertRaisesRegex(AttributeError, f"^{NO_PARTS}$", getattr, version, name)
                    self.assertFalse(hasattr(version, name))
                    self.assertTrue(hasattr(Version("1.2.3"), name))
            for call in (lambda: version.nth(0), lambda: version.next(0), lambda: version.difference("1.0")):
                self.assertRaisesRegex(AttributeError, f"^{NO_PARTS}$", call)
            for call in (lambda: version.next_release(), lambda: version.next_pre("rc")):
                self.assertRaisesRegex(AttributeError, f"^{NO_PARTS}$", call)
        # Of the class, and of a version of mixed, they are what they are elsewhere.
        self.assertEqual(Version.next(Version("1.2.3"), place=0), Version("1.2.3").next(place=0))
        self.assertRaisesRegex(AttributeError, f"^{NO_PARTS}$", Version.next, deb("1.0"), 0)
        self.assertEqual(list(inspect.signature(Version("1.2.3").next).parameters), ["place"])
        self.assertTrue(Version("1.2.3").next.__doc__.startswith("The least version after it"))
        self.assertEqual((Version.next.__name__, Version.next.__qualname__), ("next", "Version.next"))

    def test_how_they_are_shown(self):
        for make, shown in ((Version, "Version('0:1.0-1', scheme='deb')"),
                            (MyVersion, "MyVersion('0:1.0-1', scheme='deb')")):
            made = make("0:1.0-1", scheme="deb")
            self.assertEqual((str(made), repr(made), f"{made:>9}"), ("0:1.0-1", shown, "  0:1.0-1"))
            self.assertEqual((eval(shown), type(eval(shown))), (made, make))
        self.assertEqual(repr(Version("1.0", scheme="mixed")), "Version('1.0')")

    def test_never_changes(self):
        made = deb("1.0")
        for name in ("scheme", "key", "_text", "_mixed", "other"):
            self.assertRaises(AttributeError, setattr, made, name, "mixed")
            self.assertRaises(AttributeError, delattr, made, name)
        made.__init__("2.0", scheme="mixed")
        self.assertEqual((str(made), made.scheme), ("1.0", "deb"))
        self.assertEqual([Version("1.0").scheme, Version("1.0", scheme="mixed").scheme], ["mixed"] * 2)

    def test_a_version_of_a_version(self):
        for again in (deb(deb("0:1.0")), deb(DebVersion("0:1.0")), DebVersion(deb("0:1.0")), Version(deb("0:1.0")),
                      MyVersion(DebVersion("0:1.0")), Version(text=deb("0:1.0"))):
            self.assertEqual((str(again), again.key, again.scheme), ("0:1.0", deb("1.0").key, "deb"))
        for scheme in SCHEMES:
            made = Version("1.0.0", scheme=scheme)
            self.assertEqual((Version(made), Version(made).scheme), (made, scheme))
            self.assertEqual(VersionSet.of(made), VersionSet("=1.0.0", scheme=scheme))

    def test_pickles_and_copies(self):
        plain, mine, slotted = deb("0:1.0"), MyVersion("1.0-0", scheme="deb"), DebVersion("1.0")
        mine.note, slotted.place = ["mine"], ["here"]
        for made in (plain, mine, slotted):
            backs = [pickle.loads(pickle.dumps(made, n)) for n in range(pickle.HIGHEST_PROTOCOL + 1)]
            for back in (*backs, copy.copy(made), copy.deepcopy(made)):
                self.assertEqual((back, str(back), type(back)), (made, str(made), type(made)))
                self.assertEqual((back.scheme, back.key, hash(back)), ("deb", made.key, hash(made)))
                for name in ("note", "place"):
                    self.assertEqual(getattr(back, name, None), getattr(made, name, None))
        self.assertIs(copy.copy(mine).note, mine.note)
        self.assertIsNot(copy.deepcopy(slotted).place, slotted.place)
        # A pickle of mixed is as it was before there were schemes.
        self.assertNotIn(b"scheme", pickle.dumps(Version("1.0")))

    def test_a_pickle_that_holds_anything_is_refused(self):
        self.assertRaises(InvalidVersion, Version._in_scheme, "a1", "deb")
        self.assertRaises(ValueError, Version._in_scheme, "1", "dpkg")
        self.assertRaises(TypeError, Version._in_scheme, "1", None)
        self.assertRaises(TypeError, Version._in_scheme, b"1", "deb")

    def test_a_subclass_may_say_what_is_pickled(self):
        class Reduced(DebVersion):
            def __reduce__(self):
                return str, ("reduced",)

        self.assertEqual(copy.copy(Reduced("1.0")), "reduced")


class Sets(unittest.TestCase):
    # A set of deb, what is in it, and what is not.
    ROWS = (
        ("*", "1.0~~ 1.0 1:0", ""),
        ("=1.0", "1.0 1.0-0 0:1.0 01.0", "1.0~ 1.0a 1.0-1 1.0+"),
        ("==1.0-0", "1.0 1.0-0", "1.0-1"),
        ("!=1.0", "1.0~ 1.0-1", "1.0 1.0-0"),
        (">=1.0~rc1, <1.0", "1.0~rc1", "1.0~ 1.0 1.0-0 1.0-1"),
        (">1.0 <=1.0+", "1.0-1 1.0a 1.0+", "1.0 1.0-0 1.9"),
        ("<1.0 || >=1.10", "1.0~rc1 1.10 9 1:0", "1.0 1.9"),
        (">1:0 <9", "", "1.0 9 1:0"),
        ("<<1.0 || >> 1.10", "1.0~rc1 9 1:0", "1.0 1.0-0 1.10"),
    )

    # A text that is no set of deb, and the place of its first wrong piece.
    WRONG = (("1.0", 0), (">=1-", 2), (">=a1", 2), (">=1.0, =a:1", 8), ("é", 0), ("*, é, =1", 3), (">=1 | <2", 4),
             ("", 0), ("\ud800", 0), ("*, =\udcff", 4))

    def test_what_is_in_a_set(self):
        for text, has, has_not in self.ROWS:
            made = debs(text)
            for answer, drawn in ((True, has.split()), (False, has_not.split())):
                for version in drawn:
                    with self.subTest(text=text, version=version):
                        self.assertIs(version in made, answer)
                        self.assertIs(deb(version) in made, answer)
                        self.assertIs(version in ~made, not answer)
                items = [deb(version) for version in drawn]
                self.assertEqual((made.has_all(drawn), versions.match_all(made, items)), ([answer] * len(drawn),) * 2)
                self.assertEqual((made.filter(drawn), made.filter(items)), (drawn, items) if answer else ([], []))
        self.assertEqual(debs("*").has_all(["1", *NO_DEB, None]), [True, *[None] * (len(NO_DEB) + 1)])
        self.assertEqual(debs("*").filter(["1", *NO_DEB, None]), ["1"])

    def test_no_set(self):
        for text, start in self.WRONG:
            with self.subTest(text=ascii(text)), self.assertRaises(InvalidVersionSet) as raised:
                debs(text)
            error = raised.exception
            self.assertEqual((error.text, error.scheme, error.start), (text, "deb", start), ascii(text))
            self.assertEqual(str(error), f"not a set of versions of deb: {text!r}; at {start}: {error.reason}")
        # Versions of deb have no parts that these could ask for.
        for text in ("=1.*", "~1.2", "^1.2", "~=1.2", "~>1.2", "!=1.*"):
            self.assertRaises(InvalidVersionSet, debs, text)

    def test_two_sets(self):
        low, high = debs("<1.0"), debs(">=1.0-0")
        self.assertEqual((low | high, low & high, ~low), (debs("*"), debs("<1 >1"), high))
        self.assertTrue(low < debs("<=1.0") and low <= low and debs("*") > high and not low <= high)
        self.assertEqual((low.isdisjoint(high), low.isdisjoint(debs(">0"))), (True, False))
        self.assertEqual((debs("=1.0"), hash(debs("=1.0"))), (debs("=0:1.0-0"), hash(debs(">=1.0 <=1.0"))))
        self.assertEqual((bool(low), bool(low & high)), (True, False))
        self.assertEqual({made.scheme for made in (low & high, low | high, ~low)}, {"deb"})
        key = deb("1.0").key
        self.assertEqual((low.intervals, high.intervals), (((b"", key),), ((key, None),)))

    def test_of_each_scheme(self):
        for scheme in SCHEMES:
            made = VersionSet(">=1.0.0", scheme=scheme)
            for again in (VersionSet(made), VersionSet(made, scheme=scheme)):
                self.assertEqual((again, str(again), again.scheme), (made, ">=1.0.0", scheme))
            full, empty = VersionSet.all(scheme), VersionSet.empty(scheme=scheme)
            self.assertEqual((full, str(full), full.scheme), (VersionSet("*", scheme=scheme), "*", scheme))
            self.assertEqual((empty, empty.scheme, bool(empty)), (~full, scheme, False))
            for union in (VersionSet.union([made, ~made]), VersionSet.union([full], scheme=scheme)):
                self.assertEqual((union, union.scheme), (full, scheme))
            self.assertEqual(VersionSet.union([], scheme=scheme), empty)
            self.assertEqual((made - full, full - made, made ^ full, made ^ empty), (empty, ~made, ~made, made))
        self.assertEqual(VersionSet.union([], scheme="deb"), debs(">1 <1"))

    def test_sets_of_two_schemes(self):
        a, b = VersionSet(">=1.0"), debs(">=1.0")
        for x, y in ((a, b), (b, a), (VersionSet("*"), debs("*")), (debs(">1 <1"), VersionSet(">1 <1"))):
            self.assertEqual((x == y, x != y, len({x, y})), (False, True, 2))
            for call in (lambda: x & y, lambda: x | y, lambda: x < y, lambda: x <= y, lambda: x > y, lambda: x >= y,
                         lambda: x.isdisjoint(y)):
                with self.assertRaises(TypeError) as raised:
                    call()
                self.assertIn(str(raised.exception), (TWO.format(*pair) for pair in (SCHEMES[:2], SCHEMES[1::-1])))

    def test_how_they_are_shown(self):
        class MySet(VersionSet):
            pass

        for cls in (VersionSet, MySet):
            made, of = cls(">=1.0", scheme="deb"), cls.of(deb("1.0-1"), scheme="deb")
            self.assertEqual((str(made), repr(made)), (">=1.0", f"{cls.__name__}('>=1.0', scheme='deb')"))
            self.assertEqual(repr(of), f"{cls.__name__}.of('1.0-1', scheme='deb')")
            self.assertEqual((eval(repr(made)), eval(repr(of))), (made, debs("=1.0-1")))
            self.assertEqual(repr(~cls("*", scheme="deb")), "<VersionSet: nothing, scheme='deb'>")

    def test_pickles_and_copies(self):
        for made in (debs(">=1.0 || =0"), ~debs("*"), ~debs("=1.0"), VersionSet.of("1.0-0", scheme="deb")):
            backs = [pickle.loads(pickle.dumps(made, n)) for n in range(pickle.HIGHEST_PROTOCOL + 1)]
            for back in (*backs, copy.copy(made), copy.deepcopy(made)):
                self.assertEqual((back, str(back), repr(back), back.scheme), (made, str(made), repr(made), "deb"))

    def test_the_scheme_of_a_form_is_the_forms(self):
        for scheme in SCHEMES:
            for text in ("*", ">=1.0.0", "=1.0.0 || >2.0.0", ">1.0.0 <1.0.0"):
                made = VersionSet(text, scheme=scheme)
                self.assertEqual(VersionSet._of_form(made._form, None, None).scheme, scheme)


class Errors(unittest.TestCase):
    def test_pickles(self):
        for kind, text in ((InvalidVersion, "1-"), (InvalidVersionSet, ">=1-")):
            for error in (kind(text, "deb"), kind(text, scheme="deb"), kind(text), kind(text, "mixed")):
                for protocol in range(pickle.HIGHEST_PROTOCOL + 1):
                    back = pickle.loads(pickle.dumps(error, protocol))
                    self.assertEqual((type(back), back.text, back.scheme), (kind, text, error.scheme))
                    self.assertEqual((str(back), back.args), (str(error), error.args))
            self.assertEqual((kind(text).args, kind(text, "deb").args), ((text,), (text, "deb")))
        self.assertEqual(Version("1").scheme, InvalidVersion("x").scheme)
        self.assertRaises(TypeError, versions.InvalidRequirement, "x", "deb")

    def test_why_a_text_is_no_version(self):
        for scheme, text, place, reason in (*rows_of("flaw"), *SURROGATES):
            place = int(place)
            with self.subTest(scheme=scheme, text=ascii(text)), self.assertRaises(InvalidVersion) as raised:
                Version(text, scheme=scheme)
            error = raised.exception
            self.assertEqual((error.place, error.reason), (place, reason))
            of = "" if scheme == "mixed" else f" of {scheme}"
            self.assertEqual(str(error), f"not a version{of}: {text!r}; at {place}: {reason}")
            for back in (pickle.loads(pickle.dumps(error)), copy.copy(error), InvalidVersion(text, scheme)):
                self.assertEqual((back.place, back.reason, str(back)), (place, reason, str(error)))
            self.assertRaises(AttributeError, setattr, error, "place", 1)
            with self.assertRaises(InvalidVersion) as raised:
                versions.sorted(["1.0.0", text], scheme=scheme)
            self.assertEqual(str(raised.exception), str(error))

    def test_why_a_long_text_is_none(self):
        long = "1." * 1_000_000
        for scheme in SCHEMES:
            for end, reason in ((" ", "a blank"), ("é", "a character past ASCII"), ("\0", "a control character")):
                error = InvalidVersion(long + end, scheme)
                wanted = (2_000_000, reason) if scheme != "semver" else (5, "a character that can't stand there")
                self.assertEqual((error.place, error.reason), wanted)

    def test_one_made_by_hand_of_a_version(self):
        for scheme in SCHEMES:
            error = InvalidVersion("1.0.0", scheme)
            self.assertEqual((error.place, error.reason), (None, None))
            self.assertEqual(str(error), f"not a version{'' if scheme == 'mixed' else f' of {scheme}'}: '1.0.0'")
        error = InvalidVersion("1-", "of tomorrow")
        self.assertEqual((error.place, error.reason), (None, None))
        self.assertEqual(str(error), "not a version of of tomorrow: '1-'")

    def test_one_made_by_hand_names_any_scheme(self):
        error = InvalidVersionSet(">=1-", "of tomorrow")
        self.assertEqual((error.start, error.reason), (0, ""))
        self.assertEqual(str(error), "not a set of versions of of tomorrow: '>=1-'")
