"""What the extension does where an allocation fails or a status is none; and leaks.

`cc` compiles what these tests need beside the package: the extension over a library that returns what it is set to, and
hooks of Python's allocators.
"""

import copy
import ctypes
import gc
import importlib.util
import itertools
import operator
import os
import pickle
import sys
import unittest
from functools import partial

import arrow
import versions
from compiled import WithFolder, compiled
from counted import of_library
from test_calls import LIBRARY, Series

HERE = os.path.dirname(os.path.abspath(__file__))
sys.path.insert(0, os.path.join(HERE, "..", "..", "tests", "support"))
from calls import stand_ins  # noqa: E402

PACKAGE = os.path.join(HERE, "..", "versions")
SOURCES = [os.path.join(PACKAGE, name) for name in sorted(os.listdir(PACKAGE)) if name.endswith(".c")]


class FakeLibrary(WithFolder):
    @classmethod
    def setUpClass(cls):
        super().setUpClass()
        others = os.path.join(cls.folder, "others.c")
        with open(os.path.join(LIBRARY, "versions.h"), encoding="ascii") as header, open(others, "w") as written:
            written.write(stand_ins(header.read()))
        sources = *SOURCES, os.path.join(HERE, "fake_library.c"), others
        cls.path = compiled(cls.folder, "_library.so", "-DPy_LIMITED_API=0x03090000", *sources)
        cls.shared = ctypes.CDLL(cls.path)

    def setUp(self):
        self.set(status=0, number=0, form_status=0)
        self.set(type=ctypes.c_size_t, bound_len=4, room=0, form_len=0, place=0, key_bound=0)

    def set(self, type=ctypes.c_int, **values):
        for name, value in values.items():
            type.in_dll(self.shared, "fake_" + name).value = value

    def load(self):
        spec = importlib.util.spec_from_file_location("versions._library", self.path)
        module = importlib.util.module_from_spec(spec)
        spec.loader.exec_module(module)
        return module

    def test_the_version_is_that_of_the_library(self):
        self.assertEqual(self.load().__version__, "9.9.9")

    def test_statuses_that_no_call_should_return(self):
        module = self.load()
        version, wanted, made = module.Keyed("1.2"), module.Ranged("*"), module.Formed("*")
        made_of_deb = module.Formed("*", scheme="deb")
        self.set(status=99)
        calls = {
            "kind": lambda: module.kind("1"),
            "sort_key": lambda: module.sort_key("1"),
            "Keyed": lambda: module.Keyed("1"),
            "compare": lambda: module.compare("1", "2"),
            "compare_total": lambda: module.compare_total("1", "2"),
            "nth": lambda: module.nth("1", 0),
            "epoch": lambda: module.epoch("1"),
            "is_prerelease": lambda: module.is_prerelease("1"),
            "field": lambda: module.field("1", 4),
            "wrong_member": lambda: module.wrong_member("1"),
            "in_tag": lambda: module.in_tag("1", None),
            "in_tag after a prefix": lambda: module.in_tag("1", "v"),
            "stability": lambda: module.stability("1"),
            "conflict": lambda: module.conflict("*"),
            "why_not": lambda: wanted._why_not("1.2"),
            "why_not of a Version": lambda: wanted._why_not(version),
            "why_text": lambda: module.why_text("*", "1"),
            "difference": lambda: module.difference(version, "1"),
            "next": lambda: module.next("1", 0),
            "next_release": lambda: module.next_release("1"),
            "next_pre": lambda: module.next_pre("1", "rc"),
            "Ranged": lambda: module.Ranged("*"),
            "matches": lambda: wanted.matches(version),
            "matches a text": lambda: wanted.matches("1.2"),
            "in": lambda: "1.2" in wanted,
            "filter": lambda: wanted.filter(["1.2"]),
            "kinds": lambda: module.kinds(["1"]),
            "sort_keys": lambda: module.sort_keys(["1"]),
            "stabilities": lambda: module.stabilities(["1"]),
            "in_tags": lambda: module.in_tags(["1"]),
            "newest": lambda: module.newest(["1"], wanted),
            "newest of Versions": lambda: module.newest([version], wanted),
            "newest of any": lambda: module.newest(["1"]),
            "match_all": lambda: module.match_all(wanted, ["1"]),
            "match_all of a text": lambda: module.match_all("*", ["1"]),
            "sorted": lambda: module.sorted(["1"]),
            "a scheme": lambda: module.sort_key("1", scheme="any"[:1]),
            "sort_key in deb": lambda: module.sort_key("1", scheme="deb"),
            "Keyed in deb": lambda: module.Keyed("1", scheme="deb"),
            "compare in deb": lambda: module.compare("1", "2", scheme="deb"),
            "sort_keys in deb": lambda: module.sort_keys(["1"], scheme="deb"),
            "sorted in deb": lambda: module.sorted(["1"], scheme="deb"),
            "newest in deb": lambda: module.newest(["1"], scheme="deb"),
            "newest in deb in a set": lambda: module.newest(["1"], made_of_deb, scheme="deb"),
            "Formed in deb": lambda: module.Formed("*", scheme="deb"),
            "Formed.of in deb": lambda: module.Formed.of("1", scheme="deb"),
            "in a set in deb": lambda: "1" in made_of_deb,
            "wrong_set in deb": lambda: module.wrong_set("1", "deb"),
            "wrong_version in deb": lambda: module.wrong_version("1", "deb"),
            "the names of schemes": self.load,
            "Formed": lambda: module.Formed("*"),
            "Formed.of": lambda: module.Formed.of("1"),
            "Formed of a form": lambda: module.Formed._of_form(b"form", None, None),
            "wrong_set": lambda: module.wrong_set("1", "mixed"),
            "wrong_version": lambda: module.wrong_version("1", "mixed"),
            "in a set": lambda: "1" in made,
            "bool of a set": lambda: bool(made),
            "intervals": lambda: made.intervals,
            "and": lambda: made & made,
            "or": lambda: made | made,
            "not": lambda: ~made,
            "part of": lambda: made <= made,
            "has part": lambda: made >= made,
            "isdisjoint": lambda: made.isdisjoint(made),
            "filter by a set": lambda: made.filter(["1"]),
            "match_all of a set": lambda: module.match_all(made, ["1"]),
            "newest of a set": lambda: module.newest(["1"], made),
            "newest of a set in tags": lambda: module.newest(["1"], made, tags=True),
        }
        for status in (99, -10, 10):
            self.set(status=status)
            for name, call in calls.items():
                with self.subTest(name):
                    self.assertRaisesRegex(RuntimeError, f"returned status {status}$", call)
        self.set(status=7)
        for named in ({}, {"scheme": "deb"}):
            self.assertRaisesRegex(RuntimeError, "returned status 7$", lambda: module.sort_key("1", **named))
            self.assertRaisesRegex(RuntimeError, "returned status 7$", lambda: module.sort_keys(["1"], **named))
        self.assertRaisesRegex(RuntimeError, "returned status 7$", module.next, "1", 0)
        self.assertRaisesRegex(RuntimeError, "returned status 7$", module.next_pre, "1", None)
        self.set(type=ctypes.c_size_t, bound_len=600)
        self.assertRaisesRegex(RuntimeError, "returned status 7$", module.Ranged, "*")
        self.set(status=0, number=9)
        for call in (calls["kinds"], calls["match_all"], calls["stabilities"]):
            self.assertRaisesRegex(RuntimeError, "returned status 9$", call)

    def test_a_form_takes_no_more_than_its_length(self):
        module = self.load()
        for room, size in ((0, 0), (1, 1), (1000, 3), (1_000_000, 999_999), (100_000_000, 5)):
            self.set(type=ctypes.c_size_t, room=room, form_len=size)
            self.assertEqual(module.Formed("*")._form, b"\7" * size)
        for room in (2**64 - 1, 2**63, 2**63 - 1):
            self.set(type=ctypes.c_size_t, room=room)
            self.assertRaises(MemoryError, module.Formed, "*")

    def test_the_place_of_what_is_wrong_is_counted_in_characters(self):
        module = self.load()
        text = "a\tö\ud800\U0001f600z"
        for place in range(len(text) + 1):
            self.set(type=ctypes.c_size_t, place=len(text[:place].encode("utf-8", "surrogatepass")))
            for call in (module.wrong_set, module.wrong_version):
                self.assertEqual(call(text, "mixed"), (place, "!" * 100))
        for right, other, call in ((12, 23, module.wrong_set), (23, 12, module.wrong_version)):
            self.set(status=right)
            self.assertIsNone(call(text, "deb"))
            self.set(status=other)
            self.assertRaisesRegex(RuntimeError, f"returned status {other}$", call, text, "deb")

    def test_statuses_of_sets(self):
        module = self.load()
        for status in (19, 20):
            self.set(status=status)
            self.assertRaisesRegex(ValueError, "not the form of a set", module.Formed._of_form, b"", None, None)
        self.set(status=18)
        self.assertRaises(versions.InvalidVersionSet, module.Formed, "*")

    def test_the_scheme_of_a_form(self):
        module = self.load()
        for status in (99, -10):
            self.set(form_status=status)
            self.assertRaisesRegex(RuntimeError, f"returned status {status}$", module.Formed._of_form, b"", None, None)

    def test_the_names_of_schemes(self):
        module = self.load()
        self.assertEqual(module.SCHEMES, ("mixed", "deb"))
        words = "a scheme is one of mixed, deb, and this is 'none'$"
        self.assertRaisesRegex(ValueError, words, lambda: module.sort_key("1", scheme="none"))
        self.assertEqual([module.Keyed("1", scheme=name).scheme for name in module.SCHEMES], ["mixed", "deb"])

    def test_keys_take_the_room_that_the_library_asks_for(self):
        module = self.load()
        for scheme, bound in itertools.product(("mixed", "deb"), (0, 1, 9, 100_000)):
            self.set(type=ctypes.c_size_t, key_bound=bound)
            keys = module.sort_keys(["1", "", "22"], scheme=scheme)
            self.assertEqual(keys, [b"\b" * bound or None] * 3)
            self.assertEqual(module.newest(["1"], scheme="deb"), "1" if bound else None)
        for bound in (2**64 - 1, 2**63, 2**63 - 1, 2**62):
            self.set(type=ctypes.c_size_t, key_bound=bound)
            for call in (module.sort_keys, module.sorted, module.newest):
                self.assertRaises(MemoryError, lambda: call(["1", "2"], scheme="deb"))

    def test_bounds_that_need_more_room(self):
        module = self.load()
        for size in (0, 1, 512, 513, 1_000_000):
            self.set(type=ctypes.c_size_t, bound_len=size)
            wanted = module.Ranged("*")
            self.assertEqual((wanted.low, wanted.high), (b"\0" * size, b"\xff" * size))

    def test_what_is_asked_of_an_exact_range_and_of_any_other(self):
        module = self.load()
        self.set(type=ctypes.c_size_t, bound_len=2)
        # The flags, and what is asked about one text and about many: 16 is an exact range, 8 a high bound.
        for flags, one, many in ((7, "list", "list"), (3 | 16, "range", "list"), (7 | 16 | 8, "range", "range")):
            self.set(type=ctypes.c_uint32, flags=flags)
            version, wanted = module.Keyed("1.2"), module.Ranged("*")
            self.assertEqual((wanted.low, wanted.high), (b"\0\0", b"\xff\xff" if flags & 8 else None))
            # The fake version is general, and its key is in the range: only a range that is not exact asks about it.
            for call, told in ((wanted.matches, one), (wanted.__contains__, one), (lambda v: wanted.filter([v]), many)):
                for given, asked in ((version, None if flags & 16 else told), ("1.2", told)):
                    self.set(type=ctypes.c_char_p, asked=None)
                    call(given)
                    found = ctypes.c_char_p.in_dll(self.shared, "fake_asked").value
                    self.assertEqual(found, asked and asked.encode(), (flags, given))
            if flags & 16:
                self.assertTrue(wanted.matches(version) and version in wanted and wanted.filter([version]))


class Slotted(versions.Version):
    __slots__ = ("place",)


SLOTTED = Slotted("1.2")
SLOTTED.place = [1]


class Odd:
    def __repr__(self):
        return "odd"


LONG, LONG_DEB = "1_" * 2000 + "1", "1." * 2000 + "1~rc1"
MINE = type("Mine", (versions.Version,), {})
WANTED, STRICT = versions.Requirement("^1.2"), versions.Requirement("^1.2.3")


PLAIN = versions.Version("1.2")
EPOCH = versions.Version("1:2.7777-3")
library = versions._library
SET, OTHER_SET = versions.VersionSet("^1.2 || =3"), versions.VersionSet("<1.5")
MINE_SET = type("MineSet", (versions.VersionSet,), {})
DEB, DEB_SET = versions.Version("1:1.0~rc1-1", scheme="deb"), versions.VersionSet("<1.0 || >=2", scheme="deb")
LONG_SET = versions.VersionSet(f">={LONG}")

# Functions of the extension and what they are called with. They are called without a function of Python between: one
# whose traceback can't be allocated makes a SystemError of every error, in Python 3.11 and later.
CALLS = {
    "kind": partial(versions.kind, "1.2.3"),
    "kind of a surrogate": partial(versions.kind, "\ud800"),
    "kind of no text": partial(versions.kind, Odd()),
    "sort_key": partial(versions.sort_key, "1.2.3"),
    "sort_key, long": partial(versions.sort_key, LONG),
    "sort_key of no version": partial(versions.sort_key, "1..2"),
    "compare": partial(versions.compare, "1.2", "1.3"),
    "compare_total by names": partial(versions.compare_total, a="1.2", b="1.3"),
    "compare of no version": partial(versions.compare, "1.2", "1..3"),
    "compare of no text": partial(versions.compare, "1.2", 3),
    "Version": partial(versions.Version, "1.2.3"),
    "Version of a subclass of str": partial(versions.Version, type("Text", (str,), {})("1.2.3")),
    "subclass of Version": partial(MINE, "1.2"),
    "Version of no version": partial(versions.Version, "1..2"),
    "comparison": partial(operator.lt, PLAIN, MINE("1.3")),
    "comparison with a text": partial(operator.eq, PLAIN, "1.2"),
    "str": partial(str, PLAIN),
    "hash": partial(hash, PLAIN),
    "nth": partial(library.nth, EPOCH._text, 1),
    "nth below 0": partial(library.nth, "1.2", -1),
    "nth of no number": partial(library.nth, "1.2", 7),
    "epoch": partial(library.epoch, "70000:1"),
    "is_prerelease": partial(library.is_prerelease, "1.2.3-1"),
    "is_prerelease of no version": partial(library.is_prerelease, "1..3"),
    "field": partial(library.field, "1.2.3-rc.1", library.PRE_RELEASE),
    "field that is not there": partial(library.field, "1.2.3-rc.1", library.METADATA),
    "field of no version": partial(library.field, "1..3", library.METADATA),
    "in_tag": partial(library.in_tag, "release-1.2", None),
    "in_tag of a Version": partial(library.in_tag, versions.Version("v1.2"), None),
    "in_tag of none": partial(library.in_tag, "latest", None),
    "in_tag of no text": partial(library.in_tag, Odd(), None),
    "in_tag after a prefix": partial(library.in_tag, "go1.2", "go"),
    "in_tag after a prefix that is none": partial(library.in_tag, "go1.2", 3),
    "in_tag after another prefix": partial(library.in_tag, versions.Version("go1.2"), "x"),
    "stability": partial(library.stability, "1.2.3-1"),
    "stability of no version": partial(library.stability, "1..3"),
    "difference": partial(library.difference, PLAIN, "1.3"),
    "difference of no version": partial(library.difference, PLAIN, "1..3"),
    "difference of no text": partial(library.difference, PLAIN, 3),
    "next": partial(library.next, "1.2.3", 1),
    "next, long": partial(library.next, "1." * 2000 + "1", 0),
    "next of none": partial(library.next, "1.2rc1", 0),
    "next of no version": partial(library.next, "1..2", 0),
    "next below 0": partial(library.next, "1.2", -1),
    "next release": partial(library.next_release, "1.2.3"),
    "next release, long": partial(library.next_release, "1." * 2000 + "1"),
    "next release of none": partial(library.next_release, "1.2rc1"),
    "next pre-release": partial(library.next_pre, "1.2.3", "rc"),
    "next pre-release of its own word": partial(library.next_pre, "1.2.3-rc.1", None),
    "next pre-release, long": partial(library.next_pre, "1.2.3", "a" * 2000),
    "next pre-release of none": partial(library.next_pre, "1.2.3", None),
    "next pre-release of no word": partial(library.next_pre, "1.2.3", 1),
    "kind of a Version": partial(operator.attrgetter("kind"), PLAIN),
    "call of kind with a Version": partial(versions.kind, PLAIN),
    "sort_key of a Version": partial(versions.sort_key, PLAIN),
    "compare of Versions": partial(versions.compare, PLAIN, EPOCH),
    "Version of a Version": partial(versions.Version, PLAIN),
    "wrong_member": partial(library.wrong_member, "^1.2, <2"),
    "wrong_member with a surrogate": partial(library.wrong_member, "^1.2,\ud800é"),
    "wrong_member of a requirement": partial(library.wrong_member, "^1.2"),
    "Requirement": partial(versions.Requirement, "^1.2"),
    "Requirement without a high bound": partial(versions.Requirement, ">1.2"),
    "Requirement of a subclass of str": partial(versions.Requirement, type("Text", (str,), {})("^1.2")),
    "Requirement, long": partial(versions.Requirement, f">={LONG},<{LONG}"),
    "Requirement of no requirement": partial(versions.Requirement, "1.2"),
    "Requirement of no text": partial(versions.Requirement, 3),
    "matches": partial(WANTED.matches, "1.3"),
    "matches by names": partial(WANTED.matches, version="1.3"),
    "matches a Version": partial(WANTED.matches, PLAIN),
    "matches by an exact range": partial(STRICT.matches, "1.3"),
    "matches no version": partial(WANTED.matches, "1..3"),
    "matches no text": partial(WANTED.matches, 3),
    "in": partial(operator.contains, WANTED, "1..3"),
    "why_not": partial(WANTED._why_not, "1.1"),
    "why_not of a Version": partial(WANTED._why_not, EPOCH),
    "why_not of a Version by an exact range": partial(STRICT._why_not, PLAIN),
    "why_not of a subclass of str": partial(STRICT._why_not, type("Text", (str,), {})("1.2")),
    "why_not of what matches": partial(WANTED._why_not, "1.3"),
    "why_not of a Version that matches": partial(STRICT._why_not, versions.Version("1.3.0")),
    "why_not of no version": partial(WANTED._why_not, "1..3"),
    "why_not of no text": partial(WANTED._why_not, 3),
    "why_text": partial(library.why_text, ">=1.5", "1.4"),
    "why_text of what matches": partial(library.why_text, ">=1.5", "1.6"),
    "why_text of no requirement": partial(library.why_text, "1.5", "1.6"),
    "why_text of no version": partial(library.why_text, ">=1.5", "1..6"),
    "why_text of no text": partial(library.why_text, 3, "1.6"),
    "conflict": partial(library.conflict, ">=1.2,*,<1.0"),
    "conflict of none": partial(library.conflict, "^1.2"),
    "conflict of no requirement": partial(library.conflict, "1.2"),
    "filter": partial(WANTED.filter, ["1.2", PLAIN, None, "1..2", LONG]),
    "filter by an exact range": partial(STRICT.filter, ["1.2.3", PLAIN, None, "1..2", LONG]),
    "filter of many": partial(WANTED.filter, ["1.2.3" * 10] * 200),
    "filter of no text": partial(WANTED.filter, ["1.2", Odd()]),
    "filter of one": partial(WANTED.filter, "1.2"),
    "kinds": partial(versions.kinds, ["1.2", None, PLAIN, "\ud800", float("nan")]),
    "kinds of many": partial(versions.kinds, ["1.2.3" * 10] * 200),
    "kinds of no text": partial(versions.kinds, ["1.2", Odd()]),
    "sort_keys": partial(versions.sort_keys, ["1.2", None, "1..2", LONG]),
    "match_all": partial(versions.match_all, "^1.2", ["1.2", None, "1..2"]),
    "match_all by an exact range": partial(versions.match_all, STRICT, ["1.2", None, "1..2"]),
    "match_all of no requirement": partial(versions.match_all, "1.2", ["1.2"]),
    "stabilities": partial(versions.stabilities, ["1.2", None, PLAIN, "1.0rc1", "1..2"]),
    "stabilities of no text": partial(versions.stabilities, ["1.2", Odd()]),
    "in_tags": partial(versions.in_tags, ["v1.2", None, PLAIN, "latest", "\ud800", LONG]),
    "in_tags of no text": partial(versions.in_tags, ["1.2", Odd()]),
    "newest": partial(versions.newest, ["1.3", PLAIN, None, LONG, "1..2"]),
    "newest of Versions": partial(versions.newest, [PLAIN, EPOCH], "=1.2"),
    "newest of Versions by an exact range": partial(versions.newest, [PLAIN, EPOCH], STRICT),
    "newest with all": partial(versions.newest, ["v1.3", PLAIN], ">=1", versions.Stability.RC, tags=True),
    "newest of none": partial(versions.newest, ["1..2", PLAIN], "<0"),
    "newest of no requirement": partial(versions.newest, ["1.2"], "1"),
    "newest of no text": partial(versions.newest, ["1.2", Odd()]),
    "newest of one": partial(versions.newest, "1.2"),
    "newest by a key": partial(versions.newest, [["1.3"], [LONG], [None], ["1..2"]], key=operator.itemgetter(0)),
    "newest by a key of none": partial(versions.newest, [["1..3"]], key=operator.itemgetter(0)),
    "newest by a key of no text": partial(versions.newest, [["1.3"], [Odd()]], key=operator.itemgetter(0)),
    "newest by a key that fails": partial(versions.newest, [["1.3"], []], key=operator.itemgetter(0)),
    "newest of a set": partial(versions.newest, ["1.3", PLAIN, None, LONG, "1..2"], SET),
    "newest of a set in tags": partial(versions.newest, ["v1.3", PLAIN, None, "x", LONG], SET, tags=True),
    "newest of an empty set": partial(versions.newest, ["1.3"], SET & ~SET),
    "VersionSet": partial(versions.VersionSet, ">=1.2, <2 || ^3"),
    "VersionSet by its name": partial(versions.VersionSet, text="*"),
    "VersionSet of a subclass of str": partial(versions.VersionSet, type("Text", (str,), {})("^1.2")),
    "VersionSet, long": partial(versions.VersionSet, f">={LONG} || <1"),
    "subclass of VersionSet": partial(MINE_SET, "^1.2"),
    "VersionSet of no set": partial(versions.VersionSet, "1.2"),
    "VersionSet of a surrogate": partial(versions.VersionSet, ">=\ud800"),
    "VersionSet of no text": partial(versions.VersionSet, Odd()),
    "VersionSet.of": partial(versions.VersionSet.of, "1.2"),
    "VersionSet.of a Version": partial(MINE_SET.of, version=EPOCH),
    "VersionSet.of, long": partial(versions.VersionSet.of, LONG),
    "VersionSet of a VersionSet": partial(versions.VersionSet, OTHER_SET),
    "VersionSet of a computed one": partial(MINE_SET, ~SET),
    "VersionSet.of no version": partial(versions.VersionSet.of, "1..2"),
    "VersionSet.of no text": partial(versions.VersionSet.of, Odd()),
    "VersionSet of a form": partial(versions.VersionSet._of_form, SET._form, "text", "version"),
    "VersionSet of a form alone": partial(MINE_SET._of_form, LONG_SET._form, None, None),
    "VersionSet of no form": partial(versions.VersionSet._of_form, SET._form[:-1], None, None),
    "VersionSet of no bytes": partial(versions.VersionSet._of_form, "text", None, None),
    "VersionSet of a form and no text": partial(versions.VersionSet._of_form, SET._form, 3, None),
    "wrong_set": partial(library.wrong_set, ">=1.2, 2", "mixed"),
    "wrong_set of a surrogate": partial(library.wrong_set, ">=1.2, \ud800é", "deb"),
    "wrong_set of a set": partial(library.wrong_set, ">=1.2", "mixed"),
    "wrong_set of no text": partial(library.wrong_set, 3, "mixed"),
    "wrong_set in no scheme": partial(library.wrong_set, ">=1.2", "dpkg"),
    "wrong_version": partial(library.wrong_version, "1.2-", "mixed"),
    "wrong_version of a surrogate": partial(library.wrong_version, "1.2\ud800é", "deb"),
    "wrong_version of a version": partial(library.wrong_version, "1.2", "mixed"),
    "wrong_version of no text": partial(library.wrong_version, 3, "mixed"),
    "wrong_version in no scheme": partial(library.wrong_version, "1-", "dpkg"),
    "and": partial(operator.and_, SET, OTHER_SET),
    "and of a subclass": partial(operator.and_, MINE_SET("*"), LONG_SET),
    "or": partial(operator.or_, SET, LONG_SET),
    "not": partial(operator.invert, LONG_SET),
    "order of sets": partial(operator.le, SET, OTHER_SET),
    "equal sets": partial(operator.eq, SET, OTHER_SET),
    "a set and a text": partial(operator.ne, SET, "1.2"),
    "hash of a set": partial(hash, SET),
    "bool of a set": partial(bool, SET),
    "intervals": partial(operator.attrgetter("intervals"), SET | LONG_SET),
    "isdisjoint": partial(SET.isdisjoint, OTHER_SET),
    "isdisjoint of no set": partial(SET.isdisjoint, Odd()),
    "in a set": partial(operator.contains, SET, "1.3"),
    "a Version in a set": partial(operator.contains, SET, EPOCH),
    "in a set, no version": partial(operator.contains, SET, "1..3"),
    "in a set, no text": partial(operator.contains, SET, Odd()),
    "match_all of a set": partial(versions.match_all, SET, ["1.2", None, "1..2", PLAIN, LONG]),
    "match_all of a set, no text": partial(versions.match_all, SET, ["1.2", Odd()]),
    "filter by a set": partial(SET.filter, ["1.2", PLAIN, None, "1..2", LONG]),
    "filter of many by a set": partial(SET.filter, ["1.2.3" * 10] * 200),
    "filter by a set, no text": partial(SET.filter, ["1.2", Odd()]),
    "filter by a set, one": partial(SET.filter, versions="1.2"),
    "sorted": partial(versions.sorted, ["1.3", "1.2", LONG]),
    "sorted in reverse": partial(versions.sorted, ["1.3", "1..2", LONG], reverse=True, invalid="last"),
    "sorted with missing values": partial(versions.sorted, [None, "1.2", float("nan")], invalid="last"),
    "sorted by a key": partial(versions.sorted, [["1.3"], [LONG]], key=operator.itemgetter(0), reverse=True),
    "sorted by a key of no version": partial(versions.sorted, [["1.3"], ["1..2"]], key=operator.itemgetter(0)),
    "sorted by a key that fails": partial(versions.sorted, [["1.3"], []], key=operator.itemgetter(0)),
    "sorted of a wrong name": partial(versions.sorted, ["1.3"], invalid="first"),
    "sorted of no version": partial(versions.sorted, ["1.2", PLAIN, "1..2"]),
    "sorted of no text": partial(versions.sorted, ["1.2", None]),
    "sorted of one": partial(versions.sorted, "1.2"),
    "sorted in deb": partial(versions.sorted, ["1.0", DEB, LONG_DEB, "1-"], scheme="deb", invalid="last", reverse=True),
    "sorted in deb of no version": partial(versions.sorted, ["1.0", "1-"], scheme="deb"),
    "sort_key in deb": partial(versions.sort_key, "1.0~rc1", scheme="deb"),
    "sort_key in deb, long": partial(versions.sort_key, LONG_DEB, scheme="deb"),
    "sort_key in deb of no version": partial(versions.sort_key, "1-", scheme="deb"),
    "sort_key in no scheme": partial(versions.sort_key, "1", scheme="dpkg"),
    "sort_key in what is no text": partial(versions.sort_key, "1", scheme=Odd()),
    "sort_key of another scheme": partial(versions.sort_key, DEB),
    "sort_keys in deb": partial(versions.sort_keys, ["1.0", DEB, None, "1-", LONG_DEB], scheme="deb"),
    "sort_keys of another scheme": partial(versions.sort_keys, [DEB]),
    "compare in deb": partial(versions.compare, "1.0", DEB, scheme="deb"),
    "compare in deb of no version": partial(versions.compare, "1.0", "1-", scheme="deb"),
    "compare of two schemes": partial(versions.compare, PLAIN, DEB),
    "newest in deb": partial(versions.newest, ["1.0", DEB, None, "1-", LONG_DEB], scheme="deb"),
    "newest in deb in a set": partial(versions.newest, ["1.0", DEB, None, "1-"], DEB_SET, scheme="deb"),
    "newest in deb in a text": partial(versions.newest, ["1.0", DEB, None, "1-"], ">1", scheme="deb"),
    "newest in deb in no set": partial(versions.newest, ["1.0"], ">1-", scheme="deb"),
    "newest in deb by a key": partial(versions.newest, [["1.0"], [DEB], ["1-"]], key=operator.itemgetter(0), scheme="deb"),
    "newest in deb of none": partial(versions.newest, ["1-"], scheme="deb"),
    "newest in deb of tags": partial(versions.newest, ["1.0"], tags=True, scheme="deb"),
    "newest in a set of another scheme": partial(versions.newest, ["1.0"], DEB_SET),
    "Version in deb": partial(versions.Version, "1.0-1", scheme="deb"),
    "Version in deb of a Version": partial(MINE, DEB, scheme="deb"),
    "Version in deb of no version": partial(versions.Version, "1-", scheme="deb"),
    "Version in no scheme": partial(versions.Version, "1", scheme="dpkg"),
    "comparison in deb": partial(operator.lt, DEB, DEB),
    "comparison of two schemes": partial(operator.lt, PLAIN, DEB),
    "equality of two schemes": partial(operator.eq, PLAIN, DEB),
    "scheme": partial(operator.attrgetter("scheme"), DEB),
    "kind in deb": partial(operator.attrgetter("kind"), DEB),
    "text of mixed in deb": partial(operator.attrgetter("_mixed"), DEB),
    "matches another scheme": partial(STRICT.matches, DEB),
    "VersionSet in deb": partial(versions.VersionSet, ">=1.0~rc1, <2 || =3", scheme="deb"),
    "VersionSet in deb of no set": partial(versions.VersionSet, ">=1-", scheme="deb"),
    "VersionSet.of in deb": partial(MINE_SET.of, DEB, scheme="deb"),
    "VersionSet.of another scheme": partial(versions.VersionSet.of, DEB, scheme="rpm"),
    "VersionSet of another scheme": partial(versions.VersionSet, DEB_SET, scheme="rpm"),
    "VersionSet of a form in deb": partial(versions.VersionSet._of_form, DEB_SET._form, None, None),
    "scheme of a set": partial(operator.attrgetter("scheme"), DEB_SET),
    "not in deb": partial(operator.invert, DEB_SET),
    "and of two schemes": partial(operator.and_, SET, DEB_SET),
    "order of sets of two schemes": partial(operator.le, SET, DEB_SET),
    "isdisjoint of two schemes": partial(DEB_SET.isdisjoint, SET),
    "in a set in deb": partial(operator.contains, DEB_SET, DEB),
    "in a set of another scheme": partial(operator.contains, DEB_SET, PLAIN),
    "in a set in deb, no version": partial(operator.contains, DEB_SET, "1-"),
    "filter by a set in deb": partial(DEB_SET.filter, ["1.0~", DEB, None, "1-", LONG_DEB]),
    "match_all of a set in deb": partial(versions.match_all, DEB_SET, ["1.0~", DEB, None, "1-", LONG_DEB]),
}


def failing_midway():
    def texts():
        yield "1.2"
        raise OSError("midway")

    return versions.kinds(texts())


class BadSeries(Series):
    """A Series that can't be made again."""

    _constructor = 5


# Through functions of Python.
PYTHON_CALLS = {
    "parts": lambda: (EPOCH.epoch, EPOCH.major, EPOCH.is_prerelease, EPOCH.kind, EPOCH.release, repr(EPOCH)),
    "pickle": lambda: pickle.loads(pickle.dumps(MINE("1.2").__reduce__()[:2][1])),
    "pickle of slots": lambda: pickle.loads(pickle.dumps(SLOTTED)).place,
    "why not": lambda: (str(WANTED.why_not("1.1")), WANTED.why_not(PLAIN), versions.Requirement("<1,>1").conflict),
    "what changed": lambda: (str(PLAIN.difference("1.3")), PLAIN.difference(EPOCH), PLAIN.next(0), PLAIN.next(9)),
    "tags": lambda: (versions.Version.from_tag("v1.2"), MINE.from_tag("go1.2", "go").stability),
    "range": lambda: (WANTED.range, pickle.loads(pickle.dumps(WANTED)).low, WANTED == STRICT, hash(WANTED)),
    "sets": lambda: (str(SET), str(~SET), repr(SET & LONG_SET), repr(MINE_SET.of(PLAIN)), f"{SET:>30}"),
    "pickles of sets": lambda: [pickle.loads(pickle.dumps(each)) for each in (SET, ~SET, MINE_SET.of(PLAIN))],
    "copies of sets": lambda: [copy.deepcopy(each) for each in (SET, ~SET, MINE_SET("*"))],
    "has_all": lambda: SET.has_all(["1.2", None, "1..2", PLAIN]),
    "all and nothing": lambda: (MINE_SET.all("deb"), versions.VersionSet.empty()),
    "union": lambda: versions.VersionSet.union([SET, OTHER_SET, LONG_SET]),
    "union of no set": lambda: versions.VersionSet.union([SET, "*"]),
    "difference of sets": lambda: (SET - OTHER_SET, SET ^ OTHER_SET),
    "has_all of a Series": lambda: SET.has_all(Series(["1.2", None, "1..2", PLAIN], "abcd")).texts,
    "sort_keys of a Series": lambda: versions.sort_keys(Series(["1.2", None], "ab")).texts,
    "kinds of a Series that fails": lambda: versions.kinds(BadSeries(["1.2"], "a")),
    "no set": lambda: str(versions.InvalidVersionSet(">=1.2 | 3")),
    "no version": lambda: str(versions.InvalidVersion("1..2")),
    "no version in deb": lambda: (versions.InvalidVersion("1-", "deb").place, versions.InvalidVersion("1-", "deb").reason),
    "no version in a tag": lambda: versions.Version.from_tag("go1.2"),
    "in deb": lambda: (repr(DEB), repr(DEB_SET), repr(~DEB_SET), str(versions.InvalidVersionSet(">=1-", "deb"))),
    "pickles in deb": lambda: [pickle.loads(pickle.dumps(each)) for each in (DEB, MINE(DEB, scheme="deb"), ~DEB_SET)],
    "no parts in deb": lambda: DEB.epoch,
    "no method in deb": lambda: DEB.next,
    "newest of a name": lambda: versions.newest(["1.2", "1.3rc1"], stability="stable"),
    "newest of no stability": lambda: versions.newest(["1.2"], stability=7),
    "kinds of what fails": failing_midway,
    "kinds of what can't be iterated": lambda: versions.kinds(5),
}


def array(**changed):
    return arrow.Array([b"1.2", None, b"1.3"], b"u", **changed)


# What the stand-in for a producer allocates is not the extension's, and so no allocation fails here.
ARROW_CALLS = {
    "array": lambda: versions.kinds(array()),
    "array in a set": lambda: SET.has_all(array()),
    "array's keys": lambda: versions.sort_keys(array()),
    "array's stabilities": lambda: versions.stabilities(array()),
    "array's versions in tags": lambda: versions.in_tags(array()),
    "array with a bad length": lambda: versions.kinds(array(length=-1)),
    "array of another type": lambda: versions.kinds(arrow.Array([b"1"], b"l")),
    "stream": lambda: versions.kinds(arrow.Stream(array(), array(), format=b"u")),
    "stream that fails": lambda: versions.kinds(arrow.Stream(array(), format=b"u", error_at=2)),
    "stream with a bad length": lambda: versions.kinds(arrow.Stream(array(), array(length=-1), format=b"u")),
    "stream of another type": lambda: versions.kinds(arrow.Stream(format=b"l")),
    "views": lambda: versions.kinds(arrow.Views([b"1.2", None, b"1" * 99])),
    "views with a bad length": lambda: versions.kinds(arrow.Views([b"1.2"], length=-1)),
    "array of another type with items": lambda: versions.kinds(Items([b"1"], b"l")),
    "array of another type with items that fail": lambda: versions.kinds(BadItems([b"1"], b"l")),
}


class Items(arrow.Array):
    def __iter__(self):
        return iter(["1.2", None])


class BadItems(arrow.Array):
    def __iter__(self):
        return iter(["1.2", 5])


def outcome(call):
    """What a call returns, or what it raises and with which words."""
    try:
        return call()
    except Exception as error:
        return type(error), str(error)


class Allocations(WithFolder):
    @classmethod
    def setUpClass(cls):
        super().setUpClass()
        path = compiled(cls.folder, "allocations.so", os.path.join(HERE, "allocations.c"))
        cls.hooks = ctypes.PyDLL(path)
        cls.hooks.call_failing.restype = ctypes.py_object
        cls.hooks.call_failing.argtypes = ctypes.py_object, ctypes.c_long, ctypes.POINTER(ctypes.c_int)
        cls.hooks.blocks_held.restype = ctypes.c_long
        cls.hooks.watch()
        cls.addClassCleanup(cls.hooks.unwatch)
        # A collection then goes through what the calls made, and not through all that was imported.
        gc.collect()
        gc.freeze()
        cls.addClassCleanup(gc.unfreeze)

    def leaks(self, repeated, times=100):
        """Whether memory grows by a block each time a call is made. What Python caches grows once in a while."""
        for _ in range(4):
            gc.collect()
            before = self.hooks.blocks_held()
            for _ in range(times):
                repeated()
            gc.collect()
            if self.hooks.blocks_held() - before < times / 2:
                return False
        return True

    def test_an_allocation_that_fails_is_a_memory_error(self):
        reached = ctypes.c_int()
        for name, call in CALLS.items():
            wanted, at, failed = outcome(call), 0, 0
            reached.value = True
            while reached.value:
                def failing():
                    return self.hooks.call_failing(call, at, ctypes.byref(reached))

                with self.subTest(name, at=at):
                    found = outcome(failing)
                    failed += found != wanted
                    # What Python caches need not be there.
                    self.assertTrue(found == wanted or found[0] is MemoryError, found)
                    self.assertFalse(self.leaks(lambda: outcome(failing)))
                at += 1
            # What allocates nothing can't fail.
            self.assertTrue(failed > 0 or at == 1 or name in ("comparison with a text", "a set and a text"), name)

    def test_nothing_leaks(self):
        for name, call in {**CALLS, **PYTHON_CALLS, **ARROW_CALLS}.items():
            with self.subTest(name):
                def repeated():
                    outcome(call)
                    arrow.made.clear(), arrow.released.clear(), arrow.kept.clear()

                self.assertFalse(self.leaks(repeated))

    def test_references_are_kept(self):
        inputs = ["1.2.3-" + "a" * 9, "1..2" + "." * 9, MINE("1.2.4"), versions.Version("1.3"), "1.9-" + "b" * 9]
        held = [*inputs, versions.Version, MINE, versions.kind("1.2.3"), versions.InvalidVersion]
        # Python 3.12 and later doesn't count these, and what is built for older ones does.
        held += [None, True, False] if sys.version_info < (3, 12) else []
        held += [DEB, DEB_SET, DEB_SET._form, DEB.key, versions.SCHEMES]
        held += [SET, OTHER_SET, SET._form, versions.VersionSet, MINE_SET, versions.InvalidVersionSet]

        def work():
            text, wrong, mine, plain, other = inputs
            for call in (
                lambda: versions.kind(text),
                lambda: versions.sort_key(text),
                lambda: versions.sort_key(wrong),
                lambda: versions.compare(text, wrong),
                lambda: versions.Version(text) < mine < plain,
                lambda: (mine == text, mine != None),  # noqa: E711
                lambda: versions.kinds([*inputs, None]),
                lambda: versions.sort_keys([*inputs, None]),
                lambda: versions.match_all("*", [*inputs, None]),
                lambda: (plain.difference(text), plain.difference(mine), plain.next(0), mine.next(0)),
                lambda: (WANTED.why_not(text), WANTED.why_not(mine), STRICT.why_not(plain), STRICT.why_not(mine)),
                lambda: (versions.Requirement(f">{text},<1").conflict, WANTED.conflict),
                lambda: STRICT.why_not(wrong),
                lambda: plain.difference(wrong),
                lambda: plain.next(9),
                lambda: versions.stabilities([*inputs, None]),
                lambda: versions.in_tags([*inputs, None]),
                lambda: versions.newest([*inputs, None]),
                lambda: versions.newest(inputs, STRICT, tags=True),
                lambda: versions.newest([mine, plain], WANTED),
                lambda: versions.newest([[text], [mine], [None]], key=operator.itemgetter(0)),
                lambda: versions.newest([text, 5], key=lambda item: wrong),
                lambda: (SET.has_all(Series([*inputs, None], "")), versions.kinds(Series(inputs, mine))),
                lambda: MINE.from_tag(text),
                lambda: MINE.from_tag(mine),
                lambda: versions.Version.from_tag(wrong, text),
                lambda: versions.sorted([text, mine, plain, other]),
                lambda: versions.sorted(inputs),
                lambda: versions.sorted(inputs, reverse=True, invalid="last"),
                lambda: WANTED.filter([*inputs, None]),
                lambda: STRICT.filter([*inputs, None]),
                lambda: (WANTED.matches(mine), STRICT.matches(mine), mine in STRICT, wrong in STRICT),
                lambda: versions.match_all(STRICT, inputs),
                lambda: versions.Requirement(f">={text}"),
                lambda: WANTED.matches(wrong),
                lambda: (versions.VersionSet.of(text), MINE_SET.of(mine), versions.VersionSet(f">={text}").intervals),
                lambda: [SET & OTHER_SET, SET | OTHER_SET, ~SET, SET <= OTHER_SET, SET > OTHER_SET, SET == text],
                lambda: (text in SET, mine in SET, SET.isdisjoint(OTHER_SET), SET.filter([*inputs, None])),
                lambda: wrong in SET,
                lambda: versions.VersionSet(wrong),
                lambda: SET.isdisjoint(text),
                lambda: SET & text,
                lambda: SET.has_all([*inputs, None]),
                lambda: (versions.newest(inputs, SET), versions.newest([*inputs, None], SET, tags=True)),
                lambda: (pickle.loads(pickle.dumps(~SET)), copy.copy(SET), copy.copy(MINE_SET(">=1"))),
                lambda: (versions.sort_key(text, scheme="deb"), versions.compare(text, other, scheme="deb")),
                lambda: versions.sorted([text, other, DEB], scheme="deb"),
                lambda: versions.newest([text, wrong, DEB, None], DEB_SET, scheme="deb"),
                lambda: versions.sort_keys([text, mine], scheme="deb"),
                lambda: (copy.copy(DEB), pickle.loads(pickle.dumps(~DEB_SET)), DEB == mine, DEB.scheme),
                lambda: (DEB in DEB_SET, DEB_SET.filter([text, DEB, None]), versions.VersionSet.of(DEB, scheme="deb")),
                lambda: DEB < mine,
                lambda: DEB_SET & SET,
                lambda: mine in DEB_SET,
                lambda: versions.Version(wrong, scheme=text),
            ):
                outcome(call)

        work()
        gc.collect()
        before = [sys.getrefcount(item) for item in held]
        for _ in range(100):
            work()
        gc.collect()
        for item, count in zip(held, before):
            self.assertLess(abs(sys.getrefcount(item) - count), 50, item)

    @of_library
    def test_the_memory_of_ten_megabytes_is_given_back(self):
        text = ("1" * 99 + ".") * 100_000 + "1"

        def peak():
            with open("/proc/self/status") as status:
                return next(int(line.split()[1]) for line in status if line.startswith("VmRSS"))

        calls = (
            lambda: versions.sort_key(text),
            lambda: versions.sort_keys([text, None, "1..2"]),
            lambda: versions.kinds([text]),
            lambda: versions.in_tags([text, None, "1..2"]),
            lambda: versions.Version(text).next(1),
            lambda: versions.Requirement(f">{text},<{text}").why_not(text),
            lambda: versions.Requirement(f">{text},<{text}").conflict,
            lambda: versions.newest([text, None, versions.Version("1")]),
            lambda: versions.sorted([text, "1.2"]),
            lambda: versions.sorted([text, "1..2"]),
            lambda: versions.Requirement(f">={text}").filter([text, "1..2", None]),
            lambda: ~versions.VersionSet(f">{text} || <1") & versions.VersionSet.of(text),
            lambda: versions.VersionSet(f">={text} |").filter([text]),
            lambda: versions.VersionSet(f"={text}").filter([text, "1..2", None]),
            lambda: str(versions.VersionSet(f"!={text}") | versions.VersionSet("<1")),
            lambda: versions.Version(text, scheme="deb"),
            lambda: versions.sort_keys([text, None, "1-"], scheme="deb"),
            lambda: versions.sorted([text, "1-"], scheme="deb"),
            lambda: versions.newest([text, "1.1"], f">={text}", scheme="deb"),
        )
        for call in calls:
            outcome(call)
        before = peak()
        for _ in range(2):
            for call in calls:
                outcome(call)
        self.assertLess(peak() - before, 15_000)
