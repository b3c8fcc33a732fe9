"""`Version` and `Requirement` as values of Python."""

import copy
import enum
import gc
import os
import pickle
import random
import re
import unittest
import weakref

from counted import of_library
from versions import InvalidRequirement, InvalidVersion, Requirement, Version, compare, sort_key, sort_keys

# In increasing order by docs/ORDER.md.
INCREASING = "abc.0 0.0 1a.0 1.2.git 1.2 1.2.0-rc.1 1.2.0 1.2.3rc9 1.2.3rc10 1.2.3 1:0.1".split()

# Of one key by docs/ORDER.md.
LEVEL = ["1.2", "01.2", "0:1.2", "1.2+x", "1.002"]

# No versions by docs/GRAMMAR.md, and what is no text of Unicode.
NONE = ["", "1..2", "1.2.3 ", "1.2.3-a_!", ".", "\0", "1\0", "1.2.3-ä", "\ud800", "1.2.3\udcff", "x y"]


class MyVersion(Version):
    pass


class MyRequirement(Requirement):
    pass


class Slotted(Version):
    __slots__ = ("place", "unset")


class SlottedRequirement(Requirement):
    __slots__ = ("place", "unset")


class Deep(Slotted):
    # Beside these it has a dictionary.
    __slots__ = ("more", "__dict__")


class Told(Version):
    """With arguments of its own, and a state that it makes itself."""

    def __new__(cls, text, name=None):
        return super().__new__(cls, text)

    def __init__(self, text, name=None):
        self.name = name

    def __getstate__(self):
        return {"named": self.name}

    def __setstate__(self, state):
        self.name, self.told = state["named"], True


class Item(str, enum.Enum):
    FIRST = "1.2.3"


class Versions(unittest.TestCase):
    def test_order(self):
        for i, a in enumerate(INCREASING):
            for j, b in enumerate(INCREASING):
                x, y = Version(a), Version(b)
                with self.subTest(a=a, b=b):
                    self.assertEqual((x < y, x <= y, x == y), (i < j, i <= j, i == j))
                    self.assertEqual((x > y, x >= y, x != y), (i > j, i >= j, i != j))
                    self.assertEqual(compare(a, b), (i > j) - (i < j))
                    self.assertEqual(x.key < y.key, i < j)

    def test_sorts(self):
        drawn = INCREASING[:]
        random.Random(1).shuffle(drawn)
        self.assertEqual([str(v) for v in sorted(map(Version, drawn))], INCREASING)
        self.assertEqual(sorted(drawn, key=Version), INCREASING)
        self.assertEqual(sorted(drawn, key=sort_key, reverse=True), INCREASING[::-1])
        self.assertEqual(str(max(map(Version, drawn))), INCREASING[-1])

    def test_level_versions_are_equal_and_hash_alike(self):
        versions = [Version(text) for text in LEVEL]
        self.assertEqual(len(set(versions)), 1)
        self.assertEqual({hash(v) for v in versions}, {hash(versions[0])})
        self.assertEqual(versions, versions[:1] * len(LEVEL))
        self.assertEqual([str(v) for v in versions], LEVEL)
        self.assertIn(Version("0:1.2"), {Version("1.2"): 1})

    def test_no_version(self):
        for text in NONE:
            with self.subTest(text=text), self.assertRaises(InvalidVersion) as raised:
                Version(text)
            error = raised.exception
            self.assertEqual(error.text, text)
            self.assertEqual(str(error), f"not a version: {text!r}; at {error.place}: {error.reason}")

    def test_no_text(self):
        for other in (None, 1.2, 5, b"1.2", ["1.2"], Requirement("=1.2"), object):
            with self.subTest(other=other), self.assertRaisesRegex(TypeError, type(other).__name__):
                Version(other)
        with self.assertRaises(TypeError):
            Version()

    def test_others_are_neither_equal_nor_ordered(self):
        version = Version("1.2")
        for other in ("1.2", 1.2, None, version.key, Requirement("=1.2")):
            with self.subTest(other=other):
                self.assertNotEqual(version, other)
                self.assertIs(version.__eq__(other), NotImplemented)
                for ordered in (lambda: version < other, lambda: version >= other, lambda: other > version):
                    self.assertRaises(TypeError, ordered)

    def test_another_type_may_answer(self):
        class Above:
            def __gt__(self, other):
                return "asked"

        self.assertEqual(Version("1") < Above(), "asked")

    def test_never_changes(self):
        version = Version("1.2")
        for name in ("_text", "_key", "key", "kind", "other"):
            with self.subTest(name=name):
                self.assertRaises(AttributeError, setattr, version, name, "1")
                self.assertRaises(AttributeError, delattr, version, name)
        version.__init__("2.0")
        self.assertFalse(hasattr(version, "__dict__"))
        self.assertEqual((str(version), version.key), ("1.2", sort_key("1.2")))

    def test_kinds(self):
        wanted = {"1.2.3-rc.1+x": "ideal", "1:2.0rc1-3": "general", "1.2.3-06": "complex", "4294967296.0.0": "complex"}
        for text, kind in wanted.items():
            version = Version(text)
            with self.subTest(text=text):
                self.assertEqual(version.kind, kind)
                said = {"ideal": version.is_ideal, "general": version.is_general, "complex": version.is_complex}
                self.assertEqual([name for name, holds in said.items() if holds], [kind])

    def test_numbers(self):
        self.assertEqual([Version("1.2.3").nth(n) for n in range(4)], [1, 2, 3, None])
        self.assertEqual([Version("1:2.a.4.5.6.7-r1").nth(n) for n in range(4)], [2, None, 4, 5])
        self.assertEqual(Version("4294967295.0.0").nth(0), 4294967295)
        for n in (2**31, 2**32, 2**63 - 1, 2**63, 2**64, 2**64 + 1, 10**30):
            self.assertIsNone(Version("1.2.3").nth(n))
        self.assertRaises(ValueError, Version("1.2.3").nth, -1)
        self.assertRaises(TypeError, Version("1.2.3").nth, 1.0)

    def test_is_printed_as_it_was_written(self):
        for text in INCREASING + LEVEL:
            self.assertEqual(str(Version(text)), text)
            self.assertEqual(eval(repr(Version(text))), Version(text))
            self.assertEqual(f"{Version(text):>30}", f"{text:>30}")
        self.assertEqual(repr(Version("1.2")), "Version('1.2')")

    def test_an_item_of_an_enum_is_its_text(self):
        self.assertEqual(str(Version(Item.FIRST)), "1.2.3")
        self.assertEqual(type(str(Version(Item.FIRST))), str)

    def test_parts(self):
        # The kind, the epoch, the first three numbers and whether it is a pre-release, by docs/GRAMMAR.md.
        wanted = {
            "1.2.3": ("ideal", None, 1, 2, 3, False),
            "1.2.3-rc.1+x": ("ideal", None, 1, 2, 3, True),
            "1.2.3+rc-1": ("ideal", None, 1, 2, 3, False),
            "4294967295.0.0": ("ideal", None, 4294967295, 0, 0, False),
            "1:2.0rc1-3": ("general", 1, 2, 0, None, False),
            "0:1": ("general", 0, 1, None, None, False),
            "4294967295:a.2": ("general", 4294967295, None, 2, None, False),
            "2.0-3": ("general", None, 2, 0, None, False),
            "1:20.0026.1_0-2": ("complex", 1, 20, 26, 1, False),
            "8:2007f~dfsg-7": ("complex", 8, None, None, None, False),
            "007:1_2": ("complex", 7, 1, None, None, False),
            "4294967296:1": ("complex", 4294967296, 1, None, None, False),
            "1.2:3": ("complex", None, 3, None, None, False),
            "r1:2": ("complex", None, 2, None, None, False),
        }
        for text, parts in wanted.items():
            version = Version(text)
            with self.subTest(text=text):
                found = (version.kind, version.epoch, version.major, version.minor, version.patch)
                self.assertEqual((*found, version.is_prerelease), parts)
                self.assertIsInstance(version.is_prerelease, bool)

    def test_an_epoch_counts_in_the_order(self):
        # None where there is none: by docs/ORDER.md the epoch of `1_2:3` doesn't count.
        for epoch in ("8", "08", "9223372036854775807", "9223372036854775808", "9" * 30, "9" * 5000):
            version = Version(epoch + ":2007f~dfsg-7")
            self.assertEqual(version.epoch, min(int(epoch[:30]), 2**63 - 1), epoch)
            self.assertGreater(version, Version("7:9"))
        self.assertIsNone(Version("1_2:3").epoch)

    def test_texts_of_fields(self):
        # The pre-release, the release and the metadata, by docs/GRAMMAR.md.
        wanted = {
            "1.2.3": (None, None, None),
            "1.2.3-rc.1+x86": ("rc.1", None, "x86"),
            "1.2.3-rc-1.-": ("rc-1.-", None, None),
            "1.2.3+-.-": (None, None, "-.-"),
            "1.2.3-" + "a" * 5000 + "+" + "b" * 5000: ("a" * 5000, None, "b" * 5000),
            "1:2.0rc1-3.4": (None, "3.4", None),
            "1.2-1+git-2": (None, "1", "git-2"),
            "1.2+x": (None, None, "x"),
            "v1.2.3-4": (None, "4", None),
            "1.2.3-01": (None, None, None),
            "20.0026.1_0-2+0.93": (None, None, None),
            "1:2_3-4+5": (None, None, None),
        }
        for text, fields in wanted.items():
            version = Version(text)
            with self.subTest(text=text):
                self.assertEqual((version.pre_release, version.release, version.metadata), fields)

    def test_pickles_and_copies(self):
        class_of = {Version: MyVersion, Requirement: MyRequirement}
        for value in (Version("0:1.2"), Requirement(">=1.2,<2")):
            mine = class_of[type(value)](str(value))
            mine.__dict__["note"] = ["mine"]
            for value in (value, mine):
                with self.subTest(value=value):
                    backs = [pickle.loads(pickle.dumps(value, n)) for n in range(pickle.HIGHEST_PROTOCOL + 1)]
                    for back in (*backs, copy.copy(value), copy.deepcopy([value])[0]):
                        self.assertEqual((back, str(back), type(back)), (value, str(value), type(value)))
                        self.assertEqual(getattr(back, "note", None), getattr(value, "note", None))

    def test_slots_of_subclasses_are_kept(self):
        for value in (Slotted("0:1.2"), SlottedRequirement(">=1.2,<2"), Deep("1.2.3")):
            value.place, value.unset = ["here"], 1
            del value.unset
            if isinstance(value, Deep):
                value.note, value.more = "noted", 7
            backs = [pickle.loads(pickle.dumps(value, n)) for n in range(pickle.HIGHEST_PROTOCOL + 1)]
            for back in (*backs, copy.copy(value), copy.deepcopy(value)):
                with self.subTest(value=value):
                    self.assertEqual((back, str(back), type(back)), (value, str(value), type(value)))
                    self.assertEqual((back.place, hasattr(back, "unset")), (["here"], False))
                    self.assertEqual(getattr(back, "note", None), getattr(value, "note", None))
                    self.assertEqual(getattr(back, "more", None), getattr(value, "more", None))
            self.assertIs(copy.copy(value).place, value.place)
            self.assertIsNot(copy.deepcopy(value).place, value.place)

    def test_a_subclass_may_say_what_is_pickled(self):
        for n in range(pickle.HIGHEST_PROTOCOL + 1):
            back = pickle.loads(pickle.dumps(Told("1.2", "mine"), n))
            self.assertEqual((str(back), back.name, back.told), ("1.2", "mine", True))

    def test_weak_references(self):
        for make in (Version, MyVersion, Requirement, MyRequirement):
            called, value = [], make("1.2" if issubclass(make, Version) else "*")
            reference = weakref.ref(value, called.append)
            self.assertIs(reference(), value)
            del value
            gc.collect()
            self.assertIsNone(reference())
            self.assertEqual(called, [reference])

    def test_subclasses(self):
        class Loud(MyVersion):
            def __str__(self):
                return "loud"

            def __lt__(self, other):
                return super().__lt__(other)

            __hash__ = MyVersion.__hash__

            def __eq__(self, other):
                return super().__eq__(other)

        class Named:
            name = "mixed in"

        class Mixed(Named, Loud):
            __slots__ = ("place",)

        plain, mine, loud = Version("1.2"), MyVersion("1.3"), Mixed("1.4")
        self.assertTrue(plain < mine < loud)
        self.assertTrue(loud > mine > plain)
        self.assertEqual(loud, Version("1.4"))
        self.assertEqual(Version("1.4"), loud)
        self.assertEqual(MyVersion("1.4"), loud)
        self.assertNotEqual(loud, "1.4")
        self.assertEqual(hash(loud), hash(Version("1.4")))
        self.assertEqual(sort_keys([plain, mine, loud]), [plain.key, mine.key, loud.key])
        self.assertIn(loud, Requirement("=1.4"))
        self.assertEqual(repr(mine), "MyVersion('1.3')")

    @of_library
    def test_long(self):
        for text in ("1." * 1_000_000 + "1", "1_" * 1_000_000 + "1", "a" * 10_000_000, "9" * 10_000_000):
            version = Version(text)
            self.assertEqual(str(version), text)
            self.assertEqual(version, Version("0:" + text))
            self.assertGreater(Version("1:0"), version)
        self.assertRaises(ValueError, Version, "1." * 1_000_000)


class Requirements(unittest.TestCase):
    def test_matches(self):
        # From docs/REQUIREMENTS.md.
        wanted = {
            ("^1.1.1", "1.2.0"): True,
            ("~1.1.1", "1.2.0"): False,
            ("~1.2", "1.5"): True,
            ("~1.2", "5.0"): False,
            ("^1.2", "1.0"): False,
            (">=1.0", "0:1.0"): True,
            ("=1.0", "0:1.0"): False,
            ("^1.1.1,<1.5.0", "1.5.0-rc.1"): True,
            ("^1.1.1,<1.5.0", "1.5.0"): False,
            ("*", "20.0026.1_0-2+0.93"): True,
        }
        for (requirement, text), answer in wanted.items():
            with self.subTest(requirement=requirement, text=text):
                self.assertIs(Requirement(requirement).matches(text), answer)
                self.assertIs(Requirement(requirement).matches(Version(text)), answer)
                self.assertIs(text in Requirement(requirement), answer)
                self.assertIs(Version(text) in Requirement(requirement), answer)

    def test_no_requirement(self):
        of_the_page = ("", "1.2.3", "*1", "=", "=>1.0", ",", ",*", "=1.0.0,", "=1.0.0,,*")
        for text in (*of_the_page, ">= 1", "^\ud800", "=1\0", "=é"):
            with self.subTest(text=text), self.assertRaises(InvalidRequirement) as raised:
                Requirement(text)
            self.assertEqual(raised.exception.text, text)
            self.assertTrue(str(raised.exception).startswith(f"not a requirement: {text!r};"))
        for other in (None, 1, b"*", Version("1.2")):
            self.assertRaises(TypeError, Requirement, other)

    def test_the_recipe_without_prereleases(self):
        page = os.path.join(os.path.dirname(__file__), "..", "..", "docs", "REQUIREMENTS.md")
        with open(page, encoding="utf-8") as read:
            recipe = re.search(r"^\| Python \| `(.*?)`", read.read(), re.M)[1]
        texts = ["1.2.3", "1.9.0-rc.1", "1.9.0+a-b", "1.9rc1", "2.0.0-rc.1"]
        names = {"wanted": Requirement(">=1.2.3,<2"), "texts": [*texts, "x y"], "Version": Version}
        self.assertEqual(eval(recipe, names), ["1.2.3", "1.9.0+a-b", "1.9rc1"])

    def test_the_member_that_is_wrong(self):
        members = {
            "1.2.3": (0, "1.2.3"), "": (0, ""), ",": (0, ""), ",*": (0, ""), "=1.0.0,": (7, ""), "=1.0.0,,*": (7, ""),
            ">=1.0, <2.0": (6, " <2.0"), "=1.0 || =2.0": (0, "=1.0 || =2.0"), "*,!=1.0,^1.*": (2, "!=1.0"),
            "*,=\0,*": (2, "=\0"), "*,=é,*": (2, "=é"), "*,\U0001f600\xff": (2, "\U0001f600\xff"),
            "\ud800": (0, "\ud800"), "*,\ud800,é": (2, "\ud800"), ">=1,\ud800": (4, "\ud800"), "1,\ud800": (0, "1"),
            "^1.2,=1\udcff": (5, "=1\udcff"), "*,\ud83d\ude00é,*": (2, "\ud83d\ude00é"), "\ud800,*": (0, "\ud800"),
            "*,é,\ud800": (2, "é"), "*,,\ud800": (2, ""), "*,*\udfff": (2, "*\udfff"), "*,\xff\ud800": (2, "\xff\ud800"),
        }
        for text, (start, member) in members.items():
            with self.subTest(text=text), self.assertRaises(InvalidRequirement) as raised:
                Requirement(text)
            error = raised.exception
            self.assertEqual((error.start, error.member), (start, member))
            wrong = "" if member == text else f"; its member {member!r} at {start} is wrong"
            self.assertEqual(str(error), f"not a requirement: {text!r}{wrong}; a list looks like '>=1.2,<2'")
        # One made by hand of a text that is a requirement
        self.assertEqual((InvalidRequirement("*,*").start, InvalidRequirement("*,*").member), (0, "*,*"))

    @of_library
    def test_the_member_that_is_wrong_of_many_lists(self):
        # By docs/REQUIREMENTS.md; what has a lone surrogate is wrong.
        right = ["*", ">=1", "^1.2.3", "=1.0", "~2", "<2.0-1", ">1:2"]
        wrong = ["", "1.2", " <2", "=é", "=\0", "\U0001f600", ">=", "**", "*1"]
        lone = ["\ud800", "=1\udfff", "\udc00\ud800>=1", "*\ud83d", "é\ud800\U0001f600", ">=\ud83d\ude00"]
        chosen = random.Random(1)
        for _ in range(20_000):
            some = chosen.choice([right + lone, right * 3 + wrong + lone])
            pieces = chosen.choices(some, k=chosen.randrange(1, 9))
            place = next((n for n, piece in enumerate(pieces) if piece not in right), None)
            text = ",".join(pieces)
            if place is None:
                self.assertEqual(str(Requirement(text)), text)
                continue
            with self.assertRaises(InvalidRequirement) as raised:
                Requirement(text)
            start = sum(len(piece) + 1 for piece in pieces[:place])
            self.assertEqual((raised.exception.start, raised.exception.member), (start, pieces[place]), ascii(text))

    def test_no_version(self):
        anything = Requirement("*")
        for text in NONE:
            for call in (anything.matches, anything.__contains__, lambda text: text in anything):
                with self.subTest(text=text), self.assertRaises(InvalidVersion) as raised:
                    call(text)
                error = raised.exception
                self.assertEqual((error.text, type(error.text)), (text, str))
                self.assertEqual(str(error), f"not a version: {text!r}; at {error.place}: {error.reason}")
        for other in (None, 1.2, b"1.2", anything):
            self.assertRaises(TypeError, anything.matches, other)
            self.assertRaises(TypeError, anything.__contains__, other)
            if other is not None:
                self.assertRaises(TypeError, anything.filter, ["1.2", other])

    def test_filter(self):
        wanted = Requirement(">=1.1.1,<2.0.0")
        versions = [Version("1.0"), "1.5", "x y", Version("1.1.1"), "2.0.0", "2.0.0-rc.1"]
        self.assertEqual(wanted.filter(versions), ["1.5", Version("1.1.1"), "2.0.0-rc.1"])
        self.assertEqual(wanted.filter(iter(["1.5", "1.0"])), ["1.5"])
        self.assertEqual(wanted.filter([]), [])
        self.assertEqual(wanted.filter(versions=["1.5"]), ["1.5"])

    def test_filter_returns_the_items_that_it_was_given(self):
        # Of an exact range and of one that is not, by docs/REQUIREMENTS.md.
        texts = "1.2", "1.2.3", "5.0", "1.5", "1.2.4"
        items = [make(text) for text in texts for make in (Version, str)]
        items[3:3] = [None, "1..2", float("nan")]
        for requirement, matched in (("^1.2.3", ("1.2.3", "1.2.4")), ("~1.2", ("1.2", "1.5")), ("*", texts)):
            right = [item for item in items if isinstance(item, (str, Version)) and str(item) in matched]
            kept = Requirement(requirement).filter(iter(items))
            self.assertEqual(list(map(id, kept)), list(map(id, right)), requirement)

    def test_is_a_value(self):
        wanted = Requirement("^1.2")
        self.assertEqual((str(wanted), repr(wanted)), ("^1.2", "Requirement('^1.2')"))
        self.assertEqual((f"{wanted:>6}|", format(wanted)), ("  ^1.2|", "^1.2"))
        self.assertEqual({wanted, Requirement("^1.2")}, {wanted})
        self.assertNotEqual(wanted, Requirement("^0:1.2"))
        self.assertNotEqual(wanted, "^1.2")
        self.assertRaises(AttributeError, setattr, wanted, "_text", "*")
        self.assertRaises(AttributeError, delattr, wanted, "_text")
        self.assertFalse(hasattr(wanted, "__dict__"))
