"""Calls on one text and on many: what they answer, and what they say of what is no text."""

import copy
import importlib.metadata
import inspect
import os
import pickle
import random
import subprocess
import sys
import threading
import types
import unittest
from unittest import mock

import arrow
import versions
from counted import of_library
from lists import LongLists

# The folder of versions.h: of the library that the package was built with, or else of the repository.
LIBRARY = os.environ.get("C_LIBRARY") or os.path.join(os.path.dirname(__file__), "..", "..", "c")

USUAL = ["1.2.3", "1..2", "1:2.0rc1-3", "", None, "20.0026.1_0-2+0.93", "\ud800", "1.0", "0:1.0", "é", "1.2.3\0"]
KINDS = ["ideal", None, "general", None, None, "complex", None, "general", "general", None, None]
# Of `>=1.2,<1:0`, by docs/REQUIREMENTS.md.
WANTED = [True, None, False, None, None, True, None, False, False, None, None]


class Raising:
    def __getattr__(self, name):
        raise OSError("mine")


def key_of(text):
    try:
        return versions.sort_key(text)
    except (ValueError, TypeError):
        return None


class One(unittest.TestCase):
    def test_kind(self):
        for text, kind in zip(USUAL, KINDS):
            if text is not None:
                self.assertEqual(versions.kind(text), kind, text)

    def test_key(self):
        # From docs/ORDER.md.
        wanted = {
            "1.2.3-r1+git": "00 03 01 31 02 03 01 32 02 03 01 33 02 02 01 03 72 31 00 01",
            "1:2.0-3": "01 31 03 01 32 02 03 00 02 02 03 02 01 33 01",
            "1.0_2": "00 03 01 31 02 03 00 02 02 04 02 03 01 32 02 02 01",
        }
        for text, key in wanted.items():
            self.assertEqual(versions.sort_key(text), bytes.fromhex(key))

    def test_compare(self):
        self.assertEqual([versions.compare("1.0", b) for b in ("1.0.0", "0:1.0", "1.0rc1")], [-1, 0, 1])
        self.assertEqual([versions.compare_total("1.0", b) for b in ("0:1.0", "1.0", "1.0rc1")], [-1, 0, 1])
        self.assertEqual(versions.compare_total("1.0.0+a", "1.0.0+b"), 0)

    def test_the_text_that_is_not_a_version_is_named(self):
        for call in (versions.compare, versions.compare_total):
            for a, b, named, why in (
                ("1..2", "1", "1..2", "at 2: an empty part"),
                ("1", "x y", "x y", "at 1: a blank"),
                ("\ud800", "", "\ud800", "at 0: a character past ASCII"),
            ):
                with self.assertRaises(versions.InvalidVersion) as raised:
                    call(a, b)
                self.assertEqual(str(raised.exception), f"not a version: {named!r}; {why}")
                self.assertEqual(raised.exception.text, named)

    def test_no_text(self):
        for other in (None, 1.2, b"1.2", versions.Requirement("*"), float("nan")):
            for call in (
                lambda: versions.kind(other),
                lambda: versions.sort_key(other),
                lambda: versions.compare(other, "1"),
                lambda: versions.compare("1", other),
                lambda: versions.compare_total("1", other),
                lambda: versions.Version(other),
            ):
                self.assertRaisesRegex(TypeError, f"a text is a str, and this is of type {type(other).__name__}", call)
        for other in (None, 1.2, b"1.2", versions.Version("1.2"), float("nan")):
            for call in (lambda: versions.match_all(other, []), lambda: versions.Requirement(other)):
                self.assertRaisesRegex(TypeError, f"a text is a str, and this is of type {type(other).__name__}", call)

    def test_a_version_is_taken_for_its_text(self):
        class Mine(versions.Version):
            def __str__(self):
                return "9.9"

            __repr__ = __format__ = __str__
            kind = key = _text = None

        # From docs/ORDER.md.
        key = bytes.fromhex("01 31 03 01 32 02 03 00 02 02 03 02 01 33 01")
        for make in (versions.Version, Mine):
            version = make("1:2.0-3")
            self.assertEqual((versions.kind(version), versions.kind(make("1.2.3"))), ("general", "ideal"))
            self.assertEqual(versions.sort_key(version), key)
            tied = make("1.0"), make("0:1.0")
            for a in (tied[0], "1.0"):
                for b in (tied[1], "0:1.0"):
                    self.assertEqual([call(a, b) for call in (versions.compare, versions.compare_total)], [0, -1])
                    self.assertEqual([call(b, a) for call in (versions.compare, versions.compare_total)], [0, 1])
            for call in (versions.compare, versions.compare_total):
                for words in (("1..2", version), (version, "1..2")):
                    with self.assertRaises(versions.InvalidVersion) as raised:
                        call(*words)
                    self.assertEqual(raised.exception.text, "1..2")
            for again in (versions.Version(version), versions.Version(text=version)):
                self.assertEqual((type(again), str(again), again.kind), (versions.Version, "1:2.0-3", "general"))
                self.assertEqual((again.key, again.epoch, again.release), (key, 1, "3"))
            self.assertIs(type(Mine(version)), Mine)
            self.assertEqual(str(versions.Version(Mine(version))), "1:2.0-3")

    def test_what_only_looks_like_a_version_is_no_text(self):
        version = versions.Version("1.2")
        names = {"_text": "1.2", "key": version.key, "kind": "general", "__class__": versions.Version}
        alike = type("Alike", (), names)()
        for call in (versions.kind, versions.sort_key, versions.Version, lambda it: versions.compare(it, "1")):
            for other in (alike, versions.Version):
                self.assertRaises(TypeError, call, other)

    def test_names_of_arguments(self):
        self.assertEqual(versions.kind(text="1.2"), "general")
        self.assertEqual(versions.sort_key(text="1.2"), versions.sort_key("1.2"))
        self.assertEqual((versions.compare(a="1", b="2"), versions.compare("2", b="1")), (-1, 1))
        self.assertEqual(versions.compare_total(b="1", a="2"), 1)
        self.assertEqual(versions.kinds(texts=["1"]), ["general"])
        self.assertEqual(versions.sort_keys(texts=["1"]), [versions.sort_key("1")])
        self.assertEqual(versions.sorted(texts=["2", "1"]), ["1", "2"])
        self.assertEqual(versions.match_all(requirement="*", texts=["1"]), [True])
        self.assertEqual(versions.Version(text="1").nth(n=0), 1)
        self.assertTrue(versions.Requirement(text="*").matches(version="1"))
        for wrong in ({}, {"texts": "1"}, {"text": "1", "b": "2"}, {"": "1"}):
            self.assertRaises(TypeError, versions.kind, **wrong)
        for wrong in ((), ("1",), ("1", "2", "3")):
            self.assertRaises(TypeError, versions.compare, *wrong)
        texts = ("kinds", "(texts)"), ("match_all", "(requirement, texts)")
        one = ("kind", "(text)"), ("compare", "(a, b, *, scheme='mixed')"), ("compare_total", "(a, b)")
        for function, names in (*one, *texts):
            self.assertEqual(str(inspect.signature(getattr(versions, function))), names)

    def test_a_subclass_of_str_is_its_text(self):
        class Evil(str):
            def answer(self, *_):
                return b"9.9.9" * 1000

            encode = __str__ = __repr__ = __format__ = __iter__ = __getitem__ = __hash__ = answer

            def __len__(self):
                return 10**6

            def __eq__(self, other):
                return True

        evil, text = Evil("1.2"), "1.2"
        self.assertEqual(versions.kind(evil), "general")
        self.assertEqual(versions.sort_key(evil), versions.sort_key(text))
        self.assertEqual((versions.compare(evil, "1.3"), versions.compare_total("1.1", evil)), (-1, -1))
        self.assertEqual(versions.kinds([evil, None]), ["general", None])
        self.assertEqual(versions.sort_keys([evil]), [versions.sort_key(text)])
        version, wanted = versions.Version(evil), versions.Requirement(Evil("=1.2"))
        self.assertEqual((str(version), type(str(version)), version.key), (text, str, versions.sort_key(text)))
        self.assertEqual((version.kind, version.nth(1), repr(version)), ("general", 2, "Version('1.2')"))
        self.assertEqual((str(wanted), type(str(wanted))), ("=1.2", str))
        self.assertIs(wanted.matches(evil), True)
        self.assertIs(versions.sorted([evil])[0], evil)
        for call in (versions.kinds, versions.sort_keys, versions.sorted, wanted.filter):
            self.assertRaises(TypeError, call, evil)
        with self.assertRaises(versions.InvalidVersion) as raised:
            versions.sort_key(Evil("1..2"))
        self.assertEqual(type(raised.exception.text), str)
        self.assertEqual(str(raised.exception), "not a version: '1..2'; at 2: an empty part")

    @of_library
    def test_a_text_of_every_length_around_the_room_on_the_stack(self):
        for length in (*range(1, 20), *range(320, 360), *range(500, 530), 1000, 5000, 65536, 65537, 200_000):
            for text in ("a" * length, "1." * (length // 2) + "1"):
                key = versions.sort_key(text)
                self.assertEqual([key], versions.sort_keys([text]), length)
                self.assertEqual(versions.Version(text).key, key)
                self.assertEqual((versions.compare(text, text), versions.compare_total(text, text + ".0")), (0, -1))


class Many(LongLists):
    def answers(self, texts):
        return versions.kinds(texts), versions.sort_keys(texts), versions.match_all(">=1.2,<1:0", texts)

    def usual_answers(self, among=slice(None)):
        return KINDS[among], [None if k is None else key_of(t) for t, k in zip(USUAL, KINDS)][among], WANTED[among]

    def test_lists(self):
        self.assertEqual(self.answers(USUAL), self.usual_answers())
        self.assertEqual(self.answers(tuple(USUAL)), self.usual_answers())
        self.assertEqual(versions.kinds(iter(USUAL)), KINDS)
        self.assertEqual(versions.kinds(text for text in USUAL), KINDS)

    def test_no_texts(self):
        for empty in ([], (), iter(()), {}):
            self.assertEqual(versions.kinds(empty), [])
            self.assertEqual(versions.sort_keys(empty), [])
            self.assertEqual(versions.match_all("*", empty), [])
            with self.assertRaisesRegex(ValueError, "not a requirement: '1.2'"):
                versions.match_all("1.2", empty)
        self.assertEqual(self.answers(["", ""]), ([None] * 2,) * 3)

    def test_requirements_of_both_types(self):
        wanted = versions.Requirement("^1.2")
        self.assertEqual(versions.match_all(wanted, ["1.5", "2", ".", None]), [True, False, None, None])

    @of_library
    def test_a_million(self):
        texts = [f"{n % 7}.{n % 1000}.{n}" if n % 10 else "1..2" for n in range(1_000_000)]
        kinds, keys, matches = versions.kinds(texts), versions.sort_keys(texts), versions.match_all(">=3", texts)
        self.assertAlike(kinds, [("ideal" if n % 10 else None) for n in range(1_000_000)])
        self.assertAlike(matches, [(n % 7 >= 3 if n % 10 else None) for n in range(1_000_000)])
        for n in range(0, 1_000_000, 997):
            self.assertEqual(keys[n], key_of(texts[n]))

    @of_library
    def test_long(self):
        texts = ["1_" * 500_000 + "1", "x y", "9" * 5_000_000, "\0" * 1_000_000]
        self.assertEqual(versions.sort_keys(texts), [key_of(text) for text in texts])


class Items(LongLists):
    """What an iterable may hold, and what it may do."""

    def test_versions_count_as_texts(self):
        class Mine(versions.Version):
            pass

        mixed = [versions.Version("1.2.3"), "1.2", None, Mine("1_2"), "1..2"]
        self.assertEqual(versions.kinds(mixed), ["ideal", "general", None, "complex", None])
        self.assertEqual(versions.sort_keys(mixed)[::3], [mixed[0].key, mixed[3].key])
        self.assertEqual(versions.match_all(">=1.2.1", mixed), [True, False, None, False, None])
        self.assertEqual(list(map(str, versions.sorted([mixed[0], "1.2", mixed[3]]))), ["1_2", "1.2", "1.2.3"])

    def test_missing_values(self):
        nan = float("nan")
        pandas = types.ModuleType("pandas")
        self.assertEqual(versions.kinds(["1.2", nan, -nan, None]), ["general", None, None, None])
        for number in (0.0, 1.2, float("inf"), 0, False):
            self.assertRaises(TypeError, versions.kinds, ["1.2", number])
        marker = type("NAType", (), {"__eq__": None, "__bool__": None})()
        with mock.patch.dict(sys.modules):
            sys.modules.pop("pandas", None)
            self.assertRaises(TypeError, versions.kinds, [marker])
            sys.modules["pandas"] = pandas
            self.assertRaises(TypeError, versions.kinds, [marker])
            pandas.NA = marker
            self.assertEqual(versions.kinds(["1.2", marker, nan]), ["general", None, None])
            self.assertEqual(versions.match_all("*", [marker, "1"]), [None, True])
            self.assertRaises(TypeError, versions.kinds, [type(marker)()])
            self.assertRaises(TypeError, versions.kind, marker)
            for refused in (marker, nan, None):
                self.assertRaises(TypeError, versions.sorted, [refused])
                self.assertRaises(TypeError, versions.sorted, ["1.2", refused], reverse=True)
                self.assertEqual(versions.sorted([refused, "1.2"], invalid="last"), ["1.2", refused])
                self.assertEqual(versions.Requirement("*").filter(["1.2", refused]), ["1.2"])
            self.assertRaises(TypeError, versions.Requirement("*").filter, ["1.2", type(marker)()])
            sys.modules["pandas"] = Raising()
            self.assertRaisesRegex(OSError, "mine", versions.kinds, [marker])

    def test_missing_values_of_numpy_and_of_time(self):
        class floating:
            """As numpy.floating, which is no float of Python."""

            def __init__(self, number):
                self.number = number

            def __float__(self):
                return self.number

        class Longer(floating):
            pass

        nan, wanted = float("nan"), versions.Requirement("*")
        pandas, numpy = types.ModuleType("pandas"), types.ModuleType("numpy")
        # NaT differs from itself, and is told by what it is.
        time = type("NaTType", (), {"__ne__": lambda self, other: True, "__eq__": lambda self, other: False})()
        with mock.patch.dict(sys.modules):
            for name in ("pandas", "numpy"):
                sys.modules.pop(name, None)
            for missing in (floating(nan), time):
                self.assertRaises(TypeError, versions.kinds, [missing])
            self.assertFalse({"numpy", "pandas"} & set(sys.modules))
            sys.modules.update(pandas=pandas, numpy=numpy)
            for missing in (floating(nan), time):
                self.assertRaises(TypeError, versions.kinds, [missing])
            pandas.NaT, numpy.floating = time, floating
            for missing in (floating(nan), floating(-nan), Longer(nan), time):
                self.assertEqual(versions.kinds(["1.2", missing, "1.2.3"]), ["general", None, "ideal"])
                self.assertEqual(versions.sort_keys([missing]), [None])
                self.assertEqual(versions.match_all("*", [missing, "1"]), [None, True])
                self.assertEqual(wanted.filter([missing, "1"]), ["1"])
                self.assertEqual(list(map(id, versions.sorted([missing], invalid="last"))), [id(missing)])
                for call in (versions.kind, versions.sort_key, versions.Version, lambda it: versions.sorted([it])):
                    self.assertRaises(TypeError, call, missing)
            for other in (floating(1.2), Longer(float("inf")), type(time)(), floating, 1.2):
                for call in (versions.kinds, wanted.filter, lambda items: versions.sorted(items, invalid="last")):
                    self.assertRaises(TypeError, call, ["1.2", other])
            for nothing in (None, 5, "floating", lambda: floating):
                numpy.floating = nothing
                self.assertRaises(TypeError, versions.kinds, [floating(nan)])
            numpy.floating = floating
            floating.__float__ = lambda self: 1 // 0
            self.assertRaises(ZeroDivisionError, versions.kinds, [floating(nan)])
            sys.modules["numpy"] = Raising()
            self.assertRaisesRegex(OSError, "mine", versions.kinds, [floating(nan)])

    def test_an_iterable_with_attributes_of_an_array(self):
        for name in ("chunks", "buffers", "type", "offset"):
            for value in (None, [], 5, lambda: []):
                words = type("Words", (list,), {name: value})
                self.assertEqual(versions.kinds(words(["1.2"])), ["general"])
                self.assertEqual(versions.sort_keys(words(["1.2"])), [versions.sort_key("1.2")])
                self.assertEqual(versions.Requirement("^1").filter(words(["1.2"])), ["1.2"])

    def test_iterables_that_fail_midway(self):
        def texts():
            yield "1.2"
            raise OSError("mine")

        wanted = versions.Requirement("*")
        for call in (versions.kinds, versions.sort_keys, versions.sorted, wanted.filter):
            self.assertRaisesRegex(OSError, "mine", call, texts())
            self.assertRaises(TypeError, call, ["1.2", 3])
            self.assertRaises(TypeError, call, 3)
            self.assertRaises(TypeError, call, None)

    def test_a_list_that_changes_while_it_is_read(self):
        texts = ["1.2"] * 10

        def shrinking():
            for text in texts:
                if len(texts) > 5:
                    texts.pop()
                yield text

        self.assertEqual(versions.kinds(shrinking()), ["general"] * 5)
        texts = ["1.2"] * 10
        self.assertEqual(versions.sorted(shrinking()), ["1.2"] * 5)

    def test_one_text_is_not_many(self):
        wanted = versions.Requirement("^1")
        for one in ("1.2.3", b"1.2.3", ""):
            for call in (versions.kinds, versions.sort_keys, versions.sorted, wanted.filter):
                self.assertRaisesRegex(TypeError, "many texts", call, one)
            self.assertRaisesRegex(TypeError, "many texts", versions.match_all, wanted, one)

    def test_dictionaries_and_sets(self):
        self.assertEqual(versions.kinds({"1.2": 1, "1.2.3": 2}), ["general", "ideal"])
        self.assertEqual(versions.sorted({"1.3", "1.2"}), ["1.2", "1.3"])


class Series:
    """What a call has to find in a Series of pandas, which few of the Pythons have."""

    ndim, name = 1, "version"

    def __init__(self, texts, index, **made):
        self.texts, self.index, self.made = list(texts), index, made

    def __iter__(self):
        return iter(self.texts)

    @property
    def _constructor(self):
        return Series


class OfSeries(unittest.TestCase):
    TEXTS = ["1.2", None, "x y", "1.2.3", float("nan")]
    CALLS = {
        "kinds": (versions.kinds, ["general", None, None, "ideal", None]),
        "sort_keys": (versions.sort_keys, [versions.sort_key("1.2"), None, None, versions.sort_key("1.2.3"), None]),
        "stabilities": (versions.stabilities, [versions.Stability.STABLE, None, None, versions.Stability.STABLE, None]),
        "in_tags": (versions.in_tags, ["1.2", None, None, "1.2.3", None]),
    }
    MASKS = {
        "match_all": lambda texts: versions.match_all("<1.2.3", texts),
        "match_all of a set": lambda texts: versions.match_all(versions.VersionSet("<1.2.3"), texts),
        "has_all": versions.VersionSet("<1.2.3").has_all,
        "has_all in deb": versions.VersionSet("<1.2.3", scheme="deb").has_all,
    }

    def assert_is_series(self, found, texts, answers, dtype):
        self.assertIs(type(found), Series)
        self.assertEqual(list(map(repr, found)), list(map(repr, answers)))
        self.assertIs(found.index, texts.index)
        self.assertEqual(found.made, {"name": "version", "dtype": dtype})

    def test_the_answers_are_one_with_its_index(self):
        for index in ("edcba", "aaaaa", range(5), object()):
            texts = Series(self.TEXTS, index)
            for name, (call, answers) in self.CALLS.items():
                with self.subTest(name):
                    self.assert_is_series(call(texts), texts, answers, object)
            for name, call in self.MASKS.items():
                with self.subTest(name):
                    # Of a list there is None where there is no version, and no mask has that.
                    self.assertEqual(call(self.TEXTS), [True, None, None, False, None])
                    self.assert_is_series(call(texts), texts, [True, False, False, False, False], bool)
        empty = Series([], object())
        self.assert_is_series(versions.sort_keys(empty, scheme="deb"), empty, [], object)
        self.assert_is_series(versions.VersionSet("*").has_all(empty), empty, [], bool)

    def test_texts_of_arrow(self):
        class Column(Series):
            def __arrow_c_array__(self, requested_schema=None):
                return arrow.Array([b"1.2", None, b"x y", b"1.2.3", None], b"u").__arrow_c_array__()

            __iter__ = None

        texts = Column([], "abcde")
        self.assert_is_series(versions.kinds(texts), texts, self.CALLS["kinds"][1], object)
        self.assert_is_series(versions.match_all("<1.2.3", texts), texts, [True] + [False] * 4, bool)

    def test_what_is_none(self):
        """An Index has no index, a DataFrame two dimensions, and an array of numpy no constructor."""
        for lacking in ("_constructor", "ndim", "index"):
            class Other(Series):
                def __getattribute__(self, name):
                    if name == lacking:
                        raise AttributeError(name)
                    return super().__getattribute__(name)

            self.assertEqual(versions.kinds(Other(["1.2"], "a")), ["general"])
        for changed in ({"ndim": 2}, {"_constructor": None}, {"ndim": None}):
            other = type("Other", (Series,), changed)(["1.2", None], "ab")
            self.assertEqual(versions.VersionSet("*").has_all(other), [True, None])
        words = type("Words", (list,), {"_constructor": Series, "ndim": 1, "index": "a", "name": None})(["1.2"])
        for texts in (words, mock.MagicMock()):
            self.assertIs(type(versions.kinds(texts)), list)

    def test_one_that_fails(self):
        for name in ("_constructor", "ndim", "index", "name"):
            named = {"index": "a", "texts": ["1.2"], "__init__": lambda self: None, name: property(lambda self: [][1])}
            texts = type("Failing", (Series,), named)()
            for call in (versions.kinds, versions.VersionSet("*").has_all):
                self.assertRaises(IndexError, call, texts)
        # What is wrong with the texts comes first.
        self.assertRaises(TypeError, versions.kinds, Series([5], "a"))
        short = type("Short", (Series,), {"_constructor": lambda self, *words, **named: [][1]})
        self.assertRaises(IndexError, versions.kinds, short(["1.2"], "a"))

    def test_it_is_not_imported(self):
        program = "import sys, versions; versions.kinds(iter(['1'])); print('pandas' in sys.modules)"
        said = subprocess.run([sys.executable, "-c", program], stdout=subprocess.PIPE, check=True).stdout
        self.assertEqual(said, b"False\n")


class Sorted(unittest.TestCase):
    # From docs/ORDER.md.
    def test_order(self):
        tied = ["1.002", "1.2", "0:1.2", "01.2", "1.2+b", "1.2+a"]
        self.assertEqual(versions.sorted(tied), ["1.2", "1.2+a", "1.2+b", "0:1.2", "01.2", "1.002"])
        self.assertEqual(versions.sorted(["1.0.0+b", "1.0.0+a", "0.9.0"]), ["0.9.0", "1.0.0+b", "1.0.0+a"])
        self.assertEqual(versions.sorted([]), [])
        self.assertEqual(versions.sorted(iter(["2", "1"])), ["1", "2"])

    def test_the_items_are_those_given(self):
        items = [versions.Version("2"), "1" + str(0), versions.Version("1")]
        self.assertEqual(list(map(id, versions.sorted(items))), [id(items[n]) for n in (2, 0, 1)])

    def test_a_text_that_is_not_a_version(self):
        for texts in (["1", "1..2", "x y"], ["1..2"], ["2", "1", "1..2"], iter(["1..2", "1"])):
            with self.assertRaises(versions.InvalidVersion) as raised:
                versions.sorted(texts)
            self.assertEqual(raised.exception.text, "1..2")
        for text in ("", "\ud800", "\udcff"):
            self.assertRaises(versions.InvalidVersion, versions.sorted, ["1", text])

    def test_reverse_keeps_the_order_of_what_ties(self):
        # As Python's own `sorted` does; the two ties are by docs/ORDER.md.
        texts = ["1.0.0+b", "2", "1.0.0+a", "0.9.0", "1.0.0+c", "2"]
        wanted = ["2", "2", "1.0.0+b", "1.0.0+a", "1.0.0+c", "0.9.0"]
        for given in (texts, tuple(texts), iter(texts)):
            self.assertEqual(versions.sorted(given, reverse=True), wanted)
        self.assertEqual([id(texts[n]) for n in (1, 5)], list(map(id, versions.sorted(texts, reverse=True)[:2])))
        self.assertEqual(texts, ["1.0.0+b", "2", "1.0.0+a", "0.9.0", "1.0.0+c", "2"])
        self.assertEqual(versions.sorted(["1.2", "0:1.2", "1.3"], reverse=True), ["1.3", "0:1.2", "1.2"])
        self.assertEqual(versions.sorted(["2", "1"], reverse=False), ["1", "2"])
        self.assertEqual(versions.sorted([], reverse=True), [])
        items = [versions.Version("1"), "1", versions.Version("1")]
        self.assertEqual(list(map(id, versions.sorted(items, reverse=True))), list(map(id, items)))

    def test_what_is_not_a_version_comes_last_in_its_order(self):
        texts = ["x y", "2", "", "1", "\ud800", "x y", "3"]
        last = ["x y", "", "\ud800", "x y"]
        self.assertEqual(versions.sorted(texts, invalid="last"), ["1", "2", "3", *last])
        self.assertEqual(versions.sorted(texts, reverse=True, invalid="last"), ["3", "2", "1", *last])
        for reverse in (False, True):
            self.assertEqual(versions.sorted(last, reverse=reverse, invalid="last"), last)
            self.assertEqual(versions.sorted([], reverse=reverse, invalid="last"), [])
            self.assertEqual(versions.sorted(["2", "2"], reverse=reverse, invalid="last"), ["2", "2"])

    def test_missing_values_come_last_in_their_order(self):
        nan, one = float("nan"), versions.Version("1")
        items = [None, "2", "x y", nan, one, None, "", "3"]
        for reverse, wanted in ((False, [one, "2", "3"]), (True, ["3", "2", one])):
            found = versions.sorted(iter(items), reverse=reverse, invalid="last")
            wanted = [*wanted, None, "x y", nan, None, ""]
            self.assertEqual(list(map(id, found)), list(map(id, wanted)))
            self.assertEqual(versions.sorted([None, None], reverse=reverse, invalid="last"), [None, None])
            for other in (5, b"1", 1.2, versions.Requirement("*")):
                self.assertRaises(TypeError, versions.sorted, ["1", other], reverse=reverse, invalid="last")
            for invalid in ({}, {"invalid": "raise"}):
                self.assertRaises(TypeError, versions.sorted, ["1", None], reverse=reverse, **invalid)

    def test_key(self):
        rows = [{"v": "1.10"}, {"v": versions.Version("1.9")}, {"v": "0:1.9"}, {"v": "1.9"}, {"v": "1.10rc1"}]
        key = {"key": lambda row: row["v"]}
        # By docs/ORDER.md `1.9` and `0:1.9` tie in `compare`, and not in `compare_total`.
        for reverse, places in ((False, (1, 3, 2, 4, 0)), (True, (0, 4, 2, 1, 3))):
            for given in (rows, tuple(rows), iter(rows)):
                found = versions.sorted(given, reverse=reverse, **key)
                self.assertEqual(list(map(id, found)), [id(rows[n]) for n in places])
        self.assertEqual(versions.sorted(["2", "10"], key=None), ["2", "10"])
        self.assertEqual(versions.sorted([3, 20, 1], key=str), [1, 3, 20])
        self.assertEqual(versions.sorted([], key=None), versions.sorted([], key=5))
        bad = [{"v": "x y"}, {"v": "1"}, {"v": None}, {"v": "2"}, {"v": ""}]
        for reverse, places in ((False, (1, 3, 0, 2, 4)), (True, (3, 1, 0, 2, 4))):
            found = versions.sorted(bad, reverse=reverse, invalid="last", **key)
            self.assertEqual(list(map(id, found)), [id(bad[n]) for n in places])
            for named, given in (("x y", [bad[1], bad[0], bad[4]]), ("", [bad[4], bad[0]])):
                with self.assertRaises(versions.InvalidVersion) as raised:
                    versions.sorted(given, reverse=reverse, **key)
                self.assertEqual(raised.exception.text, named)
            self.assertRaises(TypeError, versions.sorted, [bad[2]], reverse=reverse, **key)
            self.assertRaises(TypeError, versions.sorted, ["1"], key=lambda item: 5, invalid="last", reverse=reverse)

    def test_key_is_called_once_for_each_item_in_their_order(self):
        for reverse in (False, True):
            called = []
            versions.sorted("3 1 2".split(), key=lambda item: called.append(item) or item, reverse=reverse)
            self.assertEqual(called, ["3", "1", "2"])

    def test_a_key_that_fails(self):
        def failing(item):
            if item == "2":
                raise OSError("mine")
            return item

        self.assertRaisesRegex(OSError, "mine", versions.sorted, ["1", "2", "3"], key=failing)
        for key in (5, "text", lambda: "1", lambda a, b: "1"):
            self.assertRaises(TypeError, versions.sorted, ["1"], key=key)

    def test_sorted_is_that_of_python_by_a_model(self):
        chosen = random.Random(2)
        # In increasing order by docs/ORDER.md; those of one text tie.
        order = "0.9.0", "1.0.0 1.0.0+a 1.0.0+b", *"1.2 1.2+a 1.2+b 0:1.2 01.2 1.002 1.2.0-rc.1 1:0.1".split()
        ranks = {text: n for n, tied in enumerate(order) for text in tied.split()}
        texts = [*ranks, "x y", "", None]
        for _ in range(2000):
            items = [(n, text) for n, text in enumerate(chosen.choices(texts, k=chosen.randrange(12)))]
            for reverse in (False, True):
                found = versions.sorted(items, key=lambda item: item[1], reverse=reverse, invalid="last")
                wanted = sorted((i for i in items if i[1] in ranks), key=lambda i: ranks[i[1]], reverse=reverse)
                self.assertEqual(found, wanted + [item for item in items if item[1] not in ranks])

    def test_in_reverse_the_first_text_that_is_not_a_version_is_named(self):
        for invalid in ({}, {"invalid": "raise"}):
            with self.assertRaises(versions.InvalidVersion) as raised:
                versions.sorted(["1", "1..2", "2", "x y", ""], reverse=True, **invalid)
            self.assertEqual(raised.exception.text, "1..2")

    def test_arguments(self):
        for wrong in ("first", "", "Last", "last\0", "\ud800"):
            self.assertRaises(ValueError, versions.sorted, ["1"], invalid=wrong)
        for wrong in (None, True, b"last"):
            self.assertRaises(TypeError, versions.sorted, ["1"], invalid=wrong)
        self.assertRaises(TypeError, versions.sorted, ["1"], True)
        signature = "(texts, *, key=None, reverse=False, invalid='raise', scheme='mixed')"
        self.assertEqual(str(inspect.signature(versions.sorted)), signature)

    def test_is_not_among_the_names_of_a_star(self):
        names = {}
        exec("from versions import *", names)
        self.assertNotIn("sorted", names)
        self.assertIs(names["kind"], versions.kind)


class Errors(unittest.TestCase):
    def test_texts_and_pickles(self):
        looks = "; a list looks like '>=1.2,<2'"
        why = {
            "1..2": "; at 2: an empty part",
            "": "; at 0: nothing",
            "\ud800": "; at 0: a character past ASCII",
            "a'b": "; at 1: a character that can't stand there",
        }
        for error, words, more in (
            (versions.InvalidVersion, "version", why),
            (versions.InvalidRequirement, "requirement", dict.fromkeys(why, looks)),
        ):
            self.assertTrue(issubclass(error, ValueError))
            self.assertFalse(issubclass(error, UnicodeError))
            for text in ("1..2", "", "\ud800", "a'b"):
                for protocol in range(pickle.HIGHEST_PROTOCOL + 1):
                    back = pickle.loads(pickle.dumps(error(text), protocol))
                    said = f"not a {words}: {text!r}{more[text]}"
                    self.assertEqual((type(back), back.text, str(back)), (error, text, said))
                self.assertEqual(copy.copy(error(text)).text, text)

    def test_each_call(self):
        for call in (
            lambda: versions.sort_key("1..2"),
            lambda: versions.compare("1..2", "1..3"),
            lambda: versions.compare_total("1", "1..2"),
            lambda: versions.Version("1..2"),
            lambda: versions.Requirement("*").matches("1..2"),
            lambda: versions.sorted(["1", "1..2"]),
        ):
            with self.assertRaises(versions.InvalidVersion) as raised:
                call()
            self.assertEqual((raised.exception.text, type(raised.exception.text)), ("1..2", str))
        for call in (lambda: versions.Requirement("1"), lambda: versions.match_all("1", [])):
            with self.assertRaises(versions.InvalidRequirement) as raised:
                call()
            self.assertEqual(raised.exception.text, "1")

    def test_a_type_whose_repr_raises(self):
        class Odd:
            def __repr__(self):
                raise OSError("mine")

        for call in (versions.kind, versions.Version, lambda odd: versions.kinds([odd])):
            self.assertRaisesRegex(OSError, "mine", call, Odd())


class Threads(unittest.TestCase):
    def test_eight_threads_get_the_same_answers(self):
        texts = [f"{n % 5}:{n}.{n % 3}rc{n}-{n}" for n in range(2000)] + ["1..2"]
        wanted = versions.kinds(texts), versions.sort_keys(texts), versions.match_all("^1:1", texts)
        single = [key_of(text) for text in texts]
        answers = []

        def work():
            for _ in range(5):
                many = versions.kinds(texts), versions.sort_keys(texts), versions.match_all("^1:1", texts)
                answers.append((many, [key_of(text) for text in texts]))

        threads = [threading.Thread(target=work) for _ in range(8)]
        for thread in threads:
            thread.start()
        for thread in threads:
            thread.join()
        self.assertEqual(len(answers), 40)
        self.assertTrue(all(answer == (wanted, single) for answer in answers))


    def goes_on_during(self, call):
        """Whether another thread runs before a call has returned."""
        run, begun = threading.Event(), threading.Lock()
        begun.acquire()
        thread = threading.Thread(target=lambda: (begun.acquire(), run.set()))
        thread.start()
        begun.release()
        call()
        answer = run.is_set()
        thread.join()
        return answer

    def test_others_go_on_while_the_library_works(self):
        long, many = "1." * 3_000_000 + "1", ["1.2.3-rc.1"] * 400_000
        wanted, strict = versions.Requirement("=1.2"), versions.Requirement("=1.2.3")
        version, longer = versions.Version(long), versions.Requirement(f">={long},<={long}")
        pre_release = versions.Version(f"1.2.3-{long}")
        dashes = "-" * 30_000_000
        tag = dashes + "1"

        def often(call):
            """A call that takes no longer than a thread waits for a processor."""
            return lambda: [call() for _ in range(10)]

        large = versions.VersionSet(" || ".join(f"=1.{n}.0" for n in range(200_000)))
        others, larger, pickled = ~large, large | versions.VersionSet("=2.*"), (large._form, None, None)
        calls = {
            "VersionSet": lambda: versions.VersionSet(">" + long),
            "VersionSet.of": lambda: versions.VersionSet.of(long),
            "VersionSet of a pickle": often(lambda: versions.VersionSet._of_form(*pickled)),
            "no VersionSet": lambda: versions.InvalidVersionSet(">" + long + ",").start,
            "and": lambda: large & larger,
            "or": lambda: large | larger,
            "not": lambda: ~large,
            "part of": often(lambda: large <= larger),
            "isdisjoint": often(lambda: large.isdisjoint(others)),
            "in a set": lambda: long in large,
            "has_all": lambda: large.has_all(many),
            "filter by a set": lambda: large.filter(many),
            "kind": lambda: versions.kind(long),
            "sort_key": lambda: versions.sort_key(long),
            "compare": lambda: versions.compare(long, long),
            "compare_total": lambda: versions.compare_total(long, long),
            "nth": lambda: version.nth(2_000_000),
            "epoch": lambda: version.epoch,
            "from_tag": lambda: versions.Version.from_tag("-" * 3_000_000 + "1"),
            "from_tag with a prefix": often(lambda: versions.Version.from_tag(tag, dashes)),
            "stability": lambda: version.stability,
            "why_not": lambda: longer.why_not("1"),
            "conflict": lambda: longer.conflict,
            "difference": lambda: version.difference(long),
            "next": lambda: version.next(3_000_000),
            "next_release": version.next_release,
            "next_pre": pre_release.next_pre,
            "metadata": lambda: version.metadata,
            "matches": lambda: wanted.matches(long),
            "matches by an exact range": lambda: strict.matches(long),
            "Requirement": lambda: versions.Requirement(">" + long),
            "filter": lambda: wanted.filter(many),
            "filter by an exact range": lambda: strict.filter(many),
            "kinds": lambda: versions.kinds(many),
            "sort_keys": lambda: versions.sort_keys(many),
            "match_all": lambda: versions.match_all(wanted, many),
            "stabilities": lambda: versions.stabilities(many),
            "in_tags": lambda: versions.in_tags(many),
            "newest": lambda: versions.newest(many),
            "sorted": lambda: versions.sorted(many),
            "Version in deb": lambda: versions.Version(long, scheme="deb"),
            "compare in deb": lambda: versions.compare(long, long, scheme="deb"),
            "sort_keys in deb": lambda: versions.sort_keys(many, scheme="deb"),
            "newest in deb": lambda: versions.newest(many, scheme="deb"),
            "sorted in deb": lambda: versions.sorted(many, scheme="deb"),
        }
        # Only letting the lock go passes it on: the interpreter takes it from no thread for as long as this.
        interval = sys.getswitchinterval()
        sys.setswitchinterval(1000)
        try:
            for name, call in calls.items():
                # On a busy machine the other thread may wait for a processor for longer than one call takes.
                self.assertTrue(any(self.goes_on_during(call) for _ in range(50)), name)
        finally:
            sys.setswitchinterval(interval)


class Package(unittest.TestCase):
    def test_names(self):
        for name in (*versions.__all__, "sorted"):
            self.assertTrue(hasattr(versions, name), name)
            is_known = name in ("Kind", "Scheme", "SchemeName", "__version__")
            self.assertTrue(is_known or getattr(versions, name).__doc__, name)

    def test_functions_are_of_the_package(self):
        one, many = ("kind", "sort_key", "compare", "compare_total"), ("kinds", "sort_keys", "match_all", "sorted")
        for name in (*one, *many, "stabilities", "in_tags", "newest"):
            function = getattr(versions, name)
            self.assertEqual((function.__module__, function.__name__, function.__qualname__), ("versions", name, name))
            for protocol in range(pickle.HIGHEST_PROTOCOL + 1):
                pickled = pickle.dumps(function, protocol)
                self.assertIs(pickle.loads(pickled), function)
                self.assertNotIn(b"_library", pickled)
        for name in ("kind", "sort_key", "compare", "compare_total", "match_all"):
            self.assertIsInstance(getattr(versions, name), types.BuiltinFunctionType)
        errors = "InvalidVersion", "InvalidRequirement", "InvalidVersionSet"
        more = "Stability", "Difference", "DifferenceKind", "Mismatch", "Reason", "VersionSet"
        for name in ("Version", "Requirement", "Range", *more, *errors):
            self.assertEqual(getattr(versions, name).__module__, "versions")

    def test_version_is_that_of_the_header_and_of_the_distribution(self):
        with open(os.path.join(LIBRARY, "versions.h"), encoding="utf-8") as file:
            self.assertIn(f'#define VERSIONS_VERSION "{versions.__version__}"\n', file.read())
        self.assertEqual(versions.__version__, importlib.metadata.version("proved-versions"))

    def test_import_is_silent(self):
        command = [sys.executable, "-I", "-W", "error", "-X", "dev", "-c", "import versions; versions.kind('1')"]
        done = subprocess.run(command, stdout=subprocess.PIPE, stderr=subprocess.STDOUT)
        self.assertEqual((done.returncode, done.stdout), (0, b""))
