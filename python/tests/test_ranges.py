"""The range of keys that a `Requirement` keeps: its bounds, and searches of stores by them."""

import bisect
import copy
import pickle
import sqlite3
import unittest

import versions
from counted import of_library
from versions import Range, Requirement, Version

ALL = ("ideal", "general", "complex")

# From docs/REQUIREMENTS.md: the bounds in hexadecimal, the kinds, and whether the range is exact.
WANTED = {
    ">=1.2.3,<2.0.0": ("000301310203013202030133020202", "00030132020300020300020202", ALL, True),
    ">1.0": ("0003013102030002020200", None, ALL, True),
    "=1.0": ("00030131020300020202", "0003013102030002020200", ("general",), False),
    "^1.2.3": ("00030131020301320203013302", "000301310204", ("ideal",), True),
    "^0.0.3": ("0003000203000203013302", "000300020300020301330204", ("ideal",), True),
    "~1.2": ("000301310203013202", "000301310204", ("general",), False),
    "^1:1.2rc1": ("0131030131020301320172630001013100", "01310301310204", ("general",), False),
    "^1.2.3,<1.9.0": ("00030131020301320203013302", "0003013102030139020300020202", ("ideal",), True),
    "*": ("", None, ALL, True),
    "~1_2": ("00", "00", (), True),
    "<2.0.0": ("", "00030132020300020300020202", ALL, True),
}

# Around those bounds, of each kind.
TEXTS = """0 0.0.2 0.0.3 0.0.3-rc.1 0.0.4 0:1.0 1.0 1.0.0 1.0+x 1.00 1.0_1 1.0-1 1.2 1.2.2 1.2.3-a 1.2.3 1.2.3+x 1.2.3_1
    1.2.3-01 1.2.3.0 1.2.4 1.5 1.5.0 1.8.99 1.9.0-rc.1 1.9.0 1.10.0 1_2 2.0 2.0.0-rc.1 2.0.0 2.0.0.git 2.0.0_1 5.0
    1:1.1 1:1.2rc1 1:1.2 1:1.2_1 1:2.0 a.1""".split()


@of_library
class Ranges(unittest.TestCase):
    def test_bounds(self):
        for text, (low, high, kinds, exact) in WANTED.items():
            requirement, high = Requirement(text), high and bytes.fromhex(high)
            with self.subTest(text):
                self.assertEqual(requirement.range, (bytes.fromhex(low), high, kinds, exact))
                self.assertEqual((requirement.low, requirement.high), (bytes.fromhex(low), high))
                self.assertIs(type(requirement.range), Range)
                self.assertIs(type(requirement.range.exact), bool)
                for back in (copy.copy(requirement), pickle.loads(pickle.dumps(requirement))):
                    self.assertEqual(back.range, requirement.range)

    def test_never_change(self):
        requirement = Requirement("^1.2.3")
        for name in ("low", "high", "range", "_flags", "_text", "other"):
            self.assertRaises(AttributeError, setattr, requirement, name, b"")
            self.assertRaises(AttributeError, delattr, requirement, name)
        requirement.__init__("*")
        self.assertEqual((str(requirement), requirement.range), ("^1.2.3", Requirement("^1.2.3").range))
        self.assertEqual(pickle.loads(pickle.dumps(requirement.range)), requirement.range)

    def test_a_version_matches_as_its_text_does(self):
        for text in WANTED:
            requirement = Requirement(text)
            for each, answer in zip(TEXTS, versions.match_all(text, TEXTS)):
                version = Version(each)
                with self.subTest(requirement=text, text=each):
                    self.assertEqual((version in requirement, each in requirement), (answer, answer))
                    self.assertEqual((requirement.matches(version), requirement.matches(each)), (answer, answer))
                    self.assertEqual(requirement.filter([version, each]), [version, each] if answer else [])

    def test_kinds_and_fields_count_beside_keys(self):
        # By docs/REQUIREMENTS.md. Each has a key between the bounds.
        for requirement, texts in {
            "=1.0": ("0:1.0", "1.0+x", "1.00"),
            "^1.2.3": ("1.3", "1.5_1", "1.2.3.0"),
            "~1.2": ("1.2.5", "1.2_1", "1.2.x"),
            "^1.2": ("1.2.5",),
        }.items():
            wanted = Requirement(requirement)
            for text in texts:
                version = Version(text)
                self.assertTrue(wanted.low <= version.key < wanted.high, text)
                self.assertFalse(wanted.matches(version) or version in wanted or wanted.filter([version]), text)
                self.assertFalse(wanted.matches(text) or text in wanted or wanted.filter([text]), text)

    def test_the_ends(self):
        # The low bound is in the range, the high bound is not.
        wanted = Requirement(">=1.2.3,<2.0.0")
        ends = [Version(text) for text in ("1.2.3", "1.2.3+x", "2.0.0-rc.1", "1.2.3-rc.1", "2.0.0", "2.0.0+x")]
        self.assertEqual([version in wanted for version in ends], [True] * 3 + [False] * 3)
        self.assertEqual(wanted.filter(ends), ends[:3])
        self.assertEqual(wanted.filter(map(str, ends)), list(map(str, ends[:3])))

    def test_long_lists_and_bounds(self):
        long = "1." * 300_000 + "1"
        lists = (f">={long}", True, False), (f"<{long}", False, True), (f">={long},<={long}", True, True)
        for text, low, high in lists:
            requirement, version = Requirement(text), Version(long)
            self.assertEqual(requirement.low, version.key if low else b"")
            self.assertEqual(requirement.high, version.key + b"\0" * (low and high) if high else None)
            self.assertEqual((version in requirement, long in requirement), (low, low))
            self.assertEqual(requirement.filter([version, long]), [version, long] if low else [])
        many = Requirement(",".join([">=1.2.3"] * 100_000) + ",<2.0.0")
        self.assertEqual(many.range, Requirement(">=1.2.3,<2.0.0").range)
        for size in range(330, 360):
            text = "a" * size
            self.assertEqual(Requirement(f">={text}").low, versions.sort_key(text))

    def test_what_is_kept_is_that_of_the_text(self):
        class Evil(str):
            def __str__(self):
                return "*"

        requirement = Requirement(Evil("=1.2.3"))
        self.assertEqual((str(requirement), requirement.range), ("=1.2.3", Requirement("=1.2.3").range))

    def test_requirements_of_a_subclass_and_of_texts_match_alike(self):
        class Mine(Requirement):
            def matches(self, version):
                raise OSError("mine")

        for text in WANTED:
            answers = versions.match_all(text, TEXTS)
            self.assertEqual(versions.match_all(Mine(text), TEXTS), answers)
            self.assertEqual([each in Mine(text) for each in TEXTS], answers)


class Stores(unittest.TestCase):
    """A sorted list and a table of keys, asked between the bounds of a requirement."""

    def setUp(self):
        self.sorted = sorted((versions.sort_key(text), text) for text in TEXTS)
        self.matched = {text: {t for t, m in zip(TEXTS, versions.match_all(text, TEXTS)) if m} for text in WANTED}

    def test_a_sorted_list(self):
        keys = [key for key, _ in self.sorted]
        for text, matched in self.matched.items():
            wanted = Requirement(text)
            low = bisect.bisect_left(keys, wanted.low)
            high = None if wanted.high is None else bisect.bisect_left(keys, wanted.high)
            among = [each for _, each in self.sorted[low:high]]
            self.assertLessEqual(matched, set(among), text)
            self.assertEqual({each for each in among if each in wanted}, matched)
            if wanted.range.exact:
                self.assertEqual({each for each in among if versions.kind(each) in wanted.range.kinds}, matched)

    def test_sqlite(self):
        store = sqlite3.connect(":memory:")
        self.addCleanup(store.close)
        store.execute("CREATE TABLE packages (version TEXT, key BLOB)")
        store.execute("CREATE INDEX by_key ON packages (key)")
        store.executemany("INSERT INTO packages (key, version) VALUES (?, ?)", self.sorted)
        for text, matched in self.matched.items():
            wanted = Requirement(text)
            query, bounds = "SELECT version FROM packages WHERE key >= ?", [wanted.low]
            if wanted.high is not None:
                query, bounds = f"{query} AND key < ?", [wanted.low, wanted.high]
            found = {each for (each,) in store.execute(query, bounds)}
            self.assertLessEqual(matched, found, text)
            self.assertEqual(set(wanted.filter(found)), matched)
