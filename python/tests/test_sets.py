"""`VersionSet`: what is in a set, what is made of sets, and which texts are none."""

import copy
import itertools
import os
import pickle
import random
import sys
import threading
import time
import unittest
import weakref

import versions
from counted import of_library
from lists import LongLists
from versions import InvalidVersion, InvalidVersionSet, Requirement, Version, VersionSet, sort_key

sys.path.append(os.path.join(os.path.dirname(os.path.abspath(__file__)), "..", "..", "tests", "support"))
import sets  # noqa: E402

MODEL = sets.Model(versions.kind, versions.compare)

# A set, what is in it, and what is not.
ROWS = (
    (">=1.2, <2", "1.2 1.2.5 1.9.0-rc.1", "1.2rc1 2 2.0.0-rc.1"),
    ("^1.2", "1.2 1.2.5 1.2.0-rc.1 1.10 1.2_3", "1.1.9 1.2rc1 2 2.0.0-rc.1"),
    ("~1.2.3", "1.2.3 1.2.4 1.2.3.1", "1.2.3-rc.1 1.3.0"),
    ("~1.2", "1.2 1.5", "2 1.1"),
    ("~1", "1 1.5", "2 0.9"),
    ("~=1.2", "1.2 1.5", "2 1.1"),
    ("~>1.2", "1.2 1.5", "2 1.1"),
    ("^0.2.3", "0.2.3 0.2.9", "0.3 0.2.2"),
    ("^0.0.3", "0.0.3 0.0.3.1", "0.0.2 0.0.4 0.1"),
    ("^0.0", "0.0 0.0.7", "0.1"),
    ("^1:0.2", "1:0.2 1:0.2.1", "0.2 2:0.2 1:0.3"),
    ("=1.2.*", "1.2 1.2-1 1.2.0-rc.1 1.2.x", "1.2rc1 1.20"),
    ("==1.2.*", "1.2 1.2-1 1.2.0-rc.1 1.2.x", "1.2rc1 1.20"),
    ("!=1.2.*", "1.2rc1 1.20", "1.2 1.2-1 1.2.0-rc.1 1.2.x"),
    ("!=1.5, >=1", "1.5.1 1", "1.5 0:1.5 1.5+x 0.9"),
    ("<1 || >=2 <3", "0.9 2.5", "1 3"),
    ("=1.2", "1.2 0:1.2 01.2 1.2+x", "1.2-1 1.2.0 1.3"),
    ("<=1.2", "1.2 0:1.2 1.1", "1.2.0 1.2.1"),
    (">1.2", "1.2.0 1.2.1", "1.2 0:1.2 1.1"),
    ("*", "0 1.2 1:2_3 latest", ""),
    (">1 <1", "", "0 1 2"),
    (" \t>= 1.2\t,<\t2 ", "1.2 1.9", "2 1.1"),
    (">=1||<0.5,*", "1 0.4", "0.5"),
)

# A text that is no set, the place of its first wrong piece, and words of why.
WRONG = (
    ("1.2", 0, "an operator is missing"),
    (">=1.2,", 6, "a member is missing"),
    ("||", 0, "a member is missing"),
    (">= ", 3, "a version is missing"),
    ("=>1", 1, "not a version"),
    (">=1.2 | <2", 6, "one bar"),
    ("1 - 2", 0, "an operator is missing"),
    (">=1.x", 2, "a part x"),
    (">=v1.2", 2, "begins with v"),
    (">=latest", 2, "no digit"),
    ("", 0, "a member is missing"),
    (" \t", 2, "a member is missing"),
    (",*", 0, "a member is missing"),
    ("*,,*", 2, "a member is missing"),
    ("* ||", 4, "a member is missing"),
    ("* || || *", 5, "a member is missing"),
    (">,*", 1, "a version is missing"),
    ("~1.2.*", 1, ".*"),
    ("<<1", 2, "for Debian's versions alone"),
    ("=1.2-1.*", 1, ".*"),
    ("=1..2", 1, "not a version"),
    ("^1.2 \u00e9", 5, "an operator is missing"),
    ("\u00e9\u00e9, 2", 0, "an operator is missing"),
    ("*, =\u00e9", 4, "not a version"),
    ("*\u00a0*", 0, "an operator is missing"),
    ("*\n", 0, "an operator is missing"),
    ("=1\0", 1, "not a version"),
    ("\ud800", 0, "an operator is missing"),
    ("* \U0001f600\ud83d", 2, "an operator is missing"),
    (">=1.2, ^1\udcff", 8, "not a version"),
)

NONE = ["", "1..2", "1.2.3 ", ".", "1\0", "1.2.3-ä", "\ud800", "1.2.3\udcff", "x y"]

NOTHING, ALL = VersionSet(">1 <1"), VersionSet("*")


class MySet(VersionSet):
    pass


class Slotted(VersionSet):
    __slots__ = ("place", "unset")


class Told(VersionSet):
    """With arguments of its own, and a state that it makes itself."""

    def __new__(cls, text, name):
        return super().__new__(cls, text)

    def __init__(self, text, name):
        self.name = name

    def __getstate__(self):
        return {"named": self.name}

    def __setstate__(self, state):
        self.name = state["named"]


class Reduced(VersionSet):
    def __reduce__(self):
        return VersionSet, ("*",)


class Copied(VersionSet):
    def __copy__(self):
        return "copied"


def made_in_each_way(cls=VersionSet):
    """Sets and what their `str` and their `repr` are."""
    name, low, high = cls.__name__, sort_key("1.2").hex(), sort_key("2").hex()
    yield cls(">=1.2, <2"), ">=1.2, <2", f"{name}('>=1.2, <2')"
    yield cls(" ^1.2||* "), " ^1.2||* ", f"{name}(' ^1.2||* ')"
    yield cls.of("1.2"), f"[{low}, {low}00)", f"{name}.of('1.2')"
    yield cls.of(Version("0:1.2")), f"[{low}, {low}00)", f"{name}.of('0:1.2')"


def computed():
    low, high = sort_key("1.2").hex(), sort_key("2").hex()
    for made, shown in (
        (VersionSet(">=1.2") & VersionSet("<2"), f"[{low}, {high})"),
        (~VersionSet(">=1.2, <2"), f"[, {low}) || [{high}, )"),
        (VersionSet("<1.2") | VersionSet(">=2"), f"[, {low}) || [{high}, )"),
        (NOTHING | VersionSet(">=2"), f"[{high}, )"),
        (~NOTHING, "[, )"),
        (~ALL, "nothing"),
    ):
        yield made, shown, f"<VersionSet: {shown}>"


class Sets(unittest.TestCase):
    def test_what_is_in_a_set(self):
        for text, has, has_not in ROWS:
            made = VersionSet(text)
            for answer, drawn in ((True, has.split()), (False, has_not.split())):
                for version in drawn:
                    with self.subTest(text=text, version=version):
                        self.assertIs(version in made, answer)
                        self.assertIs(Version(version) in made, answer)
                        self.assertIs(version in ~made, not answer)
                self.assertEqual(made.has_all(drawn), [answer] * len(drawn), text)
                self.assertEqual(made.filter(drawn), drawn if answer else [], text)

    def test_no_set(self):
        for text, start, words in WRONG:
            with self.subTest(text=ascii(text)), self.assertRaises(InvalidVersionSet) as raised:
                VersionSet(text)
            error = raised.exception
            self.assertEqual((error.text, error.start), (text, start), ascii(text))
            self.assertIn(words, error.reason)
            self.assertEqual(str(error), f"not a set of versions: {text!r}; at {start}: {error.reason}")

    def test_errors_are_values(self):
        self.assertTrue(issubclass(InvalidVersionSet, ValueError))
        for text, start, _ in WRONG:
            error = InvalidVersionSet(text)
            backs = [pickle.loads(pickle.dumps(error, n)) for n in range(pickle.HIGHEST_PROTOCOL + 1)]
            for back in (*backs, copy.copy(error)):
                self.assertEqual((type(back), back.text, back.start), (InvalidVersionSet, text, start))
                self.assertEqual((back.reason, str(back)), (error.reason, str(error)))
        # One made by hand of a text that is a set
        by_hand = InvalidVersionSet("*")
        self.assertEqual((by_hand.start, by_hand.reason, str(by_hand)), (0, "", "not a set of versions: '*'"))

    def test_no_text(self):
        for other in (None, 1.2, 5, b"*", ["*"], Version("1.2"), Requirement("*"), VersionSet("*"), object):
            with self.subTest(other=other):
                words = f"a text is a str, and this is of type {type(other).__name__}"
                if not isinstance(other, VersionSet):
                    self.assertRaisesRegex(TypeError, words, VersionSet, other)
                if not isinstance(other, Version):
                    self.assertRaisesRegex(TypeError, words, VersionSet.of, other)
                    self.assertRaisesRegex(TypeError, words, ALL.__contains__, other)
                    if other is not None:
                        self.assertRaisesRegex(TypeError, words, ALL.filter, ["1.2", other])
                        self.assertRaisesRegex(TypeError, words, ALL.has_all, ["1.2", other])
        for call in (VersionSet, VersionSet.of, ALL.filter, ALL.has_all, ALL.isdisjoint):
            self.assertRaises(TypeError, call)
            self.assertRaises(TypeError, call, "*", "*")

    def test_names_of_arguments(self):
        self.assertEqual(VersionSet(text="=1"), VersionSet.of(version="1"))
        self.assertEqual((ALL.filter(versions=["1"]), ALL.has_all(texts=["1"])), (["1"], [True]))

    def test_no_version(self):
        for made in (ALL, NOTHING):
            for text in NONE:
                for call in (made.__contains__, VersionSet.of):
                    with self.assertRaises(InvalidVersion) as raised:
                        call(text)
                    self.assertEqual((raised.exception.text, type(raised.exception.text)), (text, str))

    def test_the_set_of_any_version(self):
        for text in ("1.2", "0:1.2", "latest", "v1.2", "1.x", "1_2", "1.2.3-rc.1+x", "1." * 5000 + "1"):
            for made in (VersionSet.of(text), VersionSet.of(Version(text)), MySet.of(text)):
                self.assertIn(text, made)
                self.assertEqual([low for low, _ in made.intervals], [sort_key(text)])
                self.assertNotIn("9" + text, made)
        self.assertEqual(VersionSet.of("1.2"), VersionSet("=0:1.2"))
        self.assertEqual((type(MySet.of("1")), type(VersionSet.of("1"))), (MySet, VersionSet))

    def test_a_subclass_of_str_is_its_text(self):
        class Evil(str):
            def answer(self, *_):
                return b"9.9.9" * 1000

            encode = __str__ = __repr__ = __format__ = __iter__ = __getitem__ = __hash__ = answer

        made, of = VersionSet(Evil("=1.2")), VersionSet.of(Evil("1.2"))
        self.assertEqual((str(made), type(str(made)), repr(made)), ("=1.2", str, "VersionSet('=1.2')"))
        self.assertEqual((repr(of), of), ("VersionSet.of('1.2')", made))
        self.assertIn(Evil("1.2"), made)
        self.assertIs(made.filter([evil := Evil("1.2")])[0], evil)
        self.assertRaises(TypeError, made.filter, Evil("1.2"))
        with self.assertRaises(InvalidVersionSet) as raised:
            VersionSet(Evil("1.2"))
        self.assertEqual((type(raised.exception.text), raised.exception.text), (str, "1.2"))

    def test_filter_returns_the_items_that_it_was_given(self):
        items = [make(text) for text in ("1.2", "1.2.3", "5.0", "1.5") for make in (Version, str, MyVersion)]
        items[3:3] = [None, "1..2", float("nan"), "\ud800", ""]
        for text, matched in ((">1.2, <2", ("1.2.3", "1.5")), ("=5.0 || <1.2.3", ("1.2", "5.0")), ("<0", ())):
            right = [item for item in items if str(item) in matched]
            for given in (items, iter(items), tuple(items)):
                self.assertEqual(list(map(id, VersionSet(text).filter(given))), list(map(id, right)), text)
        self.assertEqual([VersionSet("*").filter(empty) for empty in ([], (), iter(()), {})], [[]] * 4)
        for one in ("1.2", b"1.2", ""):
            for call in (ALL.filter, ALL.has_all):
                self.assertRaisesRegex(TypeError, "many texts are wanted", call, one)

    def test_many_texts(self):
        made, nan = VersionSet("^1.2 || =3"), float("nan")
        texts = ["1.5", None, "2", "1..2", nan, Version("3"), MyVersion("3.0"), "\ud800", "0:3", ""]
        answers = [True, None, False, None, None, True, False, None, True, None]
        for call in (made.has_all, lambda given: versions.match_all(made, given)):
            for given in (texts, iter(texts), tuple(texts)):
                self.assertEqual(call(given), answers)
        self.assertEqual(versions.match_all(requirement=MySet("=3"), texts=["3"]), [True])
        self.assertEqual((made.has_all([]), made.has_all({}), NOTHING.has_all(["1", ""])), ([], [], [False, None]))
        self.assertRaises(OSError, made.has_all, failing())
        self.assertRaises(OSError, made.filter, failing())


class MyVersion(Version):
    def __str__(self):
        return "9.9" if self._text == "9.9" else super().__str__()


def failing():
    yield "1.2"
    raise OSError("mine")


class Values(unittest.TestCase):
    def test_how_they_are_shown(self):
        for made, text, shown in (*made_in_each_way(), *made_in_each_way(MySet), *computed()):
            with self.subTest(shown=shown):
                self.assertEqual((str(made), repr(made)), (text, shown))
                self.assertEqual((f"{made:>60}|", f"{made}"), (f"{text:>60}|", text))
                if not shown.startswith("<"):
                    self.assertEqual(eval(shown), made)
                if made._text is None:
                    self.assertRaises(InvalidVersionSet, VersionSet, text)

    def test_never_changes(self):
        for made in (VersionSet("^1.2"), VersionSet.of("1.2"), ~VersionSet("^1.2")):
            shown, form, hashed = str(made), made._form, hash(made)
            for name in ("_form", "_text", "_version", "intervals", "other", "__doc__"):
                self.assertRaises(AttributeError, setattr, made, name, b"")
                self.assertRaises(AttributeError, delattr, made, name)
            made.__init__("2.0")
            other = made
            other &= VersionSet("<1")
            self.assertFalse(hasattr(made, "__dict__"))
            self.assertEqual((str(made), made._form, hash(made)), (shown, form, hashed))

    def test_equal_sets_have_equal_bytes_and_hash_alike(self):
        for alike in (
            ["^1.2", ">=1.2 =1.*", "=1.* >=1.2 || ^1.2, =1.*, !=1.1", "~1.2", ">=0:1.2+x =0:1.*"],
            ["*", "<1 || >=1", "!=1 || =1", "* || <1", ">=1 || <2"],
            [">1 <1", "<1 >1", "=1 =2", "!=1 =1", "=1.* =2.*"],
            ["=1.2", "==1.2", "=0:1.2", "=01.2", ">=1.2 <=1.2"],
        ):
            sets = [VersionSet(text) for text in alike]
            self.assertEqual(len(set(sets)), 1, alike)
            self.assertEqual({made._form for made in sets}, {sets[0]._form})
            self.assertEqual({hash(made) for made in sets}, {hash(sets[0])})
            self.assertTrue(all(a == b and not a != b and a <= b for a in sets for b in sets))
            self.assertEqual([str(made) for made in sets], alike)
        self.assertEqual(len({VersionSet("^1.2"), VersionSet("^1.3"), VersionSet("^1.2") | NOTHING}), 2)
        self.assertEqual(MySet("^1.2"), VersionSet("^1.2"))

    def test_other_types(self):
        made = VersionSet("^1.2")
        for other in ("^1.2", made._form, 1, None, Version("1.2"), Requirement("^1.2"), {"1.2"}, VersionSet):
            with self.subTest(other=other):
                self.assertNotEqual(made, other)
                for name in ("and", "or", "sub", "xor", "le", "lt", "ge", "gt", "eq", "ne"):
                    self.assertIs(getattr(made, f"__{name}__")(other), NotImplemented)
                for call in (lambda: made & other, lambda: other | made, lambda: made <= other, lambda: other > made,
                             lambda: made - other, lambda: other - made, lambda: made ^ other, lambda: other ^ made):
                    self.assertRaises(TypeError, call)
                self.assertRaisesRegex(TypeError, f"VersionSet, and this is of type {type(other).__name__}",
                                       made.isdisjoint, other)

        class Other:
            def __rand__(self, other):
                return "asked"

            __ror__ = __gt__ = __eq__ = __rand__

        self.assertEqual((made & Other(), made | Other(), made < Other(), made == Other()), ("asked",) * 4)

    def test_pickles(self):
        for made, text, shown in (*made_in_each_way(), *made_in_each_way(MySet), *computed()):
            if type(made) is MySet:
                made.note = ["mine"]
            for protocol in range(pickle.HIGHEST_PROTOCOL + 1):
                pickled = pickle.dumps(made, protocol)
                back = pickle.loads(pickled)
                self.assertEqual((back, hash(back), type(back)), (made, hash(made), type(made)))
                self.assertEqual((str(back), repr(back), back._form), (text, shown, made._form))
                self.assertEqual(getattr(back, "note", None), getattr(made, "note", None))
                self.assertNotIn(b"_library", pickled)

    def test_copies(self):
        for made, *_ in (*made_in_each_way(), *computed()):
            self.assertIs(copy.copy(made), made)
            self.assertIs(copy.deepcopy([made])[0], made)
        for made, text, shown in made_in_each_way(MySet):
            made.note = ["mine"]
            shallow, deep = copy.copy(made), copy.deepcopy(made)
            for back in (shallow, deep):
                self.assertEqual((back, str(back), repr(back), type(back)), (made, text, shown, MySet))
                self.assertIsNot(back, made)
                self.assertEqual(back.note, ["mine"])
            self.assertIs(shallow.note, made.note)
            self.assertIsNot(deep.note, made.note)

    def test_what_subclasses_say_of_pickles_and_copies(self):
        slotted, told = Slotted("^1.2"), Told("^1.2", "mine")
        slotted.place, slotted.unset = ["here"], 1
        del slotted.unset
        for protocol in range(pickle.HIGHEST_PROTOCOL + 1):
            back = pickle.loads(pickle.dumps(slotted, protocol))
            self.assertEqual((back, back.place, hasattr(back, "unset")), (slotted, ["here"], False))
            back = pickle.loads(pickle.dumps(told, protocol))
            self.assertEqual((type(back), str(back), back.name), (Told, "^1.2", "mine"))
            back = pickle.loads(pickle.dumps(Reduced("^1.2"), protocol))
            self.assertEqual((type(back), str(back)), (VersionSet, "*"))
        self.assertIs(copy.copy(slotted).place, slotted.place)
        self.assertIsNot(copy.deepcopy(slotted).place, slotted.place)
        self.assertEqual(copy.copy(Copied("*")), "copied")
        self.assertEqual(type(copy.deepcopy(Copied("*"))), Copied)

    def test_a_pickle_that_holds_anything_is_refused(self):
        form, of_form = VersionSet("^1.2 || =3")._form, VersionSet._of_form
        # One of 32 drawn edits may leave a form, of other keys.
        chosen, refused = random.Random(1), 0
        bad = [form[:size] for size in range(len(form))] + [form + b"\0", b"\xff" * 99]
        bad += [bytes([scheme]) + form[1:] for scheme in (0, len(versions.SCHEMES) + 1, 255)]
        for each in bad:
            self.assertRaisesRegex(ValueError, "not the form of a set", of_form, each, None, None)
        for _ in range(2000):
            edited = bytearray(form)
            edited[chosen.randrange(len(form))] = chosen.randrange(256)
            try:
                made = of_form(bytes(edited), None, None)
            except ValueError:
                refused += 1
            else:
                # It may be of any scheme. In none is the second text a version.
                self.assertEqual(made.has_all(["1.2", "x y"])[1:], [None])
                self.assertEqual((~~made, made & made), (made, made))
        self.assertGreater(refused, 500)
        for wrong in ("text", None, 5, bytearray(form), list(form)):
            self.assertRaisesRegex(TypeError, "a form is bytes", of_form, wrong, None, None)
        for wrong in (b"*", 5, ()):
            self.assertRaisesRegex(TypeError, "a text is a str", of_form, form, wrong, None)
            self.assertRaisesRegex(TypeError, "a text is a str", of_form, form, None, wrong)
        self.assertEqual(of_form(type("Bytes", (bytes,), {"__eq__": None})(form), None, None), VersionSet("^1.2 || =3"))

    def test_subclasses(self):
        class Named:
            name = "mixed in"

        class Mixed(Named, MySet):
            __slots__ = ("place",)

        plain, mine, mixed = VersionSet("<2"), MySet(">=1"), Mixed("^1")
        for a, b in itertools.product((plain, mine, mixed), repeat=2):
            self.assertEqual([type(made) for made in (a & b, a | b, ~a, a - b, a ^ b)], [VersionSet] * 5)
        self.assertEqual((mine & plain, plain & mixed), (VersionSet(">=1 <2"), VersionSet("^1")))
        self.assertTrue(mixed < mine and mixed <= plain and plain > mixed and not plain.isdisjoint(mixed))
        self.assertEqual(versions.match_all(mixed, ["1.2", "2"]), [True, False])
        self.assertEqual((repr(mixed), str(mixed)), ("Mixed('^1')", "^1"))

    def test_a_set_of_a_set(self):
        for made, text, shown in (*made_in_each_way(), *computed()):
            for again in (VersionSet(made), VersionSet(made, scheme="mixed"), VersionSet(text=MySet(made))):
                self.assertEqual((type(again), again, hash(again)), (VersionSet, made, hash(made)))
                self.assertEqual((str(again), repr(again), again._form), (text, shown, made._form))
            mine = MySet(made)
            self.assertEqual((type(mine), mine, str(mine)), (MySet, made, text))
            self.assertEqual(pickle.loads(pickle.dumps(mine)), made)

    def test_all_and_nothing(self):
        for cls in (VersionSet, MySet, Told):
            full, empty = cls.all(), cls.empty()
            self.assertEqual((type(full), full, str(full)), (cls, ALL, "*"))
            self.assertEqual((type(empty), empty, str(empty), bool(empty)), (cls, NOTHING, "nothing", False))
        for call in (VersionSet.all, VersionSet.empty):
            self.assertRaisesRegex(ValueError, "a scheme is one of mixed, deb", call, "dpkg")
            self.assertRaisesRegex(TypeError, "a scheme is a str", call, VersionSet("*"))

    def test_the_union_of_many(self):
        texts = [f"={n * 7 % 33}" for n in range(33)]
        for count in range(33):
            sets, either = [MySet(text) for text in texts[:count]], VersionSet(" || ".join(texts[:count]) or ">1 <1")
            for given in (sets, iter(sets), (made for made in sets), sets + [NOTHING] + sets):
                made = VersionSet.union(given, scheme="mixed")
                self.assertEqual((type(made), made, made._text, made._version), (VersionSet, either, None, None))
        self.assertEqual(MySet.union(sets=[VersionSet("<1"), VersionSet(">=1")]), ALL)
        self.assertEqual(VersionSet.union([VersionSet("<1")]), VersionSet("<1"))
        self.assertRaisesRegex(ValueError, "of no sets, the scheme is to be given", VersionSet.union, [])
        for wrong in (["*"], "*", [ALL, None], [ALL, Version("1")], [[ALL]], [Requirement("*")]):
            self.assertRaisesRegex(TypeError, "a set of versions is a VersionSet, and this is of", VersionSet.union, wrong)
        for wrong in (ALL, None, 5):
            self.assertRaisesRegex(TypeError, "is not iterable", VersionSet.union, wrong)
        self.assertRaises(OSError, VersionSet.union, failing())

    @of_library
    def test_the_union_of_a_hundred_thousand(self):
        sets = [VersionSet.of(str(n)) for n in range(100_000)]
        random.Random(10).shuffle(sets)
        began = time.process_time()
        self.assertEqual(len(VersionSet.union(sets).intervals), 100_000)
        # Each merged into all before it would copy more than 50 GB.
        self.assertLess(time.process_time() - began, 10)

    def test_weak_references(self):
        for make in (VersionSet, MySet):
            called, made = [], make("*")
            reference = weakref.ref(made, called.append)
            self.assertIs(reference(), made)
            del made
            self.assertIsNone(reference())
            self.assertEqual(called, [reference])


# Of each kind, with parts that tie, zeros, letters, epochs and all that may follow the parts.
VERSIONS = """
0 0.0 0.0.0 0.0.3 0.1 0.1.0-rc.1 00.1 1 1.0 1.0.0 1.2 01.2 0:1.2 1.002 1.2+x 1.2-1 1.2.0-rc.1 1.2.0 1.2rc1 1.2.3
1.2.3.1 1.2.3-rc.1+b 1.2_3 1.10 1.20 1.a 1.2.a 1.x.2 2rc1.1 2 2.0.0-rc.1 2.0 3.1-4+g 1:0.1 1:1.2 2:1_3 1.2~rc1 1_2 0_1
10.2+0.93+1-1 1.2_3:4 1.2:3 r1:2 1:2:3 a.1 1.2.git 20.0026.1_0-2+0.93 8:2007f~dfsg-7
""".split()
SLIPS = ["v1.2", "1.x", "latest", "1..2", "1.2-x", "X.1", "V2", "1_x", "é"]
OPERATORS = [*sets.SINGLE, "=", "=", "!=", "^", "~"]


def drawn_member(chosen):
    if chosen.random() < 0.04:
        return chosen.choice("***=&")
    operator = chosen.choice(OPERATORS if chosen.random() < 0.99 else sets.DOUBLED)
    version = chosen.choice(VERSIONS if chosen.random() < 0.98 else SLIPS)
    star = ".*" if chosen.random() < (0.4 if "=" in operator[:2] else 0.01) else ""
    return operator + chosen.choice(["", "", " ", "\t "]) + version + star


def drawn_text(chosen):
    text = drawn_member(chosen)
    for _ in range(chosen.randrange(6)):
        usual = chosen.random() < 0.98
        text += chosen.choice([",", " ", ", ", "\t", " || ", "||"] if usual else ["|", "", ",,", "|||"])
        text += drawn_member(chosen)
    return chosen.choice(["", "", " "]) + text + chosen.choice(["", "\t", " "])


def is_set(text):
    try:
        return MODEL.read(text) != []
    except sets.Wrong:
        return False


@of_library
class Laws(unittest.TestCase):
    def test_what_is_a_set_and_what_is_in_it_beside_the_model(self):
        chosen, rights, inside = random.Random(3), 0, 0
        for _ in range(1000):
            text = drawn_text(chosen)
            if not is_set(text):
                self.assertRaises(InvalidVersionSet, VersionSet, text)
                continue
            answers = [MODEL.has(MODEL.read(text), version) for version in VERSIONS]
            self.assertEqual(VersionSet(text).has_all(VERSIONS), answers, text)
            rights, inside = rights + 1, inside + sum(answers)
        self.assertTrue(400 < rights < 900, rights)
        self.assertTrue(0.1 < inside / (rights * len(VERSIONS)) < 0.9, inside)

    def drawn(self, seed, count):
        """Sets, and which of the versions the model has in each."""
        chosen = random.Random(seed)
        texts = [text for text in (drawn_text(chosen) for _ in range(3 * count)) if is_set(text)][: count - 5]
        texts += ["*", ">1 <1", "^1.2", "=1.2.3", ">=1.2 <1.2.1"]
        for text in texts:
            yield VersionSet(text), [MODEL.has(MODEL.read(text), version) for version in VERSIONS]

    def test_two_sets(self):
        drawn = list(self.drawn(4, 90))
        parts = meets = 0
        for (a, in_a), (b, in_b) in itertools.product(drawn, repeat=2):
            both, either = a & b, a | b
            self.assertEqual(both.has_all(VERSIONS), [x and y for x, y in zip(in_a, in_b)])
            self.assertEqual(either.has_all(VERSIONS), [x or y for x, y in zip(in_a, in_b)])
            self.assertEqual((~both, ~either), (~a | ~b, ~a & ~b))
            self.assertEqual((a - b).has_all(VERSIONS), [x and not y for x, y in zip(in_a, in_b)])
            self.assertEqual((a ^ b).has_all(VERSIONS), [x != y for x, y in zip(in_a, in_b)])
            self.assertEqual((a - b, a ^ b, a ^ b ^ b), (a & ~b, either - both, a))
            self.assertEqual(VersionSet.union([a, b, a]), either)
            self.assertEqual((both, either, a & either, a | both), (b & a, b | a, a, a))
            self.assertTrue(both <= a <= either and either >= b >= both)
            # Each of these by the others
            part = not a & ~b
            self.assertEqual((a <= b, b >= a, both == a, either == b), (part,) * 4)
            self.assertEqual((a < b, b > a), (part and a != b,) * 2)
            self.assertEqual(a == b, a <= b and a >= b)
            self.assertEqual((a == b, a != b), (a._form == b._form, a._form != b._form))
            self.assertEqual((a.isdisjoint(b), b.isdisjoint(a), bool(both)), (a <= ~b, not both, both != NOTHING))
            if any(x and not y for x, y in zip(in_a, in_b)):
                self.assertFalse(a <= b)
            if any(x and y for x, y in zip(in_a, in_b)):
                self.assertFalse(a.isdisjoint(b))
            parts, meets = parts + (a < b), meets + (not a.isdisjoint(b))
        self.assertTrue(300 < parts < 7000 and 1000 < meets < 8000, (parts, meets))

    def test_one_set(self):
        for a, in_a in self.drawn(5, 400):
            self.assertEqual((~a).has_all(VERSIONS), [not x for x in in_a])
            self.assertEqual([version in a for version in VERSIONS], in_a)
            self.assertEqual(a.filter(VERSIONS), [version for version, x in zip(VERSIONS, in_a) if x])
            self.assertEqual((~~a, a & a, a | a, a | ~a, a & ~a), (a, a, a, ALL, NOTHING))
            self.assertEqual((a & ALL, a | NOTHING, a | ALL, a & NOTHING), (a, a, ALL, NOTHING))
            self.assertTrue(a <= a and a >= a and not a < a and not a > a and NOTHING <= a <= ALL)
            self.assertEqual((bool(a), a.isdisjoint(a), a.isdisjoint(~a)), (a != NOTHING, not a, True))

    def test_three_sets(self):
        drawn = [made for made, _ in self.drawn(6, 30)]
        for a, b, c in itertools.product(drawn, repeat=3):
            self.assertEqual((a & (b | c), a | (b & c)), ((a & b) | (a & c), (a | b) & (a | c)))
            self.assertEqual((a & (b & c), a | (b | c)), ((a & b) & c, (a | b) | c))

    def test_intervals(self):
        keys = {version: sort_key(version) for version in VERSIONS}
        counts = set()
        for a, in_a in self.drawn(7, 400):
            for made, answers in ((a, in_a), (~a, [not x for x in in_a])):
                intervals = made.intervals
                self.assertIsInstance(intervals, tuple)
                ends = [end for interval in intervals for end in interval]
                self.assertNotIn(None, ends[:-1])
                known = ends[:-1] if ends and ends[-1] is None else ends
                self.assertEqual(known, sorted(set(known)))
                self.assertTrue(all(type(interval) is tuple and type(interval[0]) is bytes for interval in intervals))
                for version, answer in zip(VERSIONS, answers):
                    key = keys[version]
                    found = any(low <= key and (high is None or key < high) for low, high in intervals)
                    self.assertEqual(found, answer, (made, version))
                counts.add(len(intervals))
        self.assertTrue({0, 1, 2, 3, 4} <= counts, counts)
        self.assertEqual((ALL.intervals, NOTHING.intervals), (((b"", None),), ()))


class Newest(unittest.TestCase):
    def by_hand(self, items, wanted, stability=None, tags=False):
        newest = of_newest = None
        for item in items:
            text = item if isinstance(item, (str, Version)) else ""
            try:
                version = Version.from_tag(text) if tags else Version(text)
            except InvalidVersion:
                continue
            if version in wanted and (stability is None or version.stability >= stability):
                if newest is None or version > of_newest:
                    newest, of_newest = item, version
        return newest

    def test_newest(self):
        texts = ["1.9", "1.10", "2.0rc1", "0:1.10", "x y", None, "3"]
        self.assertEqual(versions.newest(texts, VersionSet("<2 || >3")), "1.10")
        self.assertEqual(versions.newest(texts, requirement=VersionSet("<2.0")), "2.0rc1")
        self.assertEqual(versions.newest(texts, VersionSet("<2.0"), "stable"), "1.10")
        self.assertEqual(versions.newest(texts, VersionSet("!=3, !=1.10"), "stable"), "1.9")
        self.assertIsNone(versions.newest(texts, NOTHING))
        tags = ["v1.9.0", "latest", "v2.0.0", "release-1.10", "v2.0.0-beta.1", None]
        self.assertEqual(versions.newest(tags, VersionSet("<2 !=2.0.0-beta.1"), tags=True), "release-1.10")
        self.assertEqual(versions.newest(tags, VersionSet("<2.0.0"), versions.Stability.BETA, True), "v2.0.0-beta.1")
        self.assertIsNone(versions.newest(tags, VersionSet("<1 || >2.0.0"), tags=True))
        # The text of v1.9.0 is a version too, which is not in the set
        self.assertEqual(versions.newest(tags[:1], VersionSet.of("1.9.0"), tags=True), "v1.9.0")
        self.assertIsNone(versions.newest(tags[:1], VersionSet.of("v1.9.0"), tags=True))
        self.assertEqual(versions.newest(tags[:1], VersionSet.of("v1.9.0")), "v1.9.0")

    def test_what_is_wrong(self):
        for other in (5, None, Version("1"), "1.2", b"1"):
            self.assertRaises(TypeError, versions.newest, other, ALL)
        self.assertRaises(TypeError, versions.newest, ["1.2", 5], ALL)
        self.assertRaises(OSError, versions.newest, failing(), ALL)
        self.assertRaises(ValueError, versions.newest, ["1"], ALL, "betta")
        self.assertEqual(versions.newest([], ALL), versions.newest([], ALL, tags=True))

    @of_library
    def test_beside_what_is_done_by_hand(self):
        chosen, found_some = random.Random(8), 0
        texts = [*VERSIONS, *("v" + version for version in VERSIONS), "release-1.2.3", "x y", "", "\ud800", "latest"]
        sets = [VersionSet(text) for text in (drawn_text(chosen) for _ in range(60)) if is_set(text)]
        for _ in range(3000):
            items = chosen.choices(texts, k=6)
            items = [Version(t) if chosen.random() < 0.4 and versions.kind(t) else t for t in items]
            items[1:1] = chosen.choices([None, float("nan"), "1.0"], k=chosen.randrange(2))
            how = chosen.choice([None, None, *versions.Stability]), chosen.random() < 0.4
            wanted = chosen.choice(sets)
            found = self.by_hand(items, wanted, *how)
            self.assertIs(versions.newest(items, wanted, *how), found, (items, wanted, how))
            self.assertIs(versions.newest(iter(items), wanted, *how), found)
            found_some += found is not None
        self.assertGreater(found_some, 1000)


class Hostile(LongLists):
    @of_library
    def test_a_megabyte_of_blanks(self):
        blanks = " \t" * 500_000
        with self.assertRaises(InvalidVersionSet) as raised:
            VersionSet(blanks)
        self.assertEqual((raised.exception.start, raised.exception.text), (1_000_000, blanks))
        made = VersionSet(f"{blanks}>={blanks}1.2{blanks}")
        self.assertEqual((made, len(str(made))), (VersionSet(">=1.2"), 3_000_005))
        # Blanks take no room, and the form no more than it is long.
        self.assertLess(sys.getsizeof(made._form), 200)

    @of_library
    def test_a_megabyte_of_what_is_wrong(self):
        for text, start in (("|" * 1_000_001, 0), ("," * 1_000_000, 0), ("é" * 500_000, 0), ("*" * 1_000_000, 0),
                            ("=" * 1_000_000, 2), ("* " * 500_000 + "é", 1_000_000), ("=1 ||" * 200_000, 1_000_000),
                            ("\ud800" * 300_000, 0), ("^" + "1." * 500_000, 1)):
            with self.assertRaises(InvalidVersionSet) as raised:
                VersionSet(text)
            self.assertEqual(raised.exception.start, start, text[:5])
            self.assertTrue(str(raised.exception).endswith(raised.exception.reason))

    @of_library
    def test_twenty_thousand_alternatives(self):
        numbers = list(range(20_000))
        random.Random(9).shuffle(numbers)
        made = VersionSet(" || ".join(f"=1.{n}.0" for n in numbers))
        self.assertEqual(len(made.intervals), 20_000)
        texts = [f"1.{n}.{patch}" for n in range(20_002) for patch in range(2)]
        wanted = [text.endswith(".0") and n < 40_000 for n, text in enumerate(texts)]
        self.assertAlike(made.has_all(texts), wanted)
        self.assertAlike(made.filter(texts), [text for text, answer in zip(texts, wanted) if answer])
        others = ~made
        self.assertEqual((len(others.intervals), made.isdisjoint(others), made <= others), (20_001, True, False))
        self.assertEqual((others & made, others | made, ~others), (NOTHING, ALL, made))
        self.assertTrue(VersionSet.of("1.7.0") < made < VersionSet("=1.*"))
        self.assertEqual(pickle.loads(pickle.dumps(others)), others)
        self.assertEqual(str(made & VersionSet("<1.1")).count("["), 1)
        self.assertEqual(len(str(others).split(" || ")), 20_001)
        left = made
        for n in range(100):
            left &= VersionSet(f"!=1.{n}.0")
        self.assertEqual((len(left.intervals), left < made), (19_900, True))

    @of_library
    def test_long_versions(self):
        for long in ("1." * 1_000_000 + "1", "1_" * 1_000_000 + "1", "9" * 5_000_000):
            made, key = VersionSet(f">={long} <9.9.9.9"), sort_key(long)
            self.assertEqual((long in VersionSet(f"={long}"), long in VersionSet(f"<{long}")), (True, False))
            self.assertEqual(VersionSet.of(long), VersionSet(f"={long}"))
            self.assertIn(key, [VersionSet(f">={long}").intervals[0][0]])
            self.assertEqual(made & VersionSet(f"<{long}"), NOTHING)
            self.assertEqual(made.has_all([long, long + "\0"]), [long in made, None])

    def test_eight_threads_get_the_same_answers(self):
        texts = [*VERSIONS, None, "1..2"] * 300
        sets = [VersionSet(text) for text in ("^1.2 || =3", "<1", "!=1.2.*", "~0.1 || >=2")]

        def work():
            for a, b in itertools.product(sets, repeat=2):
                again = VersionSet(str(a))
                answers = (a & b)._form, (a | ~b)._form, a <= b, a.has_all(texts), b.filter(texts), again == a
                answers += versions.newest(texts, a), repr(~a), VersionSet.of("1.2") < b
                yield answers

        wanted, found = list(work()), []
        threads = [threading.Thread(target=lambda: found.append(list(work()))) for _ in range(8)]
        for thread in threads:
            thread.start()
        for thread in threads:
            thread.join()
        self.assertEqual(len(found), 8)
        self.assertTrue(all(answers == wanted for answers in found))
