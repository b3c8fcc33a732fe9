"""What people ask of versions beside their order: the version in a tag, how stable one is, the newest of many; what
changed, what comes next; why a version doesn't match, and which requirements exclude each other.
"""

import copy
import inspect
import operator
import pickle
import random
import unittest

import arrow
import versions
from counted import of_library
from lists import LongLists
from versions import Difference, DifferenceKind, Mismatch, Reason, Stability
from versions import InvalidRequirement, InvalidVersion, Requirement, Version, VersionSet

# Tags, and the version in each.
TAGS = {
    **dict.fromkeys(("v1.2.3", "V1.2.3", "1.2.3", "release-1.2.3", "refs/tags/v1.2.3"), "1.2.3"),
    **dict.fromkeys(("pkg@1.2.3", "@a/b@1.2.3"), "1.2.3"),
    **{"log4j-2.17.1": "2.17.1", "k8s-v1.25": "1.25", "OpenSSL_1_1_1k": "1_1_1k", "wine-8.0-rc1": "8.0-rc1"},
    **{"jdk-17.0.2+8": "17.0.2+8", "1:2.0-3": "1:2.0-3", "v01.2.3": "01.2.3", "release/2023.01.02": "2023.01.02"},
    **{"版本1.2": "1.2", "é1.2": "1.2", "é-v1.2": "1.2", "\0v1.2": "1.2", "a b\n1.2": "1.2"},
    **dict.fromkeys(("go1.20.3", "n6.0", "x1.0-2", "vv1.0", "v.1.2", "latest", "v", "name-v1..2", "jdk8u292-b10")),
    **dict.fromkeys(("", ".1", "-", "-v", "x-1.2 ", "1.2\0", "v1.2é", "版本", "\ud800", "\ud8001.2", "v1.2\udcff")),
}
# Tags with a prefix, and the version in each.
PREFIXED = {
    **{("go1.20.3", "go"): "1.20.3", ("go-v1.2", "go-"): "1.2", ("2ping-4.5", "2ping-"): "4.5"},
    **{("v1.2", ""): "1.2", ("1.2", ""): "1.2", ("vv1.2", "v"): "1.2", ("x1.0V2", "x1.0"): "2"},
    **{("版本v1.2", "版本"): "1.2", ("a\x001.2", "a\0"): "1.2"},
    **dict.fromkeys((("1.2", "go"), ("Go1.2", "go"), ("go", "go"), ("gov", "go"), ("go-1.2", "go"), ("r-1.2", ""))),
    **dict.fromkeys((("govv1.2", "go"), ("g", "go"), ("", ""), ("", "go"), ("go1..2", "go"), ("x1.2", "\ud800"))),
    **dict.fromkeys((("\ud800", "\ud800"), ("\ud8001.2", "\ud800"), ("1.2", "\udcff"), ("é1.2", "\xc3"))),
}
STABLE = "1.0 1.1.1k 1.0.Final 1.0.post1 1.2.3-5 1.2.3-r0 1.5.0-1ubuntu1 1.2.3+rc1 1.2-3+b1 0.1.1+git1-1"
LESS_STABLE = {
    Stability.DEV: "1.0-SNAPSHOT 1.0.dev3 v1.0-nightly 1.0-beta-dev 1.2.0~DEVEL+20220331-1",
    Stability.ALPHA: "1.0a1 2.0-M1 1.0preview3 1.0.0-alpha.beta 1.2.3-x.y 1.0.0--x 22-ea",
    Stability.BETA: "2.0.0-beta.1 1.0b2 3.0~beta1-2",
    Stability.RC: "1.0rc1 1.0.0-rc.1 1.0c1 1.0CR2 1_0rc1+b1",
    Stability.STABLE: f"{STABLE} 0.0~git20170716.74609b8-1.1",
}
RATED = {text: stability for stability, texts in LESS_STABLE.items() for text in texts.split()}


class Evil(str):
    def answer(self, *_):
        return b"9.9.9" * 1000

    encode = __str__ = __repr__ = __format__ = __iter__ = __getitem__ = __hash__ = answer

    def __len__(self):
        return 10**6

    def __eq__(self, other):
        return True


class Mine(Version):
    """Whose attributes and texts are others."""

    def __str__(self):
        return "9.9"

    __repr__ = __format__ = __str__
    kind = key = _text = None


class Tags(unittest.TestCase):
    def assertNone(self, named, *given, **more):
        with self.assertRaises(InvalidVersion) as raised:
            Version.from_tag(*given, **more)
        error = raised.exception
        self.assertEqual((error.text, type(error.text)), (named, str))
        # It says what it said of the whole tag, which may be a version; also once pickled.
        for each in (error, pickle.loads(pickle.dumps(error)), copy.copy(error)):
            self.assertEqual((each.place, each.reason, str(each)), (None, None, f"not a version: {named!r}"))

    def test_tags(self):
        for tag, text in TAGS.items():
            with self.subTest(tag=tag):
                if text is None:
                    self.assertNone(tag, tag)
                    continue
                for given in ((tag,), (tag, None)):
                    version = Version.from_tag(*given)
                    self.assertEqual((str(version), version.key), (text, versions.sort_key(text)))

    def test_prefixes(self):
        for (tag, prefix), text in PREFIXED.items():
            with self.subTest(tag=tag, prefix=prefix):
                if text is None:
                    self.assertNone(tag, tag, prefix)
                else:
                    self.assertEqual(str(Version.from_tag(tag, prefix)), text)
                    self.assertEqual(str(Version.from_tag(prefix=prefix, tag=tag)), text)

    def test_a_subclass_has_its_versions(self):
        class Named(Version):
            def __new__(cls, text, name="x"):
                return super().__new__(cls, text)

        for of in (Named, Mine, Version):
            version = of.from_tag("v1.2")
            self.assertIs(type(version), of)
            self.assertEqual(Version(version), Version("1.2"))
            self.assertIs(type(of("1.0").from_tag("go1.2", "go")), of)

    def test_a_version_is_taken_for_its_text(self):
        for of in (Version, Mine):
            self.assertEqual(str(Version.from_tag(of("v1.2"))), "1.2")
            self.assertEqual(str(Version.from_tag(of("go1.2"), "go")), "1.2")
            self.assertNone("go1.2", of("go1.2"))

    def test_a_subclass_of_str_is_its_text(self):
        self.assertEqual(str(Version.from_tag(Evil("v1.2"))), "1.2")
        self.assertEqual(str(Version.from_tag(Evil("go1.2"), Evil("go"))), "1.2")
        self.assertNone("go1.2", Evil("go1.2"))
        self.assertNone("v1.2", Evil("v1.2"), Evil("go"))

    def test_what_is_no_text(self):
        for other in (None, 1.2, b"v1.2", Requirement("*"), float("nan"), ["v1.2"]):
            named = f"a text is a str, and this is of type {type(other).__name__}"
            self.assertRaisesRegex(TypeError, named, Version.from_tag, other)
            if other is not None:
                self.assertRaisesRegex(TypeError, named, Version.from_tag, "v1", other)
        self.assertRaises(TypeError, Version.from_tag)
        self.assertRaises(TypeError, Version.from_tag, "v1", Version("1"))

    @of_library
    def test_long(self):
        ten = 10_000_000
        for front in ("-" * ten, "v" * ten + "-", "v-" * (ten // 2), "a.b-" * (ten // 4), "é" * ten):
            self.assertEqual(str(Version.from_tag(front + "1.2")), "1.2")
            self.assertEqual(str(Version.from_tag(front + "v1.2", front)), "1.2")
            self.assertEqual(versions.in_tags([front + "1.2", front]), ["1.2", None])
        for tag in ("-1" * (ten // 2) + " ", "a1.0-" * (ten // 5), "." * ten + "1", "1." * (ten // 2)):
            self.assertEqual(versions.in_tags([tag]), [None])
            self.assertRaises(InvalidVersion, Version.from_tag, tag)
        long = "1." * 1_000_000 + "1"
        self.assertEqual(str(Version.from_tag("v" + long)), long)
        self.assertEqual(versions.in_tags(["x-" + long, "v" + long]), [long, long])


class Stabilities(unittest.TestCase):
    def test_stabilities(self):
        for text, stability in RATED.items():
            with self.subTest(text=text):
                self.assertIs(Version(text).stability, stability)
        self.assertEqual(versions.stabilities(RATED), list(RATED.values()))
        self.assertEqual(versions.stabilities(map(Version, RATED)), list(RATED.values()))

    def test_they_are_ordered(self):
        members = list(Stability)
        self.assertEqual([member.name for member in members], ["DEV", "ALPHA", "BETA", "RC", "STABLE"])
        self.assertEqual(sorted(reversed(members)), members)
        self.assertEqual([int(member) for member in members], [1, 2, 3, 4, 5])
        self.assertTrue(Version("1.0rc1").stability >= Stability.BETA > Version("1.0a1").stability)
        self.assertEqual([str(member) for member in members], ["dev", "alpha", "beta", "rc", "stable"])
        self.assertEqual(f"{Stability.RC}|{Stability.RC:>4}|{Stability.RC!s}", "rc|  rc|rc")

    def test_they_are_values(self):
        self.assertEqual(Stability.__module__, "versions")
        for member in Stability:
            for protocol in range(pickle.HIGHEST_PROTOCOL + 1):
                pickled = pickle.dumps(member, protocol)
                self.assertIs(pickle.loads(pickled), member)
                self.assertNotIn(b"_version", pickled)
            self.assertIs(copy.deepcopy(member), member)
            self.assertIs(Stability(int(member)), Stability[member.name])
        self.assertRaises(AttributeError, setattr, Version("1.2"), "stability", Stability.DEV)

    @of_library
    def test_long(self):
        word, many = "a" * 10_000_000, 5_000_000
        for text, stability in ((word, 5), ("1.0.0-" + word, 2), ("1_" * many + "dev", 1), ("b." * many + "rc1", 4)):
            self.assertIs(Version(text).stability, Stability(stability))
            self.assertEqual(versions.stabilities([text, text + " "]), [Stability(stability), None])


class Columns(LongLists):
    TEXTS = ["v1.2.3", None, "1.0rc1", "go1.2", float("nan"), "", "1..2", "\ud800", Version("v2.0-M1"), Evil("1_2dev")]
    VERSIONS = ["1.2.3", None, "1.0rc1", None, None, None, None, None, "2.0-M1", "1_2dev"]
    # `v1.2.3` and `go1.2` are versions too.
    RATES = [5, None, 4, 5, None, None, None, None, 2, 1]

    def test_of_every_kind_of_item(self):
        for texts in (self.TEXTS, tuple(self.TEXTS), iter(self.TEXTS), (text for text in self.TEXTS)):
            self.assertEqual(versions.in_tags(texts), self.VERSIONS)
        for texts in (self.TEXTS, iter(self.TEXTS)):
            found = versions.stabilities(texts)
            self.assertEqual(found, self.RATES)
            self.assertEqual({type(each) for each in found}, {Stability, type(None)})
        self.assertEqual({type(each) for each in versions.in_tags(self.TEXTS)}, {str, type(None)})

    def test_of_arrow(self):
        texts = [text if text is None else text.encode("utf-8", "surrogatepass") for text in TAGS]
        texts[3:3] = [None, b"\xff-v1.2", b"v1.2\xff", b""]
        wanted = list(TAGS.values())
        wanted[3:3] = [None, "1.2", None, None]
        # The bytes of a lone surrogate are a sign to the library, as other bytes past ASCII are.
        wanted = ["1.2" if text == b"\xed\xa0\x801.2" else version for text, version in zip(texts, wanted)]
        rated = [*map(str.encode, RATED), None, b"", b"\xff"]
        for of, format in ((arrow.Array, b"u"), (arrow.Array, b"Z"), (arrow.Views, b"vu"), (arrow.Views, b"vz")):
            self.assertEqual(versions.in_tags(of(texts, format)), wanted)
            for first in range(0, len(texts), 7):
                chunks = of(texts, format, 0, first), of(texts, format, first)
                self.assertEqual(versions.in_tags(arrow.Stream(*chunks, format=format)), wanted)
            self.assertEqual(versions.stabilities(of(rated, format)), [*RATED.values(), None, None, None])
        for call in (versions.in_tags, versions.stabilities):
            self.assertEqual((call(arrow.Array([])), call(arrow.Stream())), ([], []))
            self.assertRaisesRegex(TypeError, "format l", call, arrow.Array([b"1"], b"l"))

    def test_no_texts_and_what_is_none(self):
        for call in (versions.in_tags, versions.stabilities):
            for empty in ([], (), iter(()), {}):
                self.assertEqual(call(empty), [])
            self.assertEqual(call([None, ""]), [None, None])
            self.assertEqual(call(texts=[None]), [None])
            for one in ("v1.2", b"v1.2"):
                self.assertRaisesRegex(TypeError, "many texts are wanted", call, one)
            for other in (5, None, Version("1"), Requirement("*")):
                self.assertRaises(TypeError, call, other)
                if other is not None and not isinstance(other, Version):
                    self.assertRaises(TypeError, call, ["v1.2", other])
            self.assertRaises(TypeError, call)
            self.assertEqual(str(inspect.signature(call)), "(texts)")

    @of_library
    def test_a_million(self):
        texts = [f"v{n % 7}.{n}" + "rc1" * (n % 3 == 0) if n % 10 else "x" for n in range(1_000_000)]
        self.assertAlike(versions.in_tags(texts), [text[1:] or None for text in texts])
        rates = [Stability.RC if n % 10 and n % 3 == 0 else Stability.STABLE for n in range(1_000_000)]
        self.assertAlike(versions.stabilities(texts), rates)


# Of one key, and of increasing ones, by docs/ORDER.md.
LEVEL = ["1.2", "01.2", "0:1.2", "1.2+x", "1.002"]
INCREASING = "abc.0 0.0 1a.0 1.2.git 1.2 1.2.0-rc.1 1.2.0 1.2.3rc9 1.2.3rc10 1.2.3 1:0.1".split()


def newest_by_model(items, requirement=None, stability=None, tags=False):
    """Its place, or None: by the calls on one version, and by comparisons of Python."""
    newest = of_newest = None
    for place, item in enumerate(items):
        text = item if isinstance(item, str) else Version(item) if isinstance(item, Version) else ""
        try:
            version = Version.from_tag(text) if tags else Version(text)
        except InvalidVersion:
            continue
        if requirement is not None and version not in Requirement(str(requirement)):
            continue
        if stability is not None and version.stability < stability:
            continue
        if newest is None or version > of_newest:
            newest, of_newest = place, version
    return newest


class Newest(LongLists):
    def test_newest(self):
        newest, tags = versions.newest, ["v1.9.0", "v1.10.0", "v2.0.0-beta.1", "latest", "v2.0.0", "v2.1.0-rc.1"]
        self.assertEqual(newest(tags, tags=True), "v2.1.0-rc.1")
        self.assertEqual(newest(tags, tags=True, stability=Stability.STABLE), "v2.0.0")
        self.assertEqual(newest(tags, "<2", Stability.STABLE, True), "v1.10.0")
        self.assertEqual(newest(tags, requirement="<2", tags=True), "v1.10.0")
        self.assertEqual(newest(texts=tags, requirement=Requirement(">=3"), tags=True), None)
        # As texts and not as tags, by docs/ORDER.md.
        self.assertEqual(newest(["v2.0.0", "v2.0.0-beta.1", "v1.9.0"]), "v2.0.0-beta.1")
        self.assertEqual(newest(["go1.2", "go1.3"], tags=True), None)
        self.assertEqual(newest(["1.10", "1.9", "1.10rc1"]), "1.10")
        self.assertEqual(newest(["1.10-SNAPSHOT", "1.9b1"], stability=Stability.BETA), "1.9b1")
        self.assertEqual(newest(["1.10", "1.9"], None, None, False), "1.10")
        # By docs/TASKS.md: the names, from the lowest up.
        texts = ["1.0", "1.1rc1", "1.2b1", "1.3a1", "1.4.dev1"]
        for name, wanted in zip(("stable", "rc", "beta", "alpha", "dev"), texts):
            self.assertEqual(newest(texts, stability=name), wanted)
            self.assertEqual(newest(texts, stability=Stability(name)), wanted)
            self.assertIs(Stability(name), Stability[name.upper()])
            self.assertIs(Stability(int(Stability(name))), Stability(name))

    def test_the_order_of_two(self):
        for i, a in enumerate(INCREASING):
            for j, b in enumerate(INCREASING):
                for one, two in ((a, b), (Version(a), b), (a, Version(b)), (Version(a), Version(b))):
                    self.assertIs(versions.newest([one, two]), one if i >= j else two, (one, two))

    def test_the_first_of_those_that_tie(self):
        chosen = random.Random(1)
        for _ in range(500):
            tied = chosen.choices(LEVEL, k=chosen.randrange(1, 6))
            items = [chosen.choice((str, Version, Mine))(text) for text in tied]
            more = [*map(chosen.choice((str, Version)), INCREASING[:4]), None, "x y"]
            chosen.shuffle(more)
            place = chosen.randrange(len(more) + 1)
            for given in (items, more[:place] + items, [*more[:place], *items, *more[place:]]):
                self.assertIs(versions.newest(iter(given)), items[0])
                self.assertIs(versions.newest(given, ">=1.2"), items[0])

    def test_none_is_left(self):
        for texts in ([], (), iter(()), {}, [None], ["x y", ""], [float("nan")], ["\ud800", "1..2"]):
            for more in ({}, {"tags": True}, {"requirement": "*"}, {"stability": Stability.DEV}):
                self.assertIsNone(versions.newest(texts, **more))
        for texts in (["1.2"], [Version("1.2")], ["1.2", Version("1.3")]):
            self.assertIsNone(versions.newest(texts, ">2"))
            self.assertIsNone(versions.newest(texts, "<1.3,>1.2.9", tags=True))
            # No range is exact here.
            self.assertIsNone(versions.newest(texts, "=0:1.2"))
            self.assertIsNone(versions.newest(["1.2-dev", Version("1.2-rc")], stability=Stability.STABLE))

    def test_requirements_whose_range_is_exact_and_others(self):
        items = [make(text) for text in ("1.2", "1.2.3", "0:1.2", "1.5", "1.2.9", "2.0") for make in (Version, str)]
        wanted = {"^1.2.3": "1.2.9", "~1.2": "1.5", "=1.2": "1.2", "=0:1.2": "0:1.2", "<1.5": "1.2.9", "*": "2.0"}
        for requirement, text in wanted.items():
            for of in (str, Requirement):
                for given in (items, items[::-1], items[::2], items[1::2]):
                    found = versions.newest(given, of(requirement))
                    self.assertIs(found, next(item for item in given if str(item) == text), (requirement, given))

    @of_library
    def test_beside_a_model(self):
        chosen = random.Random(2)
        tags = [tag for tag in TAGS if len(tag) < 20]
        plain = [*INCREASING, *LEVEL, *RATED, "x y", "", "\ud800"]
        nan = float("nan")
        requirements = [None, None, "*", ">=1", "<1.2.3", "^1.2.0", "~1.2", "=1.2", "=0:1.2", ">=1.2,<1:0", "<0"]
        found_some = 0
        for n in range(6000):
            texts = chosen.choices(tags if n % 2 else plain + tags, k=chosen.randrange(9))
            items = [Version(t) if chosen.random() < 0.5 and versions.kind(t) else t for t in texts]
            items[1:1] = chosen.choices([None, nan, "1.0"], k=chosen.randrange(2))
            requirement = chosen.choice(requirements)
            how = chosen.choice([None, None, None, *Stability]), chosen.random() < 0.4
            place = newest_by_model(items, requirement, *how)
            wanted = None if place is None else items[place]
            self.assertIs(versions.newest(items, requirement, *how), wanted, (items, requirement, how))
            rows = [[item] for item in items]
            found = versions.newest(iter(rows), requirement, *how, key=operator.itemgetter(0))
            self.assertIs(found, None if place is None else rows[place], (items, requirement, how))
            if requirement is not None:
                self.assertIs(versions.newest(iter(items), Requirement(requirement), *how), wanted)
            found_some += wanted is not None
        self.assertGreater(found_some, 2000)

    def test_items_of_subclasses(self):
        evil, mine = Evil("v1.3"), Mine("1.2")
        self.assertIs(versions.newest([evil, mine, Mine("1.1")]), mine)
        self.assertIs(versions.newest([evil, mine], tags=True), evil)
        self.assertIs(versions.newest([Evil("1.3"), mine], "<=1.2"), mine)
        self.assertRaises(TypeError, versions.newest, evil)

    def test_what_is_wrong(self):
        for one in ("1.2", b"1.2"):
            self.assertRaisesRegex(TypeError, "many texts are wanted", versions.newest, one)
        for other in (5, None, Version("1"), Requirement("*"), arrow.Array([b"1.2"])):
            self.assertRaises(TypeError, versions.newest, other)
        for other in (5, 1.2, b"1", Requirement("*"), ["1"]):
            for texts in ([other], ["1.2", other], [Version("9"), other], iter([None, other])):
                self.assertRaises(TypeError, versions.newest, texts)
        for wrong in ("1.2", "", ">= 1", "^\ud800"):
            for texts in ([], ["1.2"], [5]):
                with self.assertRaises(InvalidRequirement) as raised:
                    versions.newest(texts, wrong)
                self.assertEqual(raised.exception.text, wrong)
        for wrong in (5, b"*", Version("1"), ["*"]):
            self.assertRaises(TypeError, versions.newest, [], wrong)
        # By docs/TASKS.md, the names of the stabilities.
        names = "a stability is one of dev, alpha, beta, rc, stable, and this is"
        for call in (Stability, lambda wrong: versions.newest([], None, wrong)):
            for wrong in (0, 6, -1, 10**30, -(10**30), "betta", "Beta", "BETA", "", "beta ", "1", "\ud800"):
                with self.assertRaises(ValueError) as raised:
                    call(wrong)
                self.assertIs(type(raised.exception), ValueError)
                self.assertEqual(str(raised.exception), f"{names} {wrong!r}")
            for wrong in (True, False, 1.0, b"beta", Version("1"), ("beta",), ()):
                with self.assertRaises(TypeError) as raised:
                    call(wrong)
                self.assertEqual(str(raised.exception), f"{names} {wrong!r}")
        for wrong in ((), ([], None, None, False, None)):
            self.assertRaises(TypeError, versions.newest, *wrong)
        self.assertRaises(TypeError, versions.newest, [], None, None, False, str)
        signature = "(texts, requirement=None, stability=None, tags=False, *, key=None, scheme='mixed')"
        self.assertEqual(str(inspect.signature(versions.newest)), signature)

    def test_rows_by_a_key(self):
        rows = [{"v": "1.9"}, {"v": None}, {"v": "1.10"}, {"v": "x y"}, {"v": Version("0:1.10")}, {"v": "2-dev"}, {}]
        key = {"key": lambda row: row.get("v", float("nan"))}
        # By docs/ORDER.md `1.10` and `0:1.10` tie.
        for given, place in ((rows[:5], 2), (iter(rows), 5), (rows[:2] + rows[3:5], 4), (rows[4:1:-1], 4)):
            self.assertIs(versions.newest(given, **key), rows[place])
        self.assertIs(versions.newest(rows, stability="stable", **key), rows[2])
        self.assertIs(versions.newest(rows, VersionSet("<1.10"), **key), rows[0])
        self.assertIs(versions.newest(rows, "<1.10", **key), rows[0])
        self.assertIsNone(versions.newest(rows, ">3", **key))
        self.assertIsNone(versions.newest([rows[1], rows[3], {}], **key))
        self.assertEqual(versions.newest([("v1.9.0", 1), ("v1.10.0", 2)], tags=True, key=lambda row: row[0])[1], 2)
        # Any item, and the same text of two.
        self.assertEqual(versions.newest([3, 20, 1], key=str), 20)
        self.assertIsNone(versions.newest([None, 1], key=lambda item: "2" if item is None else "1"))
        one = "1.5"
        self.assertEqual(versions.newest([(1, None), (2, one), (3, one), (4, "1.4")], key=lambda row: row[1]), (2, one))
        self.assertEqual(versions.newest(["1", "2"], key=None), "2")
        for nothing in ([], (), iter(()), {}):
            self.assertIsNone(versions.newest(nothing, key=str))

    def test_a_key_is_called_once_for_each_item_in_their_order(self):
        called = []
        versions.newest("3 1 2".split(), key=lambda item: called.append(item) or item)
        self.assertEqual(called, ["3", "1", "2"])

    def test_a_key_that_fails(self):
        def failing(item):
            if item == "2":
                raise OSError("mine")
            return item

        self.assertRaisesRegex(OSError, "mine", versions.newest, ["1", "2", "3"], key=failing)
        for key in (5, "text", lambda: "1", lambda a, b: "1", lambda item: 5, lambda item: ["1"], lambda item: b"1"):
            self.assertRaises(TypeError, versions.newest, ["1"], key=key)
        self.assertRaisesRegex(TypeError, "many texts are wanted", versions.newest, "12", key=str)

    def test_what_fails_midway(self):
        def midway():
            yield "1.2"
            raise OSError("midway")

        class NoTruth:
            def __bool__(self):
                raise OSError("mine")

        self.assertRaisesRegex(OSError, "midway", versions.newest, midway())
        self.assertRaisesRegex(OSError, "mine", versions.newest, ["1"], tags=NoTruth())

    @of_library
    def test_a_million(self):
        texts = [f"{n % 7}.{n % 1000}.{n}" if n % 10 else "1..2" for n in range(1_000_000)]
        def highest(below):
            right = (n for n in range(1_000_000) if n % 10 and n % 7 < below)
            return texts[max(right, key=lambda n: (n % 7, n % 1000, n))]

        wanted = highest(7)
        self.assertEqual(versions.newest(texts), wanted)
        self.assertEqual(versions.newest(["v" + text for text in texts], tags=True), "v" + wanted)
        self.assertEqual(versions.newest(texts, "<3"), highest(3))
        some = [Version(text) for text in texts[1:200_000:3] if text != "1..2"]
        self.assertIs(versions.newest(some), max(some))

    @of_library
    def test_long(self):
        long = "1_" * 500_000 + "1"
        for texts in ([long, "x y", "1"], ["1", Version(long)], [Version("1"), long], ["\0" * 1_000_000, long]):
            self.assertEqual(versions.newest(map(str, texts)), long)
            self.assertEqual(str(versions.newest(texts)), long)
            self.assertEqual(str(versions.newest(texts, f">={long}")), long)



class Differences(unittest.TestCase):
    # By docs/ORDER.md: where they differ first, and in which part; and pairs of versions that do.
    ROWS = (
        ("NONE", None, "1.2.3 1.2.3, 1.0.0+a 1.0.0+b, 1_2 1_2, 1.0.0-a+x 1.0.0-a"),
        ("TIE", None, "1.2 0:1.2, 1.0 1.0+x, 1.2 1.002, 01.2.3 1.2.3"),
        ("EPOCH", None, "1.2 1:1.2, 1:2 2:1, 9.9.9 1:0, 1:1_2 3:1_2"),
        ("PART", 0, "1.2.3 2.2.3, 1.2 3.2-1, a.1 b.1, 1:1.0 1:2_0"),
        ("PART", 1, "1.2.3 1.3.0, 1 1.0, 1.9 1.10, 1.3rc1 1.3, 2 2.git"),
        ("PART", 2, "1.2.3 1.2.4, 1.2 1.2.0-rc.1, 1:0.1.2-3 1:0.1.3-3"),
        ("TAIL", None, "1.2 1.2-1, 1.2.0-rc.1 1.2.0, 1.2_1 1.2, 1.2-1 1.2-2"),
    )
    PAIRS = [(name, part, *pair.split()) for name, part, pairs in ROWS for pair in pairs.split(", ")]
    SENTENCES = {
        "NONE": "they differ at most after the plus, which doesn't count",
        "TIE": "they compare equal, and are not the same version",
        "EPOCH": "they differ first in the epoch",
        "TAIL": "they differ first in what follows the parts",
    }

    def test_differences(self):
        for name, part, a, b in self.PAIRS:
            for one, two in ((a, b), (b, a)):
                with self.subTest(a=one, b=two):
                    found = Version(one).difference(two)
                    self.assertEqual(found, (DifferenceKind[name], part))
                    self.assertEqual((found.kind.name, found.part), (name, part))
                    self.assertEqual(str(found), self.SENTENCES.get(name, f"they differ first in part {part}"))
                    for other in (Version(two), Mine(two), Evil(two)):
                        self.assertEqual(Mine(one).difference(other), found)

    def test_they_are_values(self):
        found = Version("1.2").difference(other="1.3")
        self.assertIs(type(found), Difference)
        self.assertEqual(found, Difference(kind=DifferenceKind.PART, part=1))
        for protocol in range(pickle.HIGHEST_PROTOCOL + 1):
            pickled = pickle.dumps(found, protocol)
            back = pickle.loads(pickled)
            self.assertEqual((back, type(back), str(back)), (found, Difference, str(found)))
            self.assertNotIn(b"_version", pickled)
        self.assertEqual(repr(found), f"Difference(kind={DifferenceKind.PART!r}, part=1)")
        self.assertEqual([each.name for each in DifferenceKind], ["NONE", "TIE", "EPOCH", "PART", "TAIL"])

    def test_what_is_no_version(self):
        version = Version("1.2")
        for text in ("1..2", "", "\ud800", Evil("x y")):
            with self.assertRaises(InvalidVersion) as raised:
                version.difference(text)
            self.assertEqual((type(raised.exception.text), raised.exception.text), (str, str.__str__(text)))
        for other in (None, 1.2, b"1.2", Requirement("*"), float("nan")):
            self.assertRaisesRegex(TypeError, f"of type {type(other).__name__}", version.difference, other)

    def test_beside_comparisons(self):
        chosen = random.Random(3)
        texts = [*INCREASING, *LEVEL, *RATED, *(text for row in self.PAIRS for text in row[2:])]
        for _ in range(5000):
            a, b = chosen.choices(texts, k=2)
            x, y = Version(a), Version(b)
            kind, part = x.difference(y)
            self.assertEqual(kind in (DifferenceKind.NONE, DifferenceKind.TIE), x == y)
            self.assertEqual(kind is DifferenceKind.NONE, versions.compare_total(a, b) == 0)
            self.assertEqual(kind is DifferenceKind.EPOCH, (x.epoch or 0) != (y.epoch or 0))
            self.assertEqual(kind is DifferenceKind.PART, part is not None)
            self.assertEqual(y.difference(x), (kind, part))
            if part is not None:
                # Parts before it have the same numbers.
                self.assertEqual([x.nth(n) for n in range(part)], [y.nth(n) for n in range(part)])

    @of_library
    def test_long(self):
        parts = "1." * 1_000_000
        self.assertEqual(Version(parts + "1").difference(parts + "2"), (DifferenceKind.PART, 1_000_000))
        self.assertEqual(Version(parts + "1").difference(parts + "1-1").kind, DifferenceKind.TAIL)
        word = "a" * 10_000_000
        self.assertEqual(Version(word).difference(word + "b"), (DifferenceKind.PART, 0))
        self.assertEqual(Version(word).difference(word).kind, DifferenceKind.NONE)


class Next(unittest.TestCase):
    NEXT = {
        **{("1.2.3", 2): "1.2.4", ("1.2.3", 1): "1.3.0", ("1.2.3", 0): "2.0.0", ("1.2.3-rc.1", 2): "1.2.3"},
        **{("1.2.3-rc.1", 1): "1.3.0", ("1:1.9", 1): "1:1.10", ("1.2-3", 1): "1.3", ("1.2-3", 0): "2.0"},
        **{("1.0.0-rc.1", 0): "1.0.0", ("1.0.0-rc.1", 1): "1.0.0", ("1.2.0-rc.1", 1): "1.2.0", ("0:1.2", 0): "0:2.0"},
        **{("1.2.3+x", 2): "1.2.4", ("1.2+x", 1): "1.3", ("7", 0): "8", ("0", 0): "1", ("1.2.3.4", 1): "1.3.0.0"},
        **{("1.4294967295", 0): "2.0", ("4294967294.0.0", 0): "4294967295.0.0", ("1.9.9", 2): "1.9.10"},
        **dict.fromkeys((("4294967295.0.0", 0), ("1.4294967295", 1), ("1.2", 2), ("1.2.3", 3), ("1.2-3", 2), ("7", 1))),
        **dict.fromkeys((("1.2rc1", 0), ("1.2rc1", 1), ("a.1", 1), ("1.a", 0), ("1_2", 0), ("01.2", 0), ("1.2_3", 0))),
        **dict.fromkeys((("1.2.3", n) for n in (2**31, 2**32, 2**63 - 1, 2**63, 2**64, 2**64 + 1, 10**30))),
    }

    def test_next(self):
        for (text, place), wanted in self.NEXT.items():
            with self.subTest(text=text, place=place):
                if wanted is not None:
                    found = Version(text).next(place)
                    self.assertEqual((str(found), type(found)), (wanted, Version))
                    self.assertGreater(found, Version(text))
                    continue
                with self.assertRaises(ValueError) as raised:
                    Version(text).next(place)
                self.assertIs(type(raised.exception), ValueError)
                self.assertEqual(str(raised.exception), f"{text} has no next version at place {place}")

    def test_a_subclass_has_its_versions(self):
        class Named(Version):
            def __new__(cls, text, name="x"):
                return super().__new__(cls, text)

        self.assertIs(type(Named("1.2").next(place=0)), Named)

    def test_places(self):
        version = Version("1.2.3")
        for place in (-1, -(2**63), -(10**30)):
            self.assertRaisesRegex(ValueError, f"places are counted from 0: {place}$", version.next, place)
        for place in (None, 1.0, "1", Version("1")):
            self.assertRaises(TypeError, version.next, place)
        self.assertEqual(str(version.next(True)), "1.3.0")

    @of_library
    def test_it_is_the_least(self):
        chosen = random.Random(4)
        for _ in range(5000):
            numbers = [chosen.choice((0, 1, 2, 9, 4294967295)) for _ in range(chosen.choice((1, 2, 3, 3, 5)))]
            text = chosen.choice(("", "", "1:")) + ".".join(map(str, numbers)) + chosen.choice(("", "", "-1", "-rc.1"))
            version = Version(text)
            if version.is_complex:
                continue
            for place in range(len(numbers) + 1):
                # With zeros after the place, and with one more at it.
                zeros = [numbers[:place] + [numbers[place] + more] for more in (0, 1)] if place < len(numbers) else []
                front = text[: text.find(":") + 1]
                rest = [0] * (len(numbers) - place - 1)
                made = [front + ".".join(map(str, each + rest)) for each in zeros if max(each) < 2**32]
                wanted = next((each for each in made if Version(each) > version), None)
                if wanted is None:
                    self.assertRaisesRegex(ValueError, "has no next version", version.next, place)
                else:
                    self.assertEqual(str(version.next(place)), wanted, (text, place))

    @of_library
    def test_long(self):
        # Around the room on the stack, and long.
        for count in (*range(120, 135), 5_000_000):
            version = Version("9." * count + "9")
            self.assertEqual(str(version.next(count)), "9." * count + "10")
            self.assertEqual(str(version.next(0)), "10" + ".0" * count)
            self.assertRaises(ValueError, version.next, count + 1)
        self.assertEqual(str(Version("1.0.0-" + "a" * 10_000_000).next(2)), "1.0.0")
        self.assertRaises(ValueError, Version("1_" * 5_000_000 + "1").next, 0)


class NextRelease(unittest.TestCase):
    RELEASES = {
        **{"1.2.3-rc.1": "1.2.3", "1.2.3": "1.2.4", "1.2": "1.3", "1:1.9-3": "1:1.10", "5": "6", "1.2.3.4": "1.2.3.5"},
        **{"1.2.3+x": "1.2.4", "1.2.3-0": "1.2.3", "0.0.0-a": "0.0.0", "1.2.4294967295-rc.1": "1.2.4294967295"},
        **dict.fromkeys(("1.2.4294967295", "1.0rc1", "1.a", "1_2", "01.2", "a")),
    }

    def test_next_release(self):
        for text, wanted in self.RELEASES.items():
            with self.subTest(text=text):
                if wanted is not None:
                    found = Version(text).next_release()
                    self.assertEqual((str(found), type(found)), (wanted, Version))
                    self.assertGreater(found, Version(text))
                    continue
                with self.assertRaises(ValueError) as raised:
                    Version(text).next_release()
                self.assertIs(type(raised.exception), ValueError)
                self.assertEqual(str(raised.exception), f"{text} has no next release")

    @of_library
    def test_it_comes_next_at_the_last_place(self):
        chosen = random.Random(5)
        for _ in range(2000):
            parts = [chosen.choice(("0", "1", "9", "4294967295", "a", "01")) for _ in range(chosen.randrange(1, 6))]
            version = Version(".".join(parts) + chosen.choice(("", "-1", "-rc.1", "+x", "_1")))
            numbers = version.is_complex or all(part.isdigit() and part != "01" for part in parts)
            try:
                found = str(version.next_release())
            except ValueError:
                self.assertRaises(ValueError, version.next, len(parts) - 1)
            else:
                self.assertTrue(numbers)
                self.assertEqual(found, str(version.next(len(parts) - 1)))

    def test_long(self):
        for count in (*range(120, 135), 1_000_000):
            self.assertEqual(str(Version("9." * count + "9").next_release()), "9." * count + "10")


class NextPre(unittest.TestCase):
    # By docs/ORDER.md: numbers before texts, a prefix before the longer one, and each before no pre-release.
    PRE = {
        **{("1.2.3", "rc"): "1.2.4-rc.1", ("1.2.3-rc.1", "rc"): "1.2.3-rc.2", ("1.2.3-rc", "rc"): "1.2.3-rc.1"},
        **{("1.2.3-alpha.4", "rc"): "1.2.3-rc.1", ("1.2.3-rc.1.5", "rc"): "1.2.3-rc.2"},
        **{("1.2.3-rc.1+b", "rc"): "1.2.3-rc.2", ("1.2.3-a.b.9", None): "1.2.3-a.b.10"},
        **{("1.2.3-rc.1", "beta"): "1.2.4-beta.1", ("1.2.3-rc.1", None): "1.2.3-rc.2", ("1.2.3-1", None): "1.2.3-2"},
        **{("1.2.3-rc.0", "rc"): "1.2.3-rc.1", ("1.2.3-0", None): "1.2.3-1", ("1.2.3-9", "rc"): "1.2.3-rc.1"},
        **{("1.2.3-rc.x", "rc"): "1.2.4-rc.1", ("1.2.3-rc1", "rc"): "1.2.4-rc.1", ("1.2.3-rc", "rc1"): "1.2.3-rc1.1"},
        **{("1.2.3-a.x", "a.x"): "1.2.3-a.x.1", ("1.2.3-a.x.4", "a"): "1.2.4-a.1", ("1.2.3-a", "a.x"): "1.2.3-a.x.1"},
        **{("1.2.3-a.1.9", "a.1"): "1.2.3-a.1.10", ("1.2.3-7.1", "7"): "1.2.3-7.2"},
        **{("1.2.3-RC.1", "rc"): "1.2.3-rc.1", ("1.2.3-rc.1", "RC"): "1.2.4-RC.1", ("1.2.3+x", "-"): "1.2.4--.1"},
        **{("1.2.3-rc.4294967294", "rc"): "1.2.3-rc.4294967295", ("1.2.3-rc.4294967295", None): "1.2.4-rc.1"},
        **{("1.2.4294967295-a", "rc"): "1.2.4294967295-rc.1", ("1.2.3-rc.7", ""): "1.2.3-rc.8"},
        **dict.fromkeys((("1.2.3", None), ("1.2.3-rc", None), ("1.2.3-rc1", None), ("1.2.3-1.a", None), ("1.2.3", ""))),
        **dict.fromkeys((("1.2.4294967295", "rc"), ("1.2.4294967295-rc.4294967295", None), ("1.2.4294967295-b", "a"))),
        **dict.fromkeys(("1.2.3", word) for word in ("rc.", ".rc", "rc..x", "01", "4294967296")),
        **dict.fromkeys(("1.2.3", word) for word in ("rc_1", "rc+1", "é", "a b")),
        **dict.fromkeys(("1.2.3-rc.1", word) for word in (".", "rc.01", "\ud800", "rc\0", "rc\n")),
        **dict.fromkeys((text, "rc") for text in ("1.2", "1.2-rc.1", "1.2.3.4", "1_2", "1:1.2.3")),
        **dict.fromkeys((text, None) for text in ("1.2", "1.2-rc.1", "1.2.3.4", "1_2", "1:1.2.3")),
    }

    def test_next_pre(self):
        for (text, word), wanted in self.PRE.items():
            with self.subTest(text=text, word=word):
                if wanted is not None:
                    found = Version(text).next_pre(word)
                    self.assertEqual((str(found), type(found)), (wanted, Version))
                    self.assertGreater(found, Version(text))
                    self.assertTrue(found.is_prerelease)
                    continue
                with self.assertRaises(ValueError) as raised:
                    Version(text).next_pre(word)
                self.assertIs(type(raised.exception), ValueError)
                of = f" of {word}" if word else ""
                self.assertEqual(str(raised.exception), f"{text} has no next pre-release{of}")

    def test_a_subclass_has_its_versions(self):
        class Named(Version):
            pass

        self.assertIs(type(Named("1.2.3-rc.1").next_pre()), Named)
        self.assertIs(type(Named("1.2.3").next_pre(word="rc")), Named)
        self.assertIs(type(Named("1.2.3").next_release()), Named)

    def test_words(self):
        for word in (1, b"rc", ["rc"], Version("1")):
            self.assertRaises(TypeError, Version("1.2.3").next_pre, word)

    @of_library
    def test_it_is_the_least(self):
        # Beside each version of the form with small numbers.
        chosen = random.Random(6)
        texts = ("a", "b", "0", "1", "2", "a1")
        for _ in range(3000):
            chunks, word = ([chosen.choice(texts) for _ in range(chosen.randrange(4))] for _ in range(2))
            version = Version("1.2.3" + (f"-{'.'.join(chunks)}" if chunks else ""))
            front = f"{'.'.join(word)}." if word else None
            if front is None and chunks and chunks[-1].isdigit():
                front = "".join(f"{chunk}." for chunk in chunks[:-1])
            made = [Version(f"1.2.{patch}-{front}{n}") for patch in range(6) for n in range(1, 6) if front is not None]
            wanted = min((each for each in made if each > version), default=None)
            if wanted is None:
                self.assertRaisesRegex(ValueError, "has no next pre-release", version.next_pre, ".".join(word) or None)
            else:
                self.assertEqual(str(version.next_pre(".".join(word) or None)), str(wanted), (version, word))

    @of_library
    def test_long(self):
        # Around the room on the stack, and long.
        for count in (*range(240, 252), 5_000_000):
            word = "a" * count
            self.assertEqual(str(Version("1.2.3").next_pre(word)), f"1.2.4-{word}.1")
            self.assertEqual(str(Version(f"1.2.3-{word}.9").next_pre()), f"1.2.3-{word}.10")
        chunks = "a.1." * 1_000_000
        self.assertEqual(str(Version(f"1.2.3-{chunks}7").next_pre()), f"1.2.3-{chunks}8")
        self.assertEqual(str(Version(f"1.2.3-{chunks}7").next_pre(chunks[:-1])), f"1.2.3-{chunks}8")
        self.assertEqual(str(Version(f"1.2.3-{chunks}7").next_pre(f"{chunks}7.b")), f"1.2.3-{chunks}7.b.1")
        self.assertRaises(ValueError, Version("1.2.3").next_pre, "." * 5_000_000)


class WhyNot(unittest.TestCase):
    # By docs/REQUIREMENTS.md: a requirement, a version, the first member that doesn't match, and why.
    ROWS = (
        *(">=1.5 1.4 >=1.5 BELOW", "*,>=1.5 1.4 >=1.5 BELOW", ">1.5 1.5 >1.5 BELOW", "=1.0 0.9 =1.0 BELOW"),
        *("<2 2.0 <2 ABOVE", "<2.0.0 2.0.0 <2.0.0 ABOVE", "<=1 1.0 <=1 ABOVE", "=1.0 1.1 =1.0 ABOVE"),
        *("^1.2.3 1.2.2 ^1.2.3 BELOW", "^1.2.3 2.0.0 ^1.2.3 ABOVE", "~1.1.1 1.2.0 ~1.1.1 ABOVE"),
        *("^1.2.3 1.5 ^1.2.3 KIND", "^1.2.3 1_2 ^1.2.3 KIND", "*,~1.2 1.2.0 ~1.2 KIND", "^1_2 1.2 ^1_2 KIND"),
        *("=1.0 0:1.0 =1.0 PARTS", "=1.0 1.0+x =1.0 PARTS", "*,=1.0,<0 0:1.0 =1.0 PARTS"),
        *("^1.1.1,<1.5.0 1.5.0 <1.5.0 ABOVE", ">=1,<2,<1 3 <2 ABOVE"),
    )
    MATCHED = (">=1.5 1.5", "* 1_2", "^1.2.3 1.9.0", "^1.1.1,<1.5.0 1.2.0", ">=1.0 0:1.0", "=1.0.0 1.0.0+x")
    SENTENCES = {
        "KIND": "{1} is not of a kind that {0} matches",
        "BELOW": "{1} is below {0}",
        "ABOVE": "{1} is above {0}",
        "PARTS": "{1} is within the bounds of {0}, but its parts or fields differ",
    }

    def test_why_not(self):
        for requirement, text, member, name in map(str.split, self.ROWS):
            start = requirement.index(member)
            for version in (text, Version(text), Mine(text), Evil(text)):
                with self.subTest(requirement=requirement, text=text):
                    found = Requirement(requirement).why_not(version)
                    self.assertEqual(found, (text, member, start, start + len(member), Reason[name]))
                    self.assertEqual((type(found), type(found.version), found.reason.name), (Mismatch, str, name))
                    self.assertEqual(requirement[found.start:found.end], found.member)
                    self.assertEqual(str(found), self.SENTENCES[name].format(member, text))

    def test_what_matches(self):
        for requirement, text in map(str.split, self.MATCHED):
            for version in (text, Version(text), Mine(text), Evil(text)):
                self.assertIsNone(Requirement(requirement).why_not(version), (requirement, text))

    def test_they_are_values(self):
        found = Requirement("*,<2").why_not(version="2.1")
        self.assertEqual(found, Mismatch(version="2.1", member="<2", start=2, end=4, reason=Reason.ABOVE))
        for protocol in range(pickle.HIGHEST_PROTOCOL + 1):
            pickled = pickle.dumps(found, protocol)
            back = pickle.loads(pickled)
            self.assertEqual((back, type(back), str(back)), (found, Mismatch, "2.1 is above <2"))
            self.assertNotIn(b"_requirement", pickled)
        self.assertEqual([each.name for each in Reason], ["KIND", "BELOW", "ABOVE", "PARTS"])

    def test_what_is_no_version(self):
        for requirement in (Requirement("*"), Requirement("^1.2.3"), Requirement("=1.2,<0")):
            for text in ("1..2", "", "\ud800", Evil("x y")):
                with self.assertRaises(InvalidVersion) as raised:
                    requirement.why_not(text)
                self.assertEqual((type(raised.exception.text), raised.exception.text), (str, str.__str__(text)))
            for other in (None, 1.2, b"1.2", requirement, float("nan")):
                self.assertRaisesRegex(TypeError, f"of type {type(other).__name__}", requirement.why_not, other)

    @of_library
    def test_beside_the_ranges_of_members(self):
        chosen = random.Random(5)
        operators, texts = "= > >= < <= ~ ^".split(), [*INCREASING, *LEVEL, *RATED, "1_2", "1:1_2", "1.5.0", "2.0.0"]
        seen = set()
        for _ in range(6000):
            members = [chosen.choice(operators) + chosen.choice(texts) for _ in range(chosen.randrange(1, 5))]
            requirement, text = Requirement(",".join(members)), chosen.choice(texts)
            version = Version(text)
            found = requirement.why_not(version)
            self.assertEqual(requirement.why_not(text), found)
            wrong = next((each for each in members if not Requirement(each).matches(version)), None)
            if wrong is None:
                self.assertIsNone(found)
                continue
            asked = Requirement(wrong).range
            reason = (
                Reason.KIND if version.kind not in asked.kinds
                else Reason.BELOW if version.key < asked.low
                else Reason.ABOVE if asked.high is not None and version.key >= asked.high
                else Reason.PARTS
            )
            start = sum(len(each) + 1 for each in members[: members.index(wrong)])
            self.assertEqual(found, (text, wrong, start, start + len(wrong), reason))
            seen.add(reason)
        self.assertEqual(seen, set(Reason))

    @of_library
    def test_long(self):
        long = "1." * 1_000_000 + "1"
        found = Requirement("*," * 1_000_000 + f">{long}").why_not(long)
        self.assertEqual((found.member, found.start, found.reason), (">" + long, 2_000_000, Reason.BELOW))
        self.assertIsNone(Requirement("*," * 1_000_000 + "*").why_not("1" * 1_000_000))


class Conflicts(unittest.TestCase):
    def test_conflicts(self):
        # By docs/REQUIREMENTS.md: a list, and two members that exclude each other. `^1_2` matches nothing.
        for row in (
            *(">=1.2,<1.0 >=1.2 <1.0", "<1.0,>=1.2 >=1.2 <1.0", "*,>=2,<9,<2 >=2 <2", "<1,>1,* <1 >1"),
            *("^1.2.3,^2.0.0 ^1.2.3 ^2.0.0", "^1.2,^1.2.3 ^1.2 ^1.2.3", "=1.0,=1.1 =1.0 =1.1", "^1_2 ^1_2 ^1_2"),
            *("*,~1_2 ~1_2 ~1_2", ">=3,>=1,<5,<=2 >=3 <=2"),
        ):
            text, *pair = row.split()
            with self.subTest(text=text):
                found = Requirement(text).conflict
                self.assertEqual((type(found), sorted(found)), (tuple, sorted(pair)))
        for text in ("*", ">=1.2,<2", "^1.2.3,<1.9.0", "=1.0", ">1,<1.0", ">=1,<=1", "*,*"):
            self.assertIsNone(Requirement(text).conflict)

    def test_it_is_an_attribute(self):
        self.assertRaises(AttributeError, setattr, Requirement("*"), "conflict", None)
        self.assertIsNone(type("Mine", (Requirement,), {})("*").conflict)
        self.assertEqual(set(Requirement(Evil("<1,>2")).conflict), {"<1", ">2"})

    @of_library
    def test_beside_the_ranges_of_members(self):
        chosen = random.Random(6)
        operators, texts = "= > >= < <= ~ ^".split(), [*INCREASING, *LEVEL, "1_2", "1:1_2", "1.5.0", "2.0.0"]
        versions_of = [Version(text) for text in texts]

        def is_empty(*members):
            ranges = [Requirement(member).range for member in members]
            highs = [each.high for each in ranges if each.high is not None]
            kinds = set.intersection(*(set(each.kinds) for each in ranges))
            return not kinds or (highs != [] and max(each.low for each in ranges) >= min(highs))

        found_some = 0
        for _ in range(3000):
            members = [chosen.choice(operators) + chosen.choice(texts) for _ in range(chosen.randrange(1, 5))]
            requirement = Requirement(",".join(members))
            found = requirement.conflict
            if found is None:
                self.assertFalse(any(is_empty(a, b) for a in members for b in members), members)
                continue
            self.assertTrue(set(found) <= set(members) and is_empty(*found), (members, found))
            self.assertEqual(requirement.filter(versions_of), [])
            found_some += 1
        self.assertTrue(500 < found_some < 2900, found_some)

    @of_library
    def test_long(self):
        long = "1." * 1_000_000 + "1"
        self.assertIsNone(Requirement("*," * 1_000_000 + f">={long},<={long}").conflict)
        found = Requirement(f">{long}," + "*," * 1_000_000 + f"<{long}").conflict
        self.assertEqual(set(found), {">" + long, "<" + long})
