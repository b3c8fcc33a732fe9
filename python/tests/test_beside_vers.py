"""The package beside the program `vers`, over ten thousand texts of every shape that tests/support/shapes.py draws.

VERS is the program. SEED chooses the texts, the same each time where it isn't set. PAIRS is how many pairs of versions
are compared, and LISTS how many lists of requirements.
"""

import os
import re
import subprocess
import sys

import versions
from counted import of_library
from lists import LongLists

HERE = os.path.dirname(os.path.abspath(__file__))
sys.path.insert(0, os.path.join(HERE, "..", "..", "tests", "support"))
from shapes import Shapes  # noqa: E402

VERS = os.environ["VERS"]
SEED = os.environ.get("SEED", "one")
TEXTS = 10_000
SINGLE = 200  # how many `vers key` and `vers cmp` are asked for, a process each
PAIRS = int(os.environ.get("PAIRS", 20_000))
LISTS = int(os.environ.get("LISTS", 600))
PAIRS_OF_ONE = 500  # how many versions one `vers match` compares with another
LINES_OF_LIST = 60  # and how many it matches against one list
SIGNS = {b"<\n": -1, b"=\n": 0, b">\n": 1}


def vers(*words, lines=()):
    given = b"".join(line + b"\n" for line in lines)
    return subprocess.run([VERS, *words], input=given, stdout=subprocess.PIPE, check=True).stdout


def is_accepted(requirement):
    command = [VERS, "match", requirement]
    return subprocess.run(command, stdin=subprocess.DEVNULL, stderr=subprocess.DEVNULL).returncode == 0


def text_of(line):
    return line.decode("utf-8", "surrogateescape")


@of_library
class BesideVers(LongLists):
    @classmethod
    def setUpClass(cls):
        cls.shapes = Shapes(SEED)
        cls.lines = [cls.shapes.line() for _ in range(TEXTS)]
        cls.texts = [text_of(line) for line in cls.lines]
        cls.kinds = versions.kinds(cls.texts)
        cls.good = [line for line, kind in zip(cls.lines, cls.kinds) if kind is not None]

    def test_kinds(self):
        said = [line.split(b" ")[0].decode() for line in vers("show", lines=self.lines).split(b"\n")[:-1]]
        self.assertAlike([kind or "none" for kind in self.kinds], said)
        self.assertAlike(list(map(versions.kind, self.texts)), self.kinds)
        self.assertEqual({"ideal", "general", "complex", "none"}, set(said))

    def test_order(self):
        said = vers("sort", lines=self.good)
        texts = [text_of(line) for line in said.split(b"\n")[:-1]]
        keys = versions.sort_keys(texts)
        self.assertAlike(keys, sorted(keys))
        self.assertAlike(keys, list(map(versions.sort_key, texts)))
        for a, b, x, y in zip(texts, texts[1:], keys, keys[1:]):
            self.assertEqual(versions.compare(a, b), -1 if x < y else 0)
            self.assertEqual(versions.compare(b, a), 1 if x < y else 0)
            self.assertLessEqual(versions.compare_total(a, b), 0)

    def test_keys_and_comparisons(self):
        draw = self.shapes.random.sample
        short = [line for line in self.good if len(line) < 1000]
        for a, b in zip(draw(short, SINGLE), draw(short, SINGLE)):
            self.assertEqual(vers("key", a), versions.sort_key(text_of(a)).hex().encode() + b"\n")
            self.assertEqual(SIGNS[vers("cmp", a, b)], versions.compare(text_of(a), text_of(b)))

    def test_pairs(self):
        """Order, equality and hashes of values, by what `vers` matches by `<` and `<=`."""
        draw, found = self.shapes.random, set()
        short = [line for line in self.good if len(line) < 1000]
        for _ in range(PAIRS // PAIRS_OF_ONE):
            # Relatives of the version are among the others: what ties is rare otherwise.
            line = draw.choice(short)
            others = [*self.relatives(line), *draw.sample(short, PAIRS_OF_ONE)][:PAIRS_OF_ONE]
            below, level = (set(vers("match", op + line.decode(), lines=others).split(b"\n")) for op in ("<", "<="))
            b = versions.Version(text_of(line))
            for other in others:
                a = versions.Version(text_of(other))
                sign = -1 if other in below else 0 if other in level else 1
                found.add(sign)
                said = (a < b, a <= b, a == b, a != b, a >= b, a > b, b > a, b == a)
                wanted = (sign < 0, sign <= 0, sign == 0, sign != 0, sign >= 0, sign > 0, sign < 0, sign == 0)
                self.assertEqual(said, wanted, (other, line))
                self.assertEqual((a.key > b.key) - (a.key < b.key), sign, (other, line))
                self.assertTrue(sign != 0 or hash(a) == hash(b), (other, line))
        self.assertEqual(found, {-1, 0, 1})

    def relatives(self, line):
        """Versions near another one, most of which tie with it."""
        near = (line, b"0:" + line, line + b"+x", b"0" + line, line + b"-1", line + b".0", line + b"_1", line[:-1])
        return [other for other in near if versions.kind(text_of(other)) is not None]

    def test_lists(self):
        """What lists of requirements match: Versions and texts, one and many, and whether ranges hold them."""
        draw, exact = self.shapes.random, set()
        short = [line for line in self.good if len(line) < 200]
        operators = ("=", ">", ">=", "<", "<=", "~", "^")
        for _ in range(LISTS):
            asked = draw.sample(short, draw.randrange(1, 3))
            list_ = ",".join(draw.choice(operators) + line.decode() for line in asked)
            near = [other for line in asked for other in self.relatives(line)]
            lines = [*near, *draw.sample(self.lines, LINES_OF_LIST)][:LINES_OF_LIST]
            said = vers("match", list_, lines=lines).split(b"\n")[:-1]
            self.assert_matches(list_, [text_of(line) for line in lines], [text_of(line) for line in said])
            exact.add(versions.Requirement(list_).range.exact)
        self.assertEqual(exact, {False, True})

    def assert_matches(self, list_, texts, matched):
        wanted, kinds = versions.Requirement(list_), versions.kinds(texts)
        self.assertEqual(wanted.filter(texts), matched, list_)
        values = [versions.Version(text) for text, kind in zip(texts, kinds) if kind is not None]
        self.assertEqual([str(value) for value in wanted.filter(values)], matched, list_)
        self.assertEqual([text for text, a in zip(texts, versions.match_all(list_, texts)) if a], matched, list_)
        self.assertEqual([text for text in texts if versions.kind(text) and text in wanted], matched, list_)
        range_, is_matched = wanted.range, set(matched)
        for value in values:
            answer, text = wanted.matches(value), str(value)
            self.assertEqual((answer, wanted.matches(text)), (text in is_matched, text in is_matched), (list_, text))
            is_below = range_.high is None or value.key < range_.high
            is_in = range_.low <= value.key and is_below and value.kind in range_.kinds
            self.assertTrue(answer <= is_in, (list_, text))
            self.assertTrue(not range_.exact or answer == is_in, (list_, text))

    def test_fields(self):
        """The texts of fields, by the kind that `vers show` tells and by where docs/GRAMMAR.md has them in a text."""
        grammar = {
            "ideal": re.compile(r"()[0-9.]+(?:-([^+]+))?()(?:\+(.+))?"),
            "general": re.compile(r"(?:([0-9]+):)?[0-9A-Za-z.]+()(?:-([^+]+))?(?:\+(.+))?"),
            "complex": re.compile(r"(?:([0-9]+):)?.*()()()"),
        }
        found = set()
        for line, said in zip(self.good, vers("show", lines=self.good).split(b"\n")):
            version, kind = versions.Version(text_of(line)), said.split(b" ")[0].decode()
            epoch, pre_release, release, metadata = (f or None for f in grammar[kind].fullmatch(str(version)).groups())
            self.assertEqual(version.kind, kind)
            self.assertEqual(version.epoch, epoch and min(int(epoch), 2**63 - 1), line)
            self.assertEqual((version.pre_release, version.release), (pre_release, release), line)
            self.assertEqual((version.metadata, version.is_prerelease), (metadata, pre_release is not None), line)
            found.add((kind, epoch is None, pre_release is None, release is None, metadata is None))
        self.assertGreaterEqual(len(found), 14)

    def test_sorts(self):
        """Both ways, also of texts that are no versions."""
        said = [text_of(line) for line in vers("sort", lines=self.good).split(b"\n")[:-1]]
        no_versions = [text for text, kind in zip(self.texts, self.kinds) if kind is None]
        self.assertAlike(versions.sorted(self.texts, invalid="last"), said + no_versions)
        # Of what ties, strict versions that differ in metadata alone, the first comes first both ways.
        mirrored = [text_of(l) for l in vers("sort", lines=self.good[::-1]).split(b"\n")[:-1]][::-1]
        self.assertAlike(versions.sorted(self.texts, reverse=True, invalid="last"), mirrored + no_versions)
        values = sorted(map(versions.Version, said), reverse=True)
        self.assertAlike([value.key for value in values], sorted((value.key for value in values), reverse=True))

    def test_requirements(self):
        asked = self.shapes.requirements()
        texts = [operator + version for operator, version in asked]
        texts += [f"{first},{second}" for first, second in zip(texts, reversed(texts))]
        for text in texts:
            said = vers("match", text, lines=self.lines)
            answers = versions.match_all(text, self.texts)
            self.assertAlike(b"".join(l + b"\n" for l, answer in zip(self.lines, answers) if answer), said, text)
            self.assertAlike([answer is None for answer in answers], [kind is None for kind in self.kinds])
        wanted = versions.Requirement("^1.1.1")
        for text, kind, answer in zip(self.texts, self.kinds, versions.match_all(wanted, self.texts)):
            if kind is None:
                self.assertRaises(versions.InvalidVersion, wanted.__contains__, text)
            else:
                self.assertEqual((text in wanted, wanted.matches(text)), (answer, answer))

    def test_which_texts_are_requirements(self):
        for operator, line in self.shapes.requirement_texts(self.lines):
            text = operator + text_of(line)
            accepted = is_accepted(text)
            try:
                versions.Requirement(text)
            except ValueError:
                self.assertFalse(accepted, text)
            else:
                self.assertTrue(accepted, text)
