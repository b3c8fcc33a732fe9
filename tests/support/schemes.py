"""What the tests need of each scheme, once: its names, its rows by hand, and the system that it is of, which says what its
texts are and how two compare. Where a scheme is added, it is one more class here. And the tables and sentences of
docs/SCHEMES.md and docs/SETS.md. Of what is by hand here tests/schemes asks the systems.

    schemes.py rows | header | names | others | needs

writes the rows for tests in other languages, or the same as a header of C; or the names of the schemes, or what else
each is called, for the scripts in bash; or looks for the systems, and says which isn't here. A row is a line of words with tabs between: what it is, the scheme, and

    scheme    its number, and the names that people know its system by
    key       the factor and the summand of the most bytes of a key
    front     what stands before parts with dots, as many as one likes, in a version
    rising    five versions in increasing order
    level     a version, and two after it that tie
    chain     versions, with < or = between
    none      a text that is no version
    flaw      another, up to where it could become one, and why no further
    set       a set, a version, and 1 if it has that, else 0
    no-set    a text that is no set, where, and why

Of a text \\n, \\t and \\0 are the bytes that these stand for in C.
"""
import importlib
import json
import os
import re
import shutil
import subprocess
import sys
import tempfile
from pathlib import Path

from checks import TOP
from sets import DOUBLED, SAID, worked_rows, wrong_rows

PAGE = (TOP / "docs/SCHEMES.md").read_text()
SPAN = re.compile("`([^`]+)`")
# The schemes in the order of their numbers, each with the other names that people know its system by, and with the factor
# and the summand of the most bytes of a key.
TABLE = re.findall(r"^\| `(\w+)` \| ([^|]*)\|(?: [^|]* \|){4} (\d+)n(?: \+ (\d+))? \|$", PAGE, re.M)
NAMES = {name: SPAN.findall(others) for name, others, *_ in TABLE}
NUMBERS = {name: number for number, name in enumerate(NAMES, 1)}
MOST_OF_KEYS = {name: (int(factor), int(summand or 0)) for name, _, factor, summand in TABLE}
# How the program `versions` lists them, and the scheme of each name, in lower case.
LISTED = ", ".join(f"{name} ({', '.join(others)})" if others else name for name, others in NAMES.items())
SCHEME_OF = {each: name for name, others in NAMES.items() for each in (name, *others)}
# What is said of a member that asks for parts.
(ASKS_FOR_PARTS,) = re.findall(r"^\| each of these \| `~[^`]*` \| \d+ \| (.*) \|$", PAGE, re.M)
# Which orders of a version and the member's version each operator has.
OPERATORS = {"=": (0,), "==": (0,), "!=": (-1, 1), "<": (-1,), "<=": (-1, 0), ">": (1,), ">=": (0, 1)}
OF_DEBIAN = dict(zip(DOUBLED, ((-1,), (1,))))
# What a text has that can't be a version in a set as it stands: it ends there, or before `.*`.
ENDS_IN_SETS = re.compile(r"[ \t|,]|\.\*$")
# Slips, versions by which people mean others, by the row of docs/SETS.md that shows one: its number in versions.h, and
# which texts are such.
SLIPS = {
    ">=v1.2": (9, re.compile("[vV][0-9]")),
    ">=1.x": (10, re.compile("([0-9]+:)?([A-Za-z0-9]*[.])*[xX](?![A-Za-z0-9])")),
    ">=latest": (11, re.compile("[^0-9]*$")),
}
OF_NONE = "=>1"  # the row of what is no version
# What is said of a text that is no version.
EMPTY_PART, BLANK, CONTROL, PAST_ASCII = "an empty part", "a blank", "a control character", "a character past ASCII"
LEADING_ZERO, OTHER = "a number with a leading zero", "a character that can't stand there"
LATE_COLON, TOO_EARLY = "a colon after the hyphen", "an end too early"
# All that is said, in the order of the reasons' numbers in versions.h, the first of which is 1.
AFTER = {"-": "hyphen", "+": "plus", ".": "dot", ":": "colon", "_": "underscore", "~": "tilde", "!": "exclamation mark"}
REASONS = (
    "nothing", *(f"nothing after the {mark}" for mark in AFTER.values()), TOO_EARLY, BLANK, CONTROL, PAST_ASCII,
    EMPTY_PART, LEADING_ZERO, OTHER, LATE_COLON,
)
# Shapes of `[epoch:]version[-release]`: N is a number, S a sign, W a word, and E an epoch.
OF_THREE_PARTS = "N NSN N.NSN NWN N.NSW WSN N.NSWSN E:NSN N.N-N NSN-NWN N.NWN-SWN E:NSNWN-NSN NSNWNSN-WSN N-N-N".split()


class Missing(Exception):
    """What isn't here, and Debian's package that has it."""


def section_of(name):
    """What the page says of a scheme."""
    return "".join(re.findall(rf"^## {name}\n(.*?)(?=^## |\Z)", PAGE, re.M | re.S))


def texts_of(chain):
    """The versions of a chain."""
    return re.split(" [<=] ", chain)


def steps_of(chain):
    """Each two neighbours of a chain, with -1 or 0 as they compare."""
    texts = texts_of(chain)
    return [(a, b, -1 if sign == "<" else 0) for a, b, sign in zip(texts, texts[1:], re.findall(" ([<=]) ", chain))]


def chains_of(name):
    """The chains of the section, such as `1.0~rc1 < 1.0 = 1.0-0`."""
    return [row.replace("`", "") for row in re.findall(r"^\| (`[^|]*` [<=] [^|]*`) \|", section_of(name), re.M)]


def sets_of(name):
    """The pages' sets of a scheme, each with versions that it has, and that it has not."""
    yield from worked_rows() if name == "mixed" else ()
    for text, *cells in re.findall(rf"^\| `{name}` \| `(.*)` \| (`.*`) \| (`.*`) \|$", PAGE, re.M):
        yield text.replace("\\|", "|"), *map(SPAN.findall, cells)


def wrong_of(name):
    """The pages' texts that are no sets of a scheme, each with the place and what is said."""
    if name == "mixed":
        return [*wrong_rows()]
    rows = re.findall(rf"^\| (?:each of these|`{name}`) \| `([^`]*)` \| (\d+) \| (.*) \|$", PAGE, re.M)
    return [(text, int(place), said) for text, place, said in rows]


def specifiers():
    """The page's specifiers of pip, with the versions that each has there alone, and here alone."""
    rows = re.findall(r"^\| `([=!<>]+[0-9.]+)` \| ([^|]*) ?\| ([^|]*) ?\|$", PAGE, re.M)
    return [(text, SPAN.findall(there), SPAN.findall(here)) for text, there, here in rows]


def sign(number):
    return (number > 0) - (number < 0)


def of_three_parts(text):
    """The epoch before the first colon, what follows it, and the release after the last hyphen, or None each."""
    epoch, colon, rest = text.partition(":") if ":" in text else (None, "", text)
    version, hyphen, release = rest.rpartition("-") if "-" in rest else (rest, "", None)
    return epoch, version, release


def is_epoch(text, most):
    return text is None or (re.fullmatch("[0-9]+", text) is not None and int(text) <= most)


class Process:
    """A program that gets a line of JSON, an array of texts or pairs, and answers it with an array in a line."""

    def __init__(self, *command):
        environment = {**os.environ, "NODE_PATH": "/usr/share/nodejs", "LC_ALL": "C.UTF-8"}
        pipes = {"stdin": subprocess.PIPE, "stdout": subprocess.PIPE}
        self.process = subprocess.Popen(command, text=True, env=environment, **pipes)

    def ask(self, asked):
        self.process.stdin.write(json.dumps(asked) + "\n")
        self.process.stdin.flush()
        return json.loads(self.process.stdout.readline())


class Scheme:
    """What is by hand of a scheme."""

    # Chains of versions, with < or = between, and texts that are none.
    rows, no_versions = (), ()
    # Other texts that are none, each up to where something after it makes a version, and why no further.
    flaws = ()
    # Five versions in increasing order; and one, with two after it that tie.
    rising, level = "", ""
    # What stands in a version before parts with dots, as many as one likes.
    front = ""
    # Which marks stand between the parts of a version: of two in a row is said that a part is empty.
    marks = ""
    # Texts that may only go on with letters, since what they end with is a number with a leading zero.
    zero_led = re.compile(rb"(?!)")
    # Which operators its sets have, and which orders of a version and the member's version each has.
    operators = OPERATORS
    # Texts that are no sets, each with the place and with the row of docs/SETS.md whose sentence is said of it.
    no_sets = ()

    @classmethod
    def is_in_order(cls, sign, order):
        """Whether a set of one member with an operator has a version that compares so with the member's."""
        return order in cls.operators[sign]


class Mixed(Scheme):
    """This project's own, by docs/ORDER.md and docs/GRAMMAR.md."""

    name = "mixed"
    rows = ("1.9 < 1.10rc1 < 1.10 = 0:1.10 = 01.10", "1.0rc1 < 1.0 = 0:1.0", "1.0.0+a = 1.0.0+b")
    no_versions = ("", "1..2", "1.0^git1", "1\0", "é")
    flaws = (
        ("", 0, "nothing"), ("1.2.3-", 6, "nothing after the hyphen"), ("1.2.3+", 6, "nothing after the plus"),
        ("1.", 2, "nothing after the dot"), ("1:", 2, "nothing after the colon"),
        ("1_", 2, "nothing after the underscore"), ("1~", 2, "nothing after the tilde"), ("1..2", 2, EMPTY_PART),
        ("-1", 0, EMPTY_PART), ("1.0+~b", 4, EMPTY_PART), ("1.2.3 ", 5, BLANK), (" 1", 0, BLANK), ("1\t2", 1, BLANK),
        ("1\n", 1, CONTROL), ("1.0\0", 3, CONTROL), ("1\x7f", 1, CONTROL), ("1\x1f", 1, CONTROL),
        ("1.2é", 3, PAST_ASCII), ("1\U0001f600", 1, PAST_ASCII), ("1.2.3-a_!", 8, OTHER), ("1!2", 1, OTHER),
        ("^1", 0, OTHER),
    )
    rising, level = "1.2rc1 1.2 1.2.5 1.10 2", "1.0rc1 1.0 0:1.0"
    marks = "-+.:_~"
    no_sets = (
        ("", 0, ">=1.2,"), ("*, =é", 4, "=>1"), ("=1\0", 1, "=>1"), ("*, >=1.2, ^1.x", 11, ">=1.x"),
    )


class System(Scheme):
    """What else the class of another system has: how its texts are drawn, and what the system says of them."""

    # What the page to try it on calls its order; and the Debian package of what answers.
    title = package = ""
    # A text is a shape, in which each letter that `words` has is one of its words.
    shapes, words = (), {}
    # The bytes that neighbours differ in.
    signs = ""
    # What the system reads and the scheme doesn't, and the other way round.
    only_system, only_scheme = (), ()
    # Whether a v before a version changes nothing, and so is no slip.
    ignores_v = False
    # Keys of versions by the definitions in its crate: the lengths of numbers and their digits, ranks
    # and ends.
    keys = {}
    # How many of 2,000 drawn members are slips at least.
    drawn_slips = 0
    # Members of sets with a v, an x or no digit, by the row of docs/SETS.md whose sentence is said of them, or with the
    # member whose set they are; and members that are no slips though they have a v or an x.
    members, no_slips = {}, ()

    def draw(self, random):
        words = self.words
        return "".join([random.choice(words.get(letter, letter)) for letter in random.choice(self.shapes)])

    def neighbour(self, random, text):
        """The text with one or two bytes changed, put in or taken out."""
        for _ in range(random.choice((1, 1, 2))):
            place = random.randrange(len(text) + 1)
            put, taken = random.choice(((1, 0), (1, 1), (0, 1)))
            text = text[:place] + random.choice(self.signs) * put + text[place + taken :]
        return text

    def reads(self, texts):
        """Whether each text is a version of the scheme."""
        return [self.has(text) for text in texts]

    def compare(self, pairs):
        """-1, 0 or 1 for each pair of versions."""
        return [self.order(*pair) for pair in pairs]

    def takes(self, text):
        """Whether the system itself takes a text, which the scheme may not."""
        return self.has(text)

    parts = 20_000  # of a long version, which the system reads

    def long(self, end):
        """A long version, with other versions of that length for other ends."""
        return self.front + "1." * self.parts + end

    def ranges(self):
        """What else the page has of the system's own ranges: each with the versions that it has there alone, and here."""
        return ()

    def tries(self, random):
        """What else holds its answers: names, whether they hold, and what is wrong."""
        return ()

    @classmethod
    def slips(cls, text):
        """The rows of SLIPS that a version is like. Of more than one the pages don't say which is told."""
        found = [row for row, (_, form) in SLIPS.items() if form.match(text)]
        return [row for row in found if row != ">=v1.2" or not cls.ignores_v]

    @classmethod
    def may_stand(cls, text):
        """Whether a version may follow an operator."""
        return not ENDS_IN_SETS.search(text) and not cls.slips(text)


class Deb(System):
    """Debian's order by libapt-pkg, and its texts by the rule of dpkg's parseversion, which is held against dpkg."""

    name, title, package = "deb", "Debian", "python3-apt"
    shapes = OF_THREE_PARTS
    words = {
        "N": "0 1 2 9 10 00 01 012 99 18446744073709551616".split(),
        "S": ". . . ~ + - ~~ .~ +~ .. ~.".split(),
        "W": "a b z A Z x rc beta git +dfsg ~rc ~bpo +b".split(),
        "E": "0 1 2 00 010 2147483647 2147483648 x".split(),
    }
    signs = "0011239aazAZ..++~~~--:: _é\0"
    rows = (
        "1.0~~ < 1.0~~a < 1.0~ < 1.0", "1.0-a < 1.0Z < 1.0a < 1.0+ < 1.0.", "1.0 = 1.0-0 = 0:1.0 = 1.0-00",
        "1.0-0~ < 1.0 < 1.0-0a", "1.9 < 1.10 = 1.010 < 1:0", "1.0-1 < 1.0+b1", "1:1-1 < 1:1:1", "1-1-1 < 1-2-0",
    )
    no_versions = (
        "", "a1", ":1", "1:", "a:1", "1-", "1:-1", "1.0:1", "1_0", "1.0-1:1", "2147483648:1", "1..é", "~1", "-1",
        "1\0",
    )
    flaws = (
        ("", 0, "nothing"), ("1:", 2, "nothing after the colon"), ("1.0-", 4, "nothing after the hyphen"),
        ("a1", 0, OTHER), ("1_0", 1, OTHER), ("1.0:1", 3, OTHER), ("2147483648:1", 10, OTHER), (".1", 0, OTHER),
        ("-1", 0, EMPTY_PART), ("1.0 ", 3, BLANK), ("1.2é", 3, PAST_ASCII), ("1:1-2:3", 7, LATE_COLON),
        ("1-2:3", 3, LATE_COLON), ("1:1-2:", 6, "nothing after the colon"), ("1:1-2:3_", 7, OTHER),
        ("1-02:3", 4, LATE_COLON),
    )
    rising, level = "1.0~rc1 1.0 1.0a 1.9 1.10", "1.0~rc1 1.0 1.0-0"
    keys = {
        # epoch 0; no run, 1, `.`, no run, 0, the end; no run, 1, the end
        "1.0-1": "00 02 0131 ae 02 00 02 02 0131 02",
        # epoch 1; no run, 1, `.`, no run, 0, `~`, `rc`, 1, the end; no run, 0, the end
        "1:1.0~rc1": "0131 02 0131 ae 02 00 01 726302 0131 02 02 00 02",
    }
    marks = "-:"
    operators = OPERATORS | OF_DEBIAN
    no_sets = ((">=1_0", 2, "=>1"), (">=1.0, =a:1", 8, "=>1"))
    drawn_slips = 1
    only_system = (" 1.0", "1.0 ", "\t1.0", "+1:2", " +0:2")
    members = {
        **dict.fromkeys((">=v1.2", "=V1", ">=latest", "<x.1"), OF_NONE),
        **dict.fromkeys((">=1.x", "=1:1.2.X-1", ">= 2.x+dfsg-1", "<<1.x", "!=1.x.2"), ">=1.x"),
    }
    no_slips = ("=1.2-x", "=1.2+x", "=1.2~x.1", "=1.x1", "=1.xx", "=1x.2", "=1:2:3.x")
    upstream, revision = re.compile("[0-9][A-Za-z0-9.+~:-]*"), re.compile("[A-Za-z0-9.+~]+")

    def __init__(self):
        apt_pkg = importlib.import_module("apt_pkg")
        apt_pkg.init_system()
        self.apt_compare = apt_pkg.version_compare

    def has(self, text):
        epoch, upstream, revision = of_three_parts(text)
        is_revision = revision is None or self.revision.fullmatch(revision)
        return bool(is_epoch(epoch, 2**31 - 1) and self.upstream.fullmatch(upstream) and is_revision)

    def order(self, a, b):
        return sign(self.apt_compare(a, b))

    def takes(self, text):
        return self.dpkg("--validate-version", text)

    def dpkg(self, *words):
        return subprocess.run(["dpkg", *words], stdout=subprocess.DEVNULL, stderr=subprocess.DEVNULL).returncode == 0

    def tries(self, random):
        texts = [self.neighbour(random, self.draw(random)) for _ in range(330)]
        texts = [text for text in texts if text == text.strip() and text[:1] not in {*"+-"} and "\0" not in text]
        odd = [text for text in texts if self.takes(text) != self.has(text)]
        yield f"the rule of its texts beside dpkg, {len(texts)} tried", len(texts) > 250 and not odd, odd
        versions = [text for text in texts if self.has(text)]
        pairs = [(text, self.neighbour(random, text)) for text in versions]
        pairs = [(text, other) for text, other in pairs if self.has(other)][:100]
        said = {-1: "lt", 0: "eq", 1: "gt"}
        odd = [(a, b) for a, b in pairs if not self.dpkg("--compare-versions", a, said[self.order(a, b)], b)]
        yield f"libapt-pkg beside dpkg, {len(pairs)} tried", len(pairs) > 50 and not odd, odd
        yield "libapt-pkg orders any texts", self.order("a 1", "a 2") == -1
        ties = [self.dpkg("--compare-versions", "1.2", relation, "1.2") for relation in ("<", ">", "<<", ">>")]
        yield "dpkg's relations of what ties", ties == [True, True, False, False], ties


class Rpm(System):
    """RPM's order by librpm, and its texts by a rule that is held against rpmbuild's reader of specs. That refuses two
    dots in a row, and takes %, { and }, which are there for macros.
    """

    name, title, package = "rpm", "RPM", "python3-rpm"
    shapes = OF_THREE_PARTS
    words = {
        "N": Deb.words["N"],
        "S": ". . . _ + ~ ^ ~~ ^^ ^~ ~^ .^ ..".split(),
        "W": "a b z A Z x rc beta git ^git ~rc .el".split(),
        "E": "0 1 2 00 010 4294967295 4294967296 x".split(),
    }
    signs = "0011239aazAZ..__++~~^^^--: é\0"
    rows = (
        "1.0~rc1 < 1.0 < 1.0^git1 < 1.0a < 1.0.1", "1.0^ < 1.0^a < 1.0^1 < 1.0^1^ < 1.0.0", "1.0~ < 1.0~^ < 1.0~a",
        "1.0 < 1.0-0 < 1.0-1", "1.0-~ < 1.0-.", "1a = 1.a = 1_a", "1.A < 1.a < 1.ab < 1.b < 1.0 = 1.00 = 1..0 = 1.0.",
        "2 = 0:2 < 1:1", ". = _ < a < v1 < 0", "1.0-1.fc9 < 1.0-1.fc10",
    )
    no_versions = (
        "", "-", "-1", "1-", ":1", "1:", "a:1", "1:2:3", "1-2-3", "1 0", "1/0", "4294967296:1", "1é", "1%0", "1\0",
    )
    flaws = (
        ("", 0, "nothing"), ("1-", 2, "nothing after the hyphen"), ("1:", 2, "nothing after the colon"),
        ("1-2-3", 3, OTHER), ("a:1", 1, OTHER), ("1--2", 2, EMPTY_PART), ("4294967296:1", 10, OTHER), ("1/0", 1, OTHER),
        ("1-2:3", 3, LATE_COLON), ("\U0001f600", 0, PAST_ASCII),
    )
    rising, level = "1.0~rc1 1.0 1.0^git1 1.0a 1.0.1", "1.0~rc1 1.0 0:1.0"
    # epoch 0; the numbers 1 and 0, the end; a release: the number 1, the end
    keys = {"1.0-1": "00 05 0131 05 00 02 02 05 0131 02"}
    marks = "-:"
    drawn_slips = 1
    only_system, only_scheme = ("1%0", "1{0", "1}0-%"), ("1..0", "1-a..")
    members = {
        **dict.fromkeys((">=v1.2", "= V1-2", "!=v1"), ">=v1.2"),
        **dict.fromkeys((">=1.x", "<X.1", "=1:2.x-1"), ">=1.x"),
        **dict.fromkeys((">=latest", "= .", "!=a_b-c"), ">=latest"),
    }
    no_slips = ("=x1", "=1.2-x", "=1_x", "=1.vx", "=v.1", "=1^x")
    part = re.compile("[A-Za-z0-9._+~^]+")

    def __init__(self):
        self.rpm = importlib.import_module("rpm")
        self.rpm.setVerbosity(self.rpm.RPMLOG_CRIT)

    def takes(self, text):
        epoch, version, release = (part and part.replace("%", "%%") for part in of_three_parts(text))
        lines = [] if epoch is None else [f"Epoch: {epoch}"]
        lines += ["Name: x", f"Version: {version}", f"Release: {'1' if release is None else release}"]
        with tempfile.NamedTemporaryFile("w", suffix=".spec") as spec:
            spec.write("\n".join([*lines, "Summary: x", "License: x", "%description", ""]))
            spec.flush()
            try:
                return self.rpm.spec(spec.name) is not None
            except ValueError:
                return False

    def has(self, text):
        epoch, version, release = of_three_parts(text)
        is_release = release is None or self.part.fullmatch(release)
        return bool(is_epoch(epoch, 2**32 - 1) and self.part.fullmatch(version) and is_release)

    def order(self, a, b):
        return self.rpm.labelCompare(of_three_parts(a), of_three_parts(b))

    def tries(self, random):
        texts = [text for text in (self.neighbour(random, self.draw(random)) for _ in range(600)) if self.has(text)]
        read = [(each.e, each.v, each.r) for each in map(self.rpm.ver, texts)]
        odd = [(text, parts) for text, parts in zip(texts, read) if parts != of_three_parts(text)]
        yield f"the three parts beside librpm, {len(texts)} tried", len(texts) > 300 and not odd, odd
        yield "librpm orders any texts", self.order("1/ 1", "1/ 2") == -1
        texts = [self.neighbour(random, self.draw(random)) for _ in range(400)]
        texts = [text for text in texts if not re.search(r"[\s\0]|\.\.", text)]
        odd = [text for text in texts if self.takes(text) != self.has(text)]
        yield f"the rule of its texts beside rpmbuild, {len(texts)} tried", len(texts) > 250 and not odd, odd
        rpm, equal = self.rpm, self.rpm.RPMSENSE_EQUAL
        least = rpm.ds(("x", equal | rpm.RPMSENSE_LESS, "1.2"), rpm.RPMTAG_REQUIRENAME)
        texts = [text for text in (self.neighbour(random, "1.2-3") for _ in range(300)) if self.has(text)]
        found = [bool(least.Compare(rpm.ds(("x", equal, text), rpm.RPMTAG_PROVIDENAME))) for text in texts]
        odd = [text for text, takes in zip(texts, found) if takes != (self.order(text, "1.2^") < 0)]
        yield f"RPM's range up to 1.2, {found.count(True)} of {len(texts)} in it", True in found and not odd, odd


class Pypi(System):
    """Python's, by the package `packaging`; of texts in ASCII alone."""

    name, title, package = "pypi", "Python", "python3-packaging"
    shapes = """N N.N N.N.N N.0.0 E!N.N N.NP N.NPN N.0PN VN.NPN N.NT N.NTN N.N-N N.ND N.NDN N.NPNDN N.NTNDN N.NPNTN
        N.NPNTNDN N.NL N.NLxL E!N.NPNTNDNL N.NPNL N.NDNL""".split()
    words = {
        "N": "0 1 2 9 10 00 01 99 18446744073709551616".split(),
        "E": "0 1 00 2".split(),
        "V": ("v", "V", " ", " v", "\n", "v "),
        "P": "a b c rc A Rc alpha beta pre preview .a -b _rc a. .alpha- rc_".split(),
        "T": ".post post -post _post .post. .rev r -r .Post-".split(),
        "D": ".dev dev -dev _dev .dev. .DEV".split(),
        "L": "+a +b +1 +01 +A +a.1 +a-1 +1_a +ubuntu .1 .a".split(),
        "x": ("", ".0", ".a", "-1", "_z"),
    }
    signs = "0011239abcdevrv..--__++!! Aé\0"
    rows = (
        "1.0.dev1 < 1.0a1.dev1 < 1.0a1 < 1.0b1 < 1.0rc1 = 1.0c1 = 1.0-pre1 < 1.0",
        "1.0 < 1.0+a < 1.0+1 < 1.0.post1.dev1 < 1.0.post1",
        "1.0 = 1 = 1.0.0 = v1.0 = 0!1.0 = 01", "1.0.post1 = 1.0-1 = 1.0.rev1", "1.9 < 1.10 < 1!0", "1+a.1 < 1+a.1.0",
        "1.0a < 1.0a0.post0 < 1.0a1", "1.0+A = 1.0+a", "1.0+a-1 = 1.0+a.1 = 1.0+a_1",
    )
    no_versions = ("", " ", "a", "1.", "1..0", "1.0+", "1.0-", "1.0-a-b", "1.0x", "1!", "1.0+a..b", "1.0\0", "é")
    flaws = (
        ("", 0, "nothing"), ("1!", 2, "nothing after the exclamation mark"), ("1.0+", 4, "nothing after the plus"),
        ("1.0_", 4, "nothing after the underscore"), ("v", 1, TOO_EARLY), (" ", 1, TOO_EARLY), ("1.0x", 3, OTHER),
        ("1..0", 2, EMPTY_PART), ("1!!0", 2, EMPTY_PART), ("1 2", 2, OTHER), ("1.0.poſt1", 6, PAST_ASCII),
        ("\u2003v", 0, PAST_ASCII),
    )
    rising, level = "1.0.dev1 1.0rc1 1.0 1.9 1.10", "1.0rc1 1.0 1.0.0"
    # epoch 0; 1, the end; alpha 1; no post-release; no dev release; no local version
    keys = {"1.0a1": "00 02 0131 01 02 0131 01 02 01"}
    marks = "-+._!"
    no_sets = ((">=1.0 ||", 8, ">=1.2,"),)
    only_system = ("1.0.poſt1", "1.0\xa0")
    ignores_v = True
    members = {
        **dict.fromkeys((">=1.x", "=latest", "!=v", "<1.2.X", ">=vv1.2"), OF_NONE),
        **{"=v1.0": "=1.0", ">=v1.2": ">=1.2", "!=V1.0a1": "!=1.0a1", "<v1!2": "<1!2", ">= v1": ">=1.0"},
    }
    no_slips = ("=v1.2", ">=V1.2", "=1.2+x", "=1+v1.x")

    def __init__(self):
        found = importlib.import_module("packaging.version")
        self.version, self.invalid = found.Version, found.InvalidVersion
        # PEP 440, appendix B: the pattern, which packaging prints, and how it is used.
        self.pattern = re.compile(rf"\s*{found.VERSION_PATTERN}\s*", re.VERBOSE | re.IGNORECASE)

    def takes(self, text):
        try:
            return self.version(text) is not None
        except self.invalid:
            return False

    def has(self, text):
        return text.isascii() and self.takes(text)

    def order(self, a, b):
        a, b = self.version(a), self.version(b)
        return (a > b) - (a < b)

    def ranges(self):
        return specifiers()

    def tries(self, random):
        texts = [self.neighbour(random, self.draw(random)) for _ in range(5000)]
        odd = [text for text in texts if self.takes(text) != (self.pattern.fullmatch(text) is not None)]
        read = sum(map(self.takes, texts))
        yield f"appendix B's pattern, {read} of {len(texts)} read", min(read, len(texts) - read) > 500 and not odd, odd
        specifier = importlib.import_module("packaging.specifiers").SpecifierSet
        yield "specifiers on the page", len(self.ranges()) == 5
        for text, there, here in self.ranges():
            found = [specifier(text).contains(version, prereleases=True) for version in (*there, *here)]
            yield f"pip's {text} on the page", found == [True] * len(there) + [False] * len(here), found


class SemVer(System):
    """SemVer 2.0.0 by npm's semver. That reads a v before a version, at most 256 characters, and numbers of at most
    2^53 - 1, and compares greater ones of a pre-release as floating point numbers: what is drawn has none of these.
    """

    name, title, package = "semver", "SemVer 2.0", "node-semver"
    shapes = "N.N.N N.N.N-I N.N.N-I N.N.N-I.I N.N.N-I.I.I N.N.N+I N.N.N-I+I.I".split()
    words = {
        "N": "0 1 2 9 10 11 100 999999".split(),
        "I": "0 1 2 9 10 11 a b z A Z alpha rc rc1 1a - -- -1 x-y 0a 00a".split(),
    }
    signs = "0011239aazAZ...---++ _é\0"
    rows = (
        "1.0.0-alpha < 1.0.0-alpha.1 < 1.0.0-alpha.beta < 1.0.0-beta < 1.0.0-beta.2 < 1.0.0-beta.11",
        "1.0.0-beta.11 < 1.0.0-rc.1 < 1.0.0",
        "1.0.0 = 1.0.0+a = 1.0.0+b < 1.0.1", "1.9.0 < 1.10.0", "1.0.0-0 < 1.0.0-1 < 1.0.0--1 < 1.0.0-A < 1.0.0-a",
        "1.0.0-rc10 < 1.0.0-rc2",
    )
    no_versions = (
        "", "1", "1.0", "1.0.0.0", "01.0.0", "1.0.0-", "1.0.0-01", "1.0.0-a..b", "1.0.0+", "=1.0.0", " 1.0.0",
        "1.0.0-é",
    )
    flaws = (
        ("", 0, "nothing"), ("1.2", 3, TOO_EARLY), ("1.2.", 4, "nothing after the dot"),
        ("1.2.3-", 6, "nothing after the hyphen"), ("1.2.3+", 6, "nothing after the plus"), ("01.0.0", 1, LEADING_ZERO),
        ("1.00.0", 3, LEADING_ZERO), ("1.0.0-01", 8, LEADING_ZERO), ("1.0.0-01.5", 8, LEADING_ZERO),
        ("1.0.0-a.00+1", 10, LEADING_ZERO), ("1.0.0-01!", 8, OTHER), ("1.0.0+01+b", 8, OTHER),
        ("1.0.0-01.a", 8, LEADING_ZERO), ("1.0.0-a..b", 8, EMPTY_PART), ("v1.0.0", 0, OTHER), ("1.0.0+a+b", 7, OTHER),
    )
    rising, level = "1.0.0-alpha 1.0.0-beta 1.0.0 1.9.0 1.10.0", "1.0.0-rc.1 1.0.0 1.0.0+a"
    front, parts = "1.0.0-", 100
    # 1, 2, 3; a pre-release: the text `rc`, the number 1, the end
    keys = {"1.2.3-rc.1": "0131 0132 0133 01 03 726300 02 0131 01"}
    marks = "-+."
    # What a pre-release may become a version by, if letters follow: its last part is digits with a leading zero.
    zero_led = re.compile(rb"[0-9]+[.][0-9]+[.][0-9]+-(?:[0-9A-Za-z-]+[.])*0[0-9]+")
    no_sets = ((">=1.0", 2, "=>1"),)
    only_system = ("v1.0.0",)
    only_scheme = ("9007199254740992.0.0", "1.0.0-" + "a" * 251)
    members = dict.fromkeys((">=v1.2.3", "=V1.2.3", ">=1.2.x", "<1.X", "=latest", "!=x.1.2"), OF_NONE)
    no_slips = ("=1.2.3-x", "=1.2.3-rc.x", "=1.2.3+v1.x")
    program = """
        const semver = require("semver");
        const answer = (it) => Array.isArray(it) ? semver.compare(...it) : semver.valid(it) !== null;
        const lines = require("readline").createInterface({ input: process.stdin });
        lines.on("line", (line) => console.log(JSON.stringify(JSON.parse(line).map(answer))));
    """

    def __init__(self):
        if not shutil.which("node"):
            raise Missing("there is no node here (Debian has it in the package nodejs)")
        if not Path("/usr/share/nodejs/semver/package.json").exists():
            raise Missing("there is no semver of npm here (Debian has it in the package node-semver)")
        self.compare = Process("node", "-e", self.program).ask

    def takes(self, text):
        return self.compare([text])[0]

    def reads(self, texts):
        return [found and text[0] != "v" for text, found in zip(texts, self.compare(texts))]


class Gem(System):
    """RubyGems', by Gem::Version; a text of blanks alone is no version."""

    name, title, package = "gem", "RubyGems", "ruby"
    shapes = "N N.N N.N.N N.0 N.0.0 N.W N.N.W N.NWN N.W.N N.0.W N.0.0.W N-W N.N-W.N N.N-N _N.N N.N.W.0 N.W.0.N".split()
    words = {
        "N": "0 1 2 9 10 00 01 99 18446744073709551616".split(),
        "W": "a b z A Z rc pre beta a1 1a 0a rc10".split(),
        "_": (" ", "\n", "\t ", ""),
    }
    signs = "00011239aazAZ....-- _é\0"
    rows = (
        "1.0.a < 1.0.b < 1.0.rc1 < 1.0 < 1.0.1", "1 = 1.0 = 1.0.0 = 01 = 1.00", "1.0.a = 1.a < 1.0.a.1",
        "1.0-1 = 1.0.pre.1 < 1.0", "1.A < 1.a", "1.a2 < 1.a10", "1.9 < 1.10", "1.0.a.0 = 1.a",
    )
    no_versions = ("a", "1.", ".1", "1..0", "1-", "1.0-.", "1_0", "1+0", "v1", "1é", "1\0")
    flaws = (
        ("", 0, "nothing"), ("1.", 2, "nothing after the dot"), ("1-", 2, "nothing after the hyphen"),
        ("1..0", 2, EMPTY_PART), ("1..0é", 2, EMPTY_PART), ("a", 0, OTHER), ("1a.0", 1, OTHER), (" ", 1, TOO_EARLY),
        ("1. 0", 2, BLANK),
    )
    rising, level = "1.0.a 1.0.b1 1.0 1.9 1.10", "1.0.rc1 1.0 1.0.0"
    # the number 1, the letters `a`, the end
    keys = {"1.0.a": "05 0131 01 6100 03"}
    marks = "-."
    only_system = ("", " ")
    members = {
        **dict.fromkeys((">=v1.2", "=latest", "!=x.1"), OF_NONE),
        **dict.fromkeys((">=1.x", "<2.0.X", "!=1.x.2", "=1.x-1"), ">=1.x"),
    }
    no_slips = ("=1.x1", "=1.2x", "=1-x")
    program = """
        require "json"
        $stdin.each_line do |line|
          puts JSON.generate(JSON.parse(line).map { |it|
            it.is_a?(Array) ? Gem::Version.new(it[0]) <=> Gem::Version.new(it[1]) : Gem::Version.correct?(it) == true
          })
          $stdout.flush
        end
    """

    def __init__(self):
        if not shutil.which("ruby"):
            raise Missing("there is no ruby here (Debian has it in the package ruby)")
        self.compare = Process("ruby", "-e", self.program).ask

    def takes(self, text):
        return self.compare([text])[0]

    def reads(self, texts):
        return [found and text.strip() != "" for text, found in zip(texts, self.compare(texts))]


SYSTEMS = {system.name: system for system in (Deb, Rpm, Pypi, SemVer, Gem)}
SCHEMES = {"mixed": Mixed, **SYSTEMS}


def system_of(name):
    """The system of a scheme, or None; raises Missing where what it asks isn't here."""
    try:
        return SYSTEMS[name]() if name in SYSTEMS else None
    except ImportError as error:
        raise Missing(f"{error} (Debian has it in the package {SYSTEMS[name].package})") from None


def no_sets_of(name):
    """Texts that are no sets of a scheme, of the pages and by hand, each with the place and what is said."""
    scheme = SCHEMES[name]
    rows = [(text, place, SAID[row]) for text, place, row in scheme.no_sets]
    doubled = [(sign + scheme.rising.split()[2], 2, SAID["<<1"]) for sign in DOUBLED if sign not in scheme.operators]
    return wrong_of(name) + rows + doubled


def rows():
    """What tests in other languages have of the schemes, each row by its words."""
    for name, scheme in SCHEMES.items():
        yield "scheme", name, NUMBERS[name], *NAMES[name]
        yield "key", name, *MOST_OF_KEYS[name]
        yield "front", name, scheme.front
        yield "rising", name, *scheme.rising.split()
        yield "level", name, *scheme.level.split()
        for chain in (*chains_of(name), *scheme.rows):
            yield "chain", name, *re.split(" ([<=]) ", chain)
        for text in scheme.no_versions:
            yield "none", name, text
        for flaw in scheme.flaws:
            yield "flaw", name, *flaw
        for text, has, lacks in sets_of(name):
            for version in (*has, *lacks):
                yield "set", name, text, version, int(version in has)
        for row in no_sets_of(name):
            yield "no-set", name, *row


def written(word):
    """A word of a row."""
    word = str(word)
    assert "\\" not in word, word
    return word.replace("\n", "\\n").replace("\t", "\\t").replace("\0", "\\0")


def literal(word):
    """A word as a string of C; of a byte that isn't printed the three digits to the base 8."""
    shown = (chr(byte) if 32 <= byte < 127 and byte not in b'"\\?' else f"\\{byte:03o}" for byte in str(word).encode())
    return f'"{"".join(shown)}", {len(str(word).encode())}'


def header():
    """The rows as C has them: with numbers for schemes and reasons, and each text with its length."""
    text = "const char *text; size_t length;"
    names, fronts, pairs, flaws, no_versions = made = [], [], [], [], []
    for name, scheme in SCHEMES.items():
        number = NUMBERS[name]
        names += [f"{number}, {literal(each)}" for each in (name, *NAMES[name])]
        fronts.append(f"{number}, {literal(scheme.front)}")
        for a, b, order in (step for chain in (*chains_of(name), *scheme.rows) for step in steps_of(chain)):
            pairs.append(f"{number}, {literal(a)}, {literal(b)}, {order}")
        flaws += [f"{number}, {literal(text)}, {place}, {1 + REASONS.index(why)}" for text, place, why in scheme.flaws]
        no_versions += [f"{number}, {literal(text)}" for text in scheme.no_versions]
    two = "const char *one; size_t one_length; const char *other; size_t other_length; int order;"
    fields = {"names": text, "fronts": text, "pairs": two, "flaws": f"{text} size_t place; uint32_t reason;", "no_versions": text}
    for (name, members), lines in zip(fields.items(), made):
        yield f"static const struct {{ uint32_t scheme; {members} }} scheme_{name}[] = {{"
        yield from (f"  {{{line}}}," for line in lines)
        yield "};"


def needs():
    """Nothing, where each system is here."""
    for name in SYSTEMS:
        try:
            system_of(name)
        except Missing as missing:
            sys.exit(f"{name}: {missing}")
    return ()


FORMS = {
    "rows": lambda: ("\t".join(map(written, row)) for row in rows()),
    "header": header,
    "needs": needs,
    "names": lambda: [", ".join(NAMES)],
    "others": lambda: [" ".join(f"{each}:{name}" for each, name in SCHEME_OF.items() if each != name)],
}


def text_in(form):
    return "".join(f"{line}\n" for line in FORMS[form]())


if __name__ == "__main__":
    print(text_in(sys.argv[1]), end="")
