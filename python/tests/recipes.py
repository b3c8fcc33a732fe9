"""The recipes of docs/COOKBOOK.md for pandas and for locks, and of docs/PYTHON.md for pyarrow, run as they stand; columns
of pandas; what the cookbook has of other systems, beside these (tests/support/schemes.py); examples/resolver and form.

    recipes.py

Its Python has pandas, resolvelib, the package, and what the systems need. Where it has no pyarrow, which Debian lacks,
a stand-in of this file has its place. The last line is 'N passed, M failed'.
"""

import contextlib
import http.client
import io
import itertools
import json
import operator
import os
import random
import re
import runpy
import subprocess
import sys
import tempfile
import time
import unittest
import warnings
from collections import Counter
from functools import partial
from html.parser import HTMLParser
from types import SimpleNamespace
from urllib.parse import quote

import numpy
import pandas

import arrow
import counted
import versions
from lists import LongLists

HERE = os.path.dirname(os.path.abspath(__file__))
sys.path.insert(0, os.path.join(HERE, "..", "..", "tests", "support"))
from schemes import OPERATORS, SCHEMES, SCHEME_OF, Process, system_of  # noqa: E402

try:
    import pyarrow
except ImportError:
    pyarrow = None

DOCS = os.path.join(HERE, "..", "..", "docs")
TEXTS = ["1.10", None, "1.9", "x y", "1.2.3"]


class Table:
    """The calls of pyarrow.Table that the recipe makes, over columns that are Arrow streams."""

    def __init__(self, columns):
        self.columns = columns

    def __getitem__(self, name):
        texts = [text if text is None else text.encode() for text in self.columns[name]]
        return arrow.Stream(arrow.Array(texts[:2]), arrow.Array(texts[2:]))

    def append_column(self, name, chunks):
        return Table({**self.columns, name: [value for chunk in chunks for value in chunk]})

    def filter(self, mask):
        assert all(type(each) is bool for each in mask)
        return Table({name: list(itertools.compress(values, mask)) for name, values in self.columns.items()})

    def to_pydict(self):
        return self.columns


def recipe(page, word):
    """The one block of a page that has the word."""
    with open(os.path.join(DOCS, page), encoding="utf-8") as file:
        (block,) = (b for b in re.findall(r"^```python\n(.*?)^```$", file.read(), re.M | re.S) if word in b)
    return block


class Recipes(unittest.TestCase):
    def test_pandas(self):
        names = {}
        exec(recipe("COOKBOOK.md", "sort_keys"), names)
        self.assertEqual(list(names["table"]["version"]), TEXTS)
        for name in ("in_order", "by_deb"):
            # What has no key comes last, in no order that pandas promises.
            self.assertEqual(list(names[name]["version"])[:3], ["1.2.3", "1.9", "1.10"])
            self.assertEqual(set(names[name]["version"][3:]), {None, "x y"})
        self.assertEqual(dict(names["matched"]["version"]), {0: "1.10", 2: "1.9"})
        self.assertEqual(dict(names["no_version"]["version"]), {1: None, 3: "x y"})
        self.assertEqual(names["newest"].to_dict(), {"a": "1.10", "b": "1.9"})
        del names["in_order"], names["matched"]
        exec(recipe("../python/README.md", "sort_values"), names)
        self.assertEqual(list(names["in_order"]["version"])[:3], ["1.2.3", "1.9", "1.10"])
        self.assertEqual(dict(names["matched"]["version"]), {0: "1.10", 2: "1.9", 4: "1.2.3"})

    def test_pyarrow(self):
        table = pyarrow.table({"version": TEXTS}) if pyarrow else Table({"version": TEXTS})
        names = {"table": table, "versions": versions}
        exec(recipe("PYTHON.md", "append_column"), names)
        keys = [versions.sort_key(text) if text and text != "x y" else None for text in TEXTS]
        self.assertEqual(names["with_keys"].to_pydict(), {"version": TEXTS, "key": keys})
        self.assertEqual(names["matched"].to_pydict(), {"version": ["1.10", "1.9"]})


class Locks(unittest.TestCase):
    """What changed between two outputs of pip freeze, and between two package-lock.json."""

    PIP = (
        """
        certifi==2023.7.22
        -e git+https://example.org/mine.git@0123abc#egg=mine==1.0
        # Editable install with no version control (other==1.0)
        Flask==2.3.3
        idna==3.4
        local @ file:///tmp/local-1.0.tar.gz
        numpy==1.26.0rc1
        old===2004d
        pytz==2023.3.post1
        ruamel.yaml==0.17.32
        torch==2.0.1+cu118
        typing_extensions==4.8.0
        zipp==3.9
        """,
        """
        flask==3.0.0
        idna==3.10
        local @ file:///tmp/local-2.0.tar.gz
        numpy==1.26.0
        pytz==2023.3
        ruamel-yaml==0.17.32
        torch==2.0.1
        typing-extensions==1!0.1
        urllib3==2.0.7
        zipp==3.9.0
        """,
    )
    # By PEP 440; `3.9` and `3.9.0` are one version there.
    PIP_CHANGES = """
        certifi went 2023.7.22 None
        flask rose 2.3.3 3.0.0
        idna rose 3.4 3.10
        numpy rose 1.26.0rc1 1.26.0
        old went 2004d None
        pytz fell 2023.3.post1 2023.3
        torch fell 2.0.1+cu118 2.0.1
        typing-extensions rose 4.8.0 1!0.1
        urllib3 came None 2.0.7
    """
    NPM = (
        {
            "": {"name": "root", "version": "1.0.0", "dependencies": {"a": "^1.9.0"}},
            "node_modules/@scope/d": {"version": "1.0.0-alpha.9"},
            "node_modules/a": {"version": "1.9.0", "resolved": "https://registry.example.org/a-1.9.0.tgz"},
            "node_modules/b": {"version": "2.0.0"},
            "node_modules/c": {"version": "0.0.1", "dev": True},
            "node_modules/e": {"version": "1.0.0+a"},
            "node_modules/mine": {"resolved": "packages/mine", "link": True},
            "packages/mine": {"version": "0.1.0"},
            "packages/other": {"license": "MIT"},
        },
        {
            "": {"name": "root", "version": "2.0.0"},
            "node_modules/@scope/d": {"version": "1.0.0-alpha.10"},
            "node_modules/a": {"version": "1.10.0"},
            "node_modules/b": {"version": "2.0.0-rc.1"},
            "node_modules/b/node_modules/a": {"version": "1.9.0"},
            "node_modules/e": {"version": "1.0.0+b"},
            "node_modules/mine": {"resolved": "packages/mine", "link": True},
            "packages/mine": {"version": "0.1.0"},
        },
    )
    # By SemVer 2.0: the metadata of a build doesn't count.
    NPM_CHANGES = """
        node_modules/@scope/d rose 1.0.0-alpha.9 1.0.0-alpha.10
        node_modules/a rose 1.9.0 1.10.0
        node_modules/b fell 2.0.0 2.0.0-rc.1
        node_modules/b/node_modules/a came None 1.9.0
        node_modules/c went 0.0.1 None
    """

    @classmethod
    def setUpClass(cls):
        cls.names = {}
        exec(recipe("COOKBOOK.md", "frozen"), cls.names)

    def changes(self, read, old, new, scheme):
        found = self.names["changes"](self.names[read](old), self.names[read](new), scheme)
        return [" ".join(map(str, change)) for change in found]

    def test_pip(self):
        wanted = [line.strip() for line in self.PIP_CHANGES.strip().splitlines()]
        for end in ("\n", "\r\n"):
            old, new = (end.join(line.strip() for line in text.splitlines()) for text in self.PIP)
            self.assertEqual(self.changes("frozen", old, new, "pypi"), wanted)
        self.assertEqual(self.changes("frozen", old, old, "pypi"), [])
        self.assertEqual(self.changes("frozen", "", "a==1", "pypi"), ["a came None 1"])
        self.assertEqual(self.changes("frozen", "", "\n", "pypi"), [])

    def test_what_pip_freezes_here(self):
        """The real output, of an environment with the package, is read whole."""
        said = subprocess.run([sys.executable, "-m", "pip", "freeze", "--all"], stdout=subprocess.PIPE, text=True).stdout
        frozen = self.names["frozen"](said)
        self.assertEqual(len(frozen), sum("==" in line for line in said.splitlines()))
        self.assertEqual(len(said.splitlines()), len(frozen) + said.count(" @ "))

    def test_npm(self):
        wanted = [line.strip() for line in self.NPM_CHANGES.strip().splitlines()]
        old, new = (json.dumps({"lockfileVersion": 3, "packages": packages}) for packages in self.NPM)
        self.assertEqual(self.changes("locked", old, new, "semver"), wanted)
        self.assertEqual(self.changes("locked", new, new, "semver"), [])

    def test_what_is_wrong(self):
        changes = self.names["changes"]
        self.assertRaises(versions.InvalidVersion, lambda: [*changes({"a": "2004d"}, {"a": "1"}, "pypi")])
        self.assertRaises(KeyError, self.names["locked"], '{"lockfileVersion": 1, "dependencies": {}}')
        self.assertRaises(ValueError, self.names["locked"], "")

    def test_many_packages(self):
        old = "\n".join(f"p{n}==1.{n}" for n in range(20_000))
        new = "\n".join(f"P{n}==1.{n + n % 2}" for n in range(20_000))
        found = self.changes("frozen", old, new, "pypi")
        self.assertEqual((len(found), found[0]), (10_000, "p1 rose 1.1 1.2"))


class Form(unittest.TestCase):
    """examples/form, as a browser has it."""

    PROGRAM = os.path.join(HERE, "../../examples/form/form.py")
    TAGS = ["html", "meta", "title", "style", "form", "label", "input", "button", "p"]

    @classmethod
    def setUpClass(cls):
        how = {"stdout": subprocess.PIPE, "stderr": subprocess.DEVNULL, "text": True}
        cls.process = subprocess.Popen([sys.executable, cls.PROGRAM, "0"], **how)
        cls.addClassCleanup(cls.process.wait)
        cls.addClassCleanup(cls.process.terminate)
        cls.addClassCleanup(cls.process.stdout.close)
        cls.address = re.fullmatch(r"http://(127\.0\.0\.1:\d+)/\n", cls.process.stdout.readline())[1]

    def get(self, target):
        connection = http.client.HTTPConnection(self.address, timeout=30)
        with contextlib.closing(connection):
            connection.putrequest("GET", target, skip_accept_encoding=True)
            connection.endheaders()
            answer = connection.getresponse()
            return answer.status, answer.headers, answer.read().decode()

    def read(self, query):
        """What the input holds, what is said, and which tags there are, as a browser reads the page."""
        status, headers, page = self.get("/" + query)
        self.assertEqual((status, headers["Content-Type"]), (200, "text/html; charset=utf-8"))
        self.assertIn("default-src 'none'", headers["Content-Security-Policy"])
        tags, values, said = [], [], []

        class Reader(HTMLParser):
            def handle_starttag(self, tag, attributes):
                tags.append(tag)
                values.extend(attributes if tag == "input" else ())

            def handle_data(self, data):
                if "p" in tags:
                    said.append(data)

        reader = Reader()
        reader.feed(page)
        reader.close()
        named = dict(values)
        self.assertEqual((len(values), {*named}), (3, {"name", "value", "autofocus"}))
        return named["value"], "".join(said).strip(), tags

    def test_the_form_alone(self):
        for query in ("", "?", "?other=1.2", "?Text=1"):
            self.assertEqual(self.read(query), ("", "", self.TAGS))
        for query in ("?text", "?text=", "?text=&text=1"):
            self.assertEqual(self.read(query), ("", "is no version.", [*self.TAGS, "code"]))

    def test_each_kind(self):
        # By docs/GRAMMAR.md.
        for text, kind in (("1.2.3", "ideal"), ("1.2.3-rc.1+x", "ideal"), ("1:2.0rc1-3", "general"),
                           ("20.0026.1_0-2+0.93", "complex")):
            value, said, tags = self.read("?text=" + quote(text))
            self.assertEqual((value, said), (text, f"{text} is a version: {kind}."))
            self.assertEqual(tags, [*self.TAGS, "code"])
        self.assertEqual(self.read("?text=1.2%2B3&text=1..2")[1], "1.2+3 is a version: general.")
        self.assertEqual(self.read("?text=1.2+3")[1], "1.2 3 is no version.")

    def test_what_is_typed_is_shown_as_it_is(self):
        for text in ("1..2", "<script>alert(1)</script>", '"><b>x', "' onfocus='alert(1)", "&amp;", "&lt;b&gt;", "{text}",
                     "{0}", "%s", "</code></p><p>", "<!--", "]]>", "é版\U0001f600", "a  b", "-->", "\\", "x=1&y=2"):
            value, said, tags = self.read("?text=" + quote(text, safe=""))
            self.assertEqual((value, said), (text, f"{text} is no version."))
            self.assertEqual(tags, [*self.TAGS, "code"])

    def test_what_is_no_text(self):
        for query in ("?text=%ff", "?text=%ED%A0%80", "?text=%"):
            value, said, tags = self.read(query)
            self.assertEqual(set(value), {"%"} if query.endswith("%") else {"\ufffd"})
            self.assertEqual((said, tags), (f"{value} is no version.", [*self.TAGS, "code"]))
        self.assertEqual(self.read("?text=1.2%00")[2], [*self.TAGS, "code"])

    def test_long(self):
        text = "1." * 30_000 + "1"
        self.assertEqual(self.read("?text=" + text)[:2], (text, f"{text} is a version: general."))
        self.assertEqual(self.read("?" + "text=&" * 10_000)[0], "")
        status, _, _ = self.get("/?text=" + "1" * 70_000)
        self.assertEqual(status, 414)

    def test_other_pages(self):
        for path in ("/other?text=1.2", "/<b>", "*", "//[?text=1.2"):
            status, _, page = self.get(path)
            self.assertEqual(status, 404)
            self.assertNotIn("<b>", page)
        self.assertEqual(self.read("?text=1.2")[0], "1.2")


class Systems(LongLists):
    """What the cookbook has of other systems."""

    COUNT = 2000  # rows and ranges of each system
    # Versions by which ranges of tools begin and end.
    NEAR = "1.2 1.2.3 1.3.0 1.3.0-0 2.0.0 2.0.0-0 0.3.0-0 1.4 1.4.dev0 1.5 1.5.dev0 1.5.post0 1.5+a 2 2.dev0 2rc1 2~"
    NAMES = ("Debian", "Red Hat", "PyPI", "npm", "RubyGems")
    SCHEMES = {name: SCHEME_OF[name.lower().replace(" ", "")] for name in NAMES}

    @classmethod
    def setUpClass(cls):
        names = {}
        exec(recipe("COOKBOOK.md", "is_vulnerable"), names)
        cls.is_vulnerable = staticmethod(names["is_vulnerable"])
        cls.systems = {name: system_of(scheme) for name, scheme in cls.SCHEMES.items()}

    def drawn(self, chosen, system, count):
        """Texts, most of them versions of a system."""
        texts = [system.draw(chosen) for _ in range(count)]
        return texts + [system.neighbour(chosen, text) for text in texts]

    def rows_and_ranges(self, chosen, name, packages):
        """Rows of a system, and ranges, each by its package and its alternatives of operators and versions."""
        system = self.systems[name]
        texts = self.drawn(chosen, system, 400)
        ends = [text for text, reads in zip(texts, system.reads(texts)) if reads and system.may_stand(text)]
        rows = [(name, chosen.choice(packages), chosen.choice(texts)) for _ in range(self.COUNT)]
        shapes = [((">=", "<"),), ((">=", "<"),), ((">=", "<="),), (("<",),), (("=",),), ((">",), ("<",))]
        ranges = [
            (chosen.choice(packages[:-9]), [[(sign, chosen.choice(ends)) for sign in signs] for signs in shape])
            for shape in chosen.choices(shapes, k=self.COUNT)
        ]
        return rows, ranges

    def wanted(self, name, rows, ranges):
        """The answers by the system, which compares each version with both ends of each range of its package."""
        system, of_package, pairs = self.systems[name], {}, []
        for package, alternatives in ranges:
            of_package.setdefault(package, []).extend(alternatives)
        reads = system.reads([version for _, _, version in rows])
        for (_, package, version), are in zip(rows, reads):
            pairs += [(version, end) for part in of_package.get(package, ()) for _, end in part] if are else []
        orders = iter(system.compare(pairs))
        for (_, package, _), are in zip(rows, reads):
            parts = of_package.get(package, ())
            found = [all([next(orders) in OPERATORS[sign] for sign, _ in part]) for part in parts] if are else []
            yield any(found) if are or not parts else None

    def test_ten_thousand_rows_of_five_systems(self):
        chosen, rows, ranges, wanted = random.Random(1), [], [], []
        packages = [f"package{n}" for n in range(500)]
        for name in self.systems:
            some, parts = self.rows_and_ranges(chosen, name, packages)
            rows += some
            wanted += self.wanted(name, some, parts)
            for package, alternatives in parts:
                members = (" ".join(sign + end for sign, end in part) for part in alternatives)
                ranges.append((name, package, " || ".join(members)))
        self.assertEqual((len(rows), len(ranges)), (10_000, 10_000))
        together = list(zip(rows, wanted))
        chosen.shuffle(together)
        chosen.shuffle(ranges)
        found = list(self.is_vulnerable([row for row, _ in together], ranges))
        odd = [(row, answer, found) for (row, answer), found in zip(together, found) if found is not answer]
        self.assertEqual((len(found), odd[:5]), (10_000, []))
        for name in self.systems:
            of_name = [answer for row, answer in together if row[0] == name]
            few = {answer for answer in (True, False, None) if of_name.count(answer) < 60}
            self.assertEqual(few, set(), name)

    def test_all_of_one_package(self):
        rows = [("Debian", "one", f"1.{n}-1") for n in range(10_000)]
        ranges = [("Debian", "one", f">=1.{n}~ <<1.{n}.5") for n in range(0, 20_000, 2)]
        begun = time.process_time()
        self.assertAlike(list(self.is_vulnerable(rows, ranges)), [n % 2 == 0 for n in range(10_000)])
        self.assertLess(time.process_time() - begun, 5)

    def test_what_is_wrong(self):
        self.assertRaisesRegex(ValueError, "'CPAN'", lambda: list(self.is_vulnerable([], [("CPAN", "a", "=1")])))
        self.assertRaises(versions.InvalidVersionSet, lambda: list(self.is_vulnerable([], [("npm", "a", "^1.2.3")])))
        rows = [("CPAN", "a", "1"), ("npm", "b", "x"), ("npm", "a", "x")]
        self.assertEqual(list(self.is_vulnerable(rows, [("npm", "a", "*")])), [False, False, None])

    def tools(self):
        """Whether a range of a tool, as it is written there, has each of many texts."""
        import apt_pkg
        from packaging.specifiers import SpecifierSet

        npm = Process("node", "-e", """
            const semver = require("semver");
            const answer = ([range, text]) => semver.satisfies(text, range, { includePrerelease: true });
            const lines = require("readline").createInterface({ input: process.stdin });
            lines.on("line", (line) => console.log(JSON.stringify(JSON.parse(line).map(answer))));
        """)

        def by_apt(there, texts):
            relations = re.findall(r"\((\S+) (\S+)\)", there)
            return [all(apt_pkg.check_dep(text, *relation) for relation in relations) for text in texts]

        return {
            "npm": lambda there, texts: npm.ask([(there, text) for text in texts]),
            # A version alone is a caret's, as Cargo's book has it. npm's caret has other pre-releases.
            "Cargo": lambda there, texts: npm.ask([(f"^{there}", text) for text in texts]),
            "pip": lambda there, texts: [SpecifierSet(there).contains(text, prereleases=True) for text in texts],
            "apt": by_apt,
        }

    def test_what_other_tools_write(self):
        chosen, tools = random.Random(2), self.tools()
        systems = {scheme: self.systems[name] for name, scheme in self.SCHEMES.items()}
        with open(os.path.join(DOCS, "COOKBOOK.md"), encoding="utf-8") as file:
            rows = re.findall(r"^\| (\w+) \| (`.*`) \| `(\w+)` \| (`.*`) \|$", file.read(), re.M)
        self.assertEqual({tool for tool, *_ in rows}, {*tools})
        for tool, theres, scheme, sets in rows:
            theres, sets = (re.findall("`([^`]*)`", cell.replace("\\|", "|")) for cell in (theres, sets))
            self.assertEqual(len(theres), len(sets))
            for there, text in zip(theres, sets):
                system = systems[scheme]
                near = [*re.findall(r"[0-9][^,<| ]*", text) * 3, *self.NEAR.split()]
                texts = [*near, *(system.neighbour(chosen, chosen.choice(near)) for _ in range(6000))]
                texts += self.drawn(chosen, system, 500)
                texts = [each for each, reads in zip(texts, system.reads(texts)) if reads]
                if tool == "Cargo":
                    texts = [each for each in texts if "-" not in each.split("+")[0]]
                wanted, found = tools[tool](there, texts), versions.VersionSet(text, scheme=scheme).has_all(texts)
                odd = [each for each, a, b in zip(texts, wanted, found) if a is not b]
                self.assertEqual(odd[:5], [], (tool, there, text))
                self.assertGreater(min(found.count(True), found.count(False)), 30, (tool, there, len(texts)))


# Five versions of each scheme, in increasing order: the problems below name them by their places.
CHAINS = {name: scheme.rising for name, scheme in SCHEMES.items()}
# What packages there are, what is asked for, what is chosen, and what is said.
PROBLEMS = (
    # The highest.
    ({"a": {4: {"b": "*"}, 3: {}}, "b": {0: {}, 2: {}, 1: {}}}, {"a": "*"}, "a 4|b 2", ""),
    ({"a": {4: {"b": "<2"}, 3: {}}, "b": {0: {}, 2: {}, 1: {}}}, {"a": "*"}, "a 4|b 1", ""),
    ({"a": {4: {"b": "<1 || >3"}}, "b": {0: {}, 3: {}, 1: {}}}, {"a": ">=4"}, "a 4|b 0", ""),
    # It goes back.
    (
        {"a": {4: {"b": ">=3"}, 2: {"b": "<3"}}, "b": {3: {"c": "=0"}, 1: {"c": "*"}}, "c": {4: {}, 1: {}}},
        {"a": "*"}, "a 2|b 1|c 4", "b 3 is left out: there is no c =0 of b 3",
    ),
    (
        {"a": {3: {"c": "<2"}, 1: {}}, "b": {1: {"c": ">=2"}}, "c": {0: {}, 2: {}}}, {"a": "*", "b": "*"},
        "a 1|b 1|c 2",
        "a 3 is left out: c >=2 of b 1 and c <2 of a 3 exclude each other",
    ),
    # Two exclude each other, by their sets, or since no version is in both.
    ({"a": {1: {}}}, {"a": ">3"}, None, "no versions fit together: there is no a >3 of what is asked for"),
    ({}, {"a": "*"}, None, "no versions fit together: there is no a * of what is asked for"),
    (
        {"a": {3: {"c": "<2"}}, "b": {1: {"c": ">=2"}}, "c": {0: {}, 2: {}}}, {"a": "*", "b": "*"}, None,
        "b 1 is left out: c <2 of a 3 and c >=2 of b 1 exclude each other|"
        "no versions fit together: c <2 of a 3 and c >=2 of b 1 exclude each other",
    ),
    (
        {"a": {3: {"c": "<3"}}, "c": {0: {}, 4: {}}}, {"a": "*", "c": ">0"}, None,
        "a 3 is left out: c >0 of what is asked for and c <3 of a 3 exclude each other|"
        "no versions fit together: c >0 of what is asked for and c <3 of a 3 exclude each other",
    ),
)


class Resolver(unittest.TestCase):
    """examples/resolver, on problems whose answers are known, with the versions of each scheme."""

    PROGRAM = os.path.join(HERE, "../../examples/resolver/resolver.py")

    @classmethod
    def setUpClass(cls):
        cls.resolve = staticmethod(runpy.run_path(cls.PROGRAM)["resolve"])
        folder = tempfile.TemporaryDirectory()
        cls.addClassCleanup(folder.cleanup)
        cls.path = os.path.join(folder.name, "packages.json")

    def resolved(self, scheme, packages, asked):
        """The status, what is chosen, and what is said."""
        with open(self.path, "w", encoding="utf-8") as file:
            json.dump(packages, file)
        chosen, said = io.StringIO(), io.StringIO()
        with contextlib.redirect_stdout(chosen), contextlib.redirect_stderr(said):
            status = self.resolve(scheme, self.path, *itertools.chain(*asked.items()))
        return status, chosen.getvalue(), said.getvalue()

    def test_problems(self):
        for scheme, chain in CHAINS.items():
            chain = chain.split()

            def named(text):
                return re.sub(r"\d", lambda place: chain[int(place[0])], text)

            def with_versions(packages):
                return {name: {chain[place]: {it: named(text) for it, text in needs.items()}
                        for place, needs in versions_.items()} for name, versions_ in packages.items()}

            for packages, asked, chosen, said in PROBLEMS:
                asked = {name: named(text) for name, text in asked.items()}
                wanted = [int(chosen is None), *(named(text or "").replace("|", "\n") for text in (chosen, said))]
                found = self.resolved(scheme, with_versions(packages), asked)
                self.assertEqual([found[0], *(text.strip() for text in found[1:])], wanted, (scheme, asked))

    def test_beside_all_choices(self):
        """Small problems: whether versions fit together, and whether those that are chosen do."""
        chosen, solved = random.Random(4), Counter()
        holds = {"<": operator.lt, "<=": operator.le, "=": operator.eq, ">=": operator.ge, ">": operator.gt}
        chain, names = CHAINS["deb"].split(), "abcd"

        def meet(choice, needs):
            return all(choice[name] is not None and holds[sign](choice[name], end) for name, sign, end in needs)

        def fits(choice, packages, asked):
            of_chosen = (packages[name][place] for name, place in choice.items() if place is not None)
            return meet(choice, [*asked, *itertools.chain(*of_chosen)])

        def needs_of(count):
            return [(chosen.choice(names), chosen.choice([*holds]), chosen.randrange(5)) for _ in range(count)]

        def sets_of(needs):
            """The needs of one name are members of one set."""
            sets = {}
            for name, sign, end in needs:
                sets.setdefault(name, []).append(sign + chain[end])
            return {name: ", ".join(members) for name, members in sets.items()}

        for _ in range(200):
            places = {name: chosen.sample(range(5), k=chosen.randrange(1, 4)) for name in names}
            counts = (0, 0, 1, 1, 2)
            packages = {name: {it: needs_of(chosen.choice(counts)) for it in places[name]} for name in names}
            asked = needs_of(2)
            choices = (dict(zip(names, each)) for each in itertools.product(*([None, *places[name]] for name in names)))
            wanted = any(fits(choice, packages, asked) for choice in choices)
            index = {name: {chain[it]: sets_of(needs) for it, needs in packages[name].items()} for name in names}
            status, found, said = self.resolved("deb", index, sets_of(asked))
            self.assertEqual(status, 0 if wanted else 1, (packages, asked, said))
            solved[wanted, "left out" in said] += 1
            if wanted:
                choice = dict.fromkeys(names)
                choice.update((line.split()[0], chain.index(line.split()[1])) for line in found.splitlines())
                self.assertTrue(fits(choice, packages, asked), (packages, asked, found))
                self.assertEqual(said.count("fit together"), 0)
            else:
                self.assertEqual(said.count("no versions fit together: "), 1)
        self.assertTrue(all(solved[key] > 3 for key in ((True, True), (True, False), (False, True))), solved)

    def test_what_is_wrong(self):
        for words, text, said in (
            ("dpkg FILE a *", "{}", "a scheme is one of mixed, "),
            ("semver FILE a *", '{"a": {"1.0": {}}}', "not a version of semver: '1.0'; at 3: an end too early"),
            ("semver FILE a *", '{"a": {"1.0.0": {"b": "^1"}}}', "not a set of versions of semver: '^1'"),
            ("deb FILE a 1", "{}", "not a set of versions of deb: '1'"),
            ("deb FILE a", "{}", "resolver.py SCHEME INDEX NAME SET"),
            ("deb FILE", "{}", "resolver.py SCHEME INDEX NAME SET"),
            ("deb FILE a *", "{", "resolver.py: Expecting property name"),
            ("deb /none a *", "{}", "resolver.py: [Errno 2] No such file"),
        ):
            with open(self.path, "w", encoding="utf-8") as file:
                file.write(text)
            command = [sys.executable, self.PROGRAM, *words.replace("FILE", self.path).split()]
            done = subprocess.run(command, stdout=subprocess.PIPE, stderr=subprocess.PIPE, text=True)
            self.assertEqual((done.returncode, done.stdout), (2, ""), words)
            self.assertIn(said, done.stderr)
            self.assertNotIn("Traceback", done.stderr)


def partial_of(scheme):
    """The package, whose keys are those of a scheme."""
    return SimpleNamespace(sort_keys=partial(versions.sort_keys, scheme=scheme))


class Columns(unittest.TestCase):
    def test_missing_values_of_each_type(self):
        kinds = ["general", None, "general", None, "ideal"]
        for column in (
            pandas.Series(TEXTS),
            pandas.Series(TEXTS, dtype="string"),
            pandas.Series(TEXTS, dtype="category"),
            pandas.Series([float("nan") if text is None else text for text in TEXTS]),
            pandas.Series([pandas.NA if text is None else text for text in TEXTS], index=list("edcba")),
            pandas.Index(TEXTS),
        ):
            with self.subTest(column=column):
                is_series = isinstance(column, pandas.Series)
                none = False if is_series else None
                self.assert_alike(versions.kinds(column), column, kinds)
                self.assertEqual([key is None for key in versions.sort_keys(column)], [k is None for k in kinds])
                self.assert_alike(versions.match_all("<1.9", column), column, [False, none, False, none, True])
                self.assertEqual(versions.Requirement(">=1.9").filter(column), ["1.10", "1.9"])
                found = versions.VersionSet("<1.9").has_all(column)
                self.assert_alike(found, column, [False, none, False, none, True])
                self.assertEqual(versions.VersionSet(">=1.9").filter(column), ["1.10", "1.9"])
                self.assertEqual(versions.newest(column, versions.VersionSet("<1.10")), "1.9")
                self.assert_alike(versions.in_tags(column), column, ["1.10", None, "1.9", None, "1.2.3"])
                stable = versions.Stability.STABLE
                self.assert_alike(versions.stabilities(column), column, [stable, None, stable, None, stable])
                self.assertEqual(versions.newest(column, "<1.10"), "1.9")

    def assert_alike(self, found, column, answers):
        """A Series of a Series, with its index and its name; and a list of anything else."""
        if isinstance(column, pandas.Series):
            self.assertIs(type(found), pandas.Series)
            self.assertTrue(found.index.equals(column.index))
            self.assertEqual(found.name, column.name)
            self.assertEqual(found.dtype, bool if answers and type(answers[0]) is bool else object)
            found = list(found)
        self.assertEqual(found, answers)
        self.assertEqual([type(each) for each in found], [type(each) for each in answers])

    def test_floats_of_numpy_and_times_that_are_missing(self):
        floats = numpy.float16, numpy.float32, numpy.float64, numpy.longdouble
        for missing in (*(each("nan") for each in floats), pandas.NaT):
            for texts in (["1.2", missing], pandas.Series(["1.2", missing], dtype=object)):
                with self.subTest(missing=missing):
                    none = None if isinstance(texts, list) else False
                    self.assert_alike(versions.kinds(texts), texts, ["general", None])
                    self.assert_alike(versions.match_all("*", texts), texts, [True, none])
                    self.assertEqual(versions.Requirement("*").filter(texts), ["1.2"])
                    self.assert_alike(versions.VersionSet("*").has_all(texts), texts, [True, none])
                    self.assertEqual(versions.VersionSet("*").filter(texts), ["1.2"])
                    self.assertEqual(versions.sorted(texts, invalid="last", reverse=True)[0], "1.2")
        for other in (numpy.float32(1.2), numpy.int64(1), numpy.bool_(False), pandas.Timestamp("2026-01-01")):
            self.assertRaises(TypeError, versions.kinds, ["1.2", other])
        for missing in (pandas.Series([None, None], dtype="float32"), pandas.Series([None] * 2, dtype="datetime64[ns]")):
            self.assert_alike(versions.kinds(missing), missing, [None, None])
            self.assert_alike(versions.VersionSet("*").has_all(missing), missing, [False, False])

    def test_keys_as_bytes_of_numpy(self):
        chosen, found = random.Random(12), set()
        for scheme in versions.SCHEMES:
            system = system_of("deb" if scheme == "mixed" else scheme)
            drawn = [system.draw(chosen) for _ in range(5000)] + ["0", "1.0.0-a", "1.0.0-0", "1.0-a0", "1.0+a0", "1_0"]
            texts = [text for text, key in zip(drawn, versions.sort_keys(drawn, scheme=scheme)) if key is not None]
            names = {"numpy": numpy, "versions": partial_of(scheme), "texts": texts}
            exec(recipe("PYTHON.md", "numpy"), names)
            column, keys = names["keys"], versions.sort_keys(texts, scheme=scheme)
            self.assertGreater(len(keys), 1000, scheme)
            self.assertEqual((column.dtype.kind, column.tolist()), ("S", keys))
            self.assertEqual(numpy.sort(column).tolist(), sorted(keys))
            found |= {key[-1] for key in keys}
        self.assertEqual(found, {1, 2, 3})

    def test_a_column_whose_export_fails(self):
        class Series(pandas.Series):
            """As one of pandas 3 without pyarrow."""

            def __arrow_c_stream__(self, requested_schema=None):
                raise ImportError("Missing optional dependency 'pyarrow'.")

        column = Series(TEXTS)
        self.assert_alike(versions.kinds(column), column, ["general", None, "general", None, "ideal"])
        self.assert_alike(versions.match_all("<1.9", column), column, [False, False, False, False, True])

    def test_a_subclass_makes_its_answers(self):
        class Mine(pandas.Series):
            """With words of its own, for which pandas has this property."""

            def __init__(self, *words, mine=None, **named):
                super().__init__(*words, **named)

            @property
            def _constructor(self):
                return Mine

        self.assertIs(type(versions.VersionSet("*").has_all(Mine(["1"], mine=1))), Mine)

    def test_columns_of_versions(self):
        column = pandas.Series([versions.Version("1.10"), versions.Version("1.9"), None])
        self.assertEqual(list(map(str, versions.Requirement("<1.10").filter(column))), ["1.9"])
        self.assertEqual([str(version) for version in column.dropna().sort_values()], ["1.9", "1.10"])
        self.assert_alike(versions.kinds(column), column, ["general", "general", None])
        table = pandas.DataFrame({"version": column})
        self.assertEqual(list(table.sort_values("version", key=versions.sort_keys).index), [1, 0, 2])
        self.assertRaises(TypeError, table.sort_values, "version", key=partial(versions.sort_keys, scheme="deb"))

    def test_no_rows(self):
        for column in (pandas.Series([], dtype="string"), pandas.Series([], dtype=object)):
            self.assert_alike(versions.sort_keys(column), column, [])
            self.assertEqual(versions.VersionSet("*").has_all(column).dtype, bool)
            self.assertEqual(versions.Requirement("*").filter(column), [])

    def test_what_is_no_series(self):
        table = pandas.DataFrame({"1.2": ["x"], "1.2.3": ["y"]})
        for texts in (table, table.columns, table.columns.to_numpy()):
            self.assertEqual(versions.kinds(texts), ["general", "ideal"])

    def test_numbers_are_no_texts(self):
        self.assertRaises(TypeError, versions.kinds, pandas.Series([1.2, None]))
        self.assertRaises(TypeError, versions.Requirement("*").filter, pandas.Series([1.2, None]))


# What a table has where a version is missing, by the type of its column.
MISSING = {"object": (None, float("nan"), pandas.NA, pandas.NaT), "string": (None, pandas.NA), "category": (None,)}


def columns(texts):
    """The texts as a column of each type, with each missing value in the place of None."""
    for dtype, values in MISSING.items():
        for missing in values:
            yield pandas.Series([missing if text is None else text for text in texts], dtype=dtype)


class Sorts(unittest.TestCase):
    """`versions.sort_keys` as a key of pandas."""

    def setUp(self):
        # An older pandas warns of what it will refuse.
        caught = warnings.catch_warnings()
        caught.__enter__()
        self.addCleanup(caught.__exit__)
        warnings.simplefilter("error")

    def keys(self):
        """What each scheme's key may be written as, and five versions in increasing order."""
        self.assertEqual(set(CHAINS), set(versions.SCHEMES))
        for scheme, chain in CHAINS.items():
            yield partial(versions.sort_keys, scheme=scheme), chain.split()
            yield lambda column, scheme=scheme: versions.sort_keys(column, scheme=scheme), chain.split()
        yield versions.sort_keys, CHAINS["mixed"].split()

    def test_tables_of_each_scheme(self):
        order = [3, 0, None, 4, 1, None, 2]
        for key, chain in self.keys():
            for column in columns([None if n is None else chain[n] for n in order]):
                table = pandas.DataFrame({"version": column, "place": range(7)})
                table.index = list("gfedcba")
                for ascending, rows in ((True, [1, 4, 6, 0, 3]), (False, [3, 0, 6, 4, 1])):
                    for na_position, wanted in (("last", rows + [2, 5]), ("first", [2, 5] + rows)):
                        how = {"ascending": ascending, "na_position": na_position, "kind": "stable", "key": key}
                        with self.subTest(chain=chain, dtype=column.dtype, **how):
                            found = table.sort_values("version", **how)
                            self.assertEqual(list(found["place"]), wanted)
                            self.assertEqual(list(found.index), ["gfedcba"[place] for place in wanted])
                            found = table["version"].sort_values(**how)
                            self.assertEqual(list(found.index), ["gfedcba"[place] for place in wanted])
                            again = table.sort_values("version", ignore_index=True, **how)
                            self.assertEqual(list(again["place"]), wanted)
                            by_index = table.set_index("version").sort_index(**how)
                            self.assertEqual(list(by_index["place"]), wanted)

    def test_several_columns(self):
        rows = [("b", "1.9", 0), ("a", "1.10", 1), ("a", None, 2), ("b", "1.10", 3), ("a", "1.9", 4), ("a", "x y", 5)]
        table = pandas.DataFrame(rows, columns=["name", "version", "place"])

        def key(column):
            return versions.sort_keys(column) if column.name == "version" else column

        for ascending, wanted in ((True, [4, 1, 2, 5, 0, 3]), ([True, False], [1, 4, 2, 5, 3, 0])):
            found = table.sort_values(["name", "version"], key=key, ascending=ascending)
            self.assertEqual(list(found["place"]), wanted)

    def test_ties_keep_their_order(self):
        # By docs/ORDER.md these are of one key, and by docs/SCHEMES.md.
        for key, tied in ((versions.sort_keys, ["1.2", "01.2", "0:1.2", "1.2+x"]),
                          (partial(versions.sort_keys, scheme="deb"), ["1.0-0", "1.0", "0:1.0", "01.0"])):
            for texts in itertools.permutations(tied):
                table = pandas.DataFrame({"version": [*texts, "0.9"]})
                found = table.sort_values("version", key=key, kind="stable")
                self.assertEqual(list(found["version"]), ["0.9", *texts])

    def test_what_is_no_version_has_no_key(self):
        for text in ("x y", "", "1..2", "\ud800", "é"):
            table = pandas.DataFrame({"version": ["1.10", text, "1.9"]})
            for na_position, wanted in (("last", [2, 0, 1]), ("first", [1, 2, 0])):
                found = table.sort_values("version", key=versions.sort_keys, na_position=na_position)
                self.assertEqual(list(found.index), wanted)

    def test_what_is_wrong(self):
        for column in ([1.2, 1.1], [1, 2], [b"1", "2"], pandas.to_datetime(["2026-01-01"] * 2)):
            table = pandas.DataFrame({"version": column})
            self.assertRaisesRegex(TypeError, "a text is a str, and this is of type ",
                                   table.sort_values, "version", key=versions.sort_keys)
        table = pandas.DataFrame({"version": ["1", "2"]})
        self.assertRaisesRegex(ValueError, "a scheme is one of",
                               table.sort_values, "version", key=partial(versions.sort_keys, scheme="dpkg"))

    def test_tables_without_rows_or_versions(self):
        for column in columns([]):
            table = pandas.DataFrame({"version": column, "name": column})
            for by in ("version", ["version", "name"]):
                self.assertEqual(len(table.sort_values(by, key=versions.sort_keys)), 0)
            self.assertEqual(len(table.set_index("version").sort_index(key=versions.sort_keys)), 0)
        for column in columns([None, None]):
            table = pandas.DataFrame({"version": column})
            self.assertEqual(list(table.sort_values("version", key=versions.sort_keys, kind="stable").index), [0, 1])

    def test_a_million_rows(self):
        table = pandas.DataFrame({"version": [f"1.{n * 7919 % 1_000_003}" for n in range(1_000_000)]})
        found = table.sort_values("version", key=versions.sort_keys)["version"]
        self.assertEqual(list(found), [f"1.{n}" for n in sorted(n * 7919 % 1_000_003 for n in range(1_000_000))])


class Masks(unittest.TestCase):
    """Answers that choose rows of a table."""

    # The place of each row whose version is in the set, and not in it; the last two are missing, and no version.
    SETS = {
        "mixed": (">=1.9, <2 || =1.2", ["1.2", "1.10", "0:1.2", "1.3", "2.0"], [0, 1, 2], [3, 4]),
        "deb": ("<<1.0", ["1.0~rc1", "1.0", "1.0a", "0.9", "1:0"], [0, 3], [1, 2, 4]),
        "semver": (">=1.0.0", ["1.0.0-rc.1", "1.0.0", "1.0.0+a", "0.9.0", "1.10.0"], [1, 2, 4], [0, 3]),
    }
    INDEXES = {
        "numbers": range(7), "texts": list("abcdefg"), "one label": ["a"] * 7, "duplicates": [3, 1, 1, 0, 3, 2, 0],
        "missing labels": [None, "a", None, float("nan"), "b", "c", "d"],
        "two levels": pandas.MultiIndex.from_arrays([[1, 1, 2, 2, 3, 3, 3], list("abababa")]),
    }

    def tables(self):
        for scheme, (text, texts, places, others) in self.SETS.items():
            for name, index in self.INDEXES.items():
                for column in columns([*texts, None, "x y"]):
                    table = pandas.DataFrame({"version": column, "place": range(7)})
                    table.index = index
                    with self.subTest(scheme, index=name, dtype=column.dtype, missing=column[5]):
                        yield versions.VersionSet(text, scheme=scheme), table, places, others

    def test_rows_of_a_set(self):
        for wanted, table, places, others in self.tables():
            mask, beside = wanted.has_all(table["version"]), (~wanted).has_all(table["version"])
            for found, rows in ((mask, places), (beside, others)):
                self.assertEqual(list(table[found]["place"]), rows)
                self.assertEqual(list(table.loc[found, "place"]), rows)
                self.assertEqual(list(table["place"][found]), rows)
                self.assertEqual(list(table["place"].to_numpy()[found]), rows)
                self.assertEqual(found.sum(), len(rows))
            # What is missing or no version is in neither.
            self.assertEqual(list(table[~(mask | beside)]["place"]), [5, 6])
            self.assertEqual(list(table[mask & (table["place"] > 0)]["place"]), [place for place in places if place])
            self.assertEqual(list(table[~mask]["place"]), others + [5, 6])

    def test_rows_of_a_filtered_table(self):
        for wanted, table, places, others in self.tables():
            for some in (table[table["place"] != places[0]], table.iloc[::-1], table.iloc[[4, 0, 6, 1, 5, 2]]):
                found = some[wanted.has_all(some["version"])]
                self.assertEqual(list(found["place"]), [place for place in some["place"] if place in places])
            self.assertEqual(len(table[:0][wanted.has_all(table[:0]["version"])]), 0)

    def test_rows_that_a_requirement_matches(self):
        table = pandas.DataFrame({"version": ["1.2", None, "1.10", "x y", "0:1.2"]}, index=list("aabbc"))
        for requirement in ("<1.10", versions.Requirement("<1.10"), versions.VersionSet("<1.10")):
            found = table[versions.match_all(requirement, table["version"])]
            self.assertEqual(list(found["version"]), ["1.2", "0:1.2"])

    def test_versions_in_tags(self):
        table = pandas.DataFrame({"tag": ["v1.2", "latest", None, "v1.10"]}, index=list("aaaa"))
        found = versions.in_tags(table["tag"])
        self.assertEqual(list(table[versions.VersionSet("<1.10").has_all(found)]["tag"]), ["v1.2"])
        table["version"] = found
        self.assertEqual(list(table["version"]), ["1.2", None, None, "1.10"])

    def test_newest_row_of_each_group(self):
        rows = [("a", "1.9"), ("b", None), ("a", "1.10"), ("b", "x y"), ("a", "0:1.10"), ("b", "1.0")]
        table = pandas.DataFrame(rows, columns=["name", "version"], index=list("xxyyzz"))
        found = {name: versions.newest(group.itertuples(), key=lambda row: row.version).Index
                 for name, group in table.groupby("name")}
        self.assertEqual(found, {"a": "y", "b": "z"})


counted.end({"recipes": unittest.defaultTestLoader.loadTestsFromModule(sys.modules["__main__"])})
