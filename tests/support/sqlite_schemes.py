"""Compares what the functions for SQLite say of schemes and sets with the systems that the schemes are of (schemes.py),
with the model of sets (sets.py), and with the library by its package for Python.

    sqlite_schemes.py EXTENSION [COUNT]

EXTENSION is the file without `.so`. It draws COUNT pairs of texts in all, 100,000 where it isn't named, and a set for
each. SEED is what they are drawn by. C_LIBRARY is a folder of c/build. It runs by Debian's Python, which has what the
systems need. The last line is 'N passed, M failed'.
"""
import os
import random
import sqlite3
import sys
import tempfile
from collections import Counter

from checks import built_package, check, conclude, stop
from schemes import ENDS_IN_SETS, SYSTEMS, Missing, System, system_of
from sets import DOUBLED, PIECE, SINGLE, Model, Wrong

COUNT = int(sys.argv[2]) if len(sys.argv) > 2 else 100_000
CONSTANT, ROWS = 30, 300  # sets of each scheme that are the same in each of so many rows
WINDOW = 7  # rows before a row, in windows
SEPARATORS = (" ", ", ", "\t", ",", " || ", "||")
MIXED = """0 0.1 1 1.0 0:1.0 1.2 01.2 1.2+x 1.2-1 1.2.0-rc.1 1.2.0 1.2rc1 1.2.3 1.2.3.1 1.2_3 1.10 1.a 2 2.0.0-rc.1
    3.1-4+g 1:0.1 1:1.2 2:1_3 1.2~rc1 1_2 8:2007f~dfsg-7 1..2 v1.2 1.x latest""".split()


class Mixed:
    """The scheme `mixed`, and its sets by their model. Kinds and order are asked of the package."""

    name, slips = "mixed", System.slips

    def __init__(self, versions):
        self.versions, self.model = versions, Model(versions.kind, versions.compare)
        self.read = self.model.read

    def draw(self, draw):
        return draw.choice(MIXED)

    def neighbour(self, draw, text):
        place = draw.randrange(len(text) + 1)
        return text[:place] + draw.choice("0012a.-+_:~é ") * draw.randrange(2) + text[place + draw.randrange(2) :]

    def reads(self, texts):
        return [kind is not None for kind in self.versions.kinds(texts)]

    def compare(self, pairs):
        return [self.versions.compare(*pair) for pair in pairs]

    def long(self, end):
        return "1." * 20_000 + end

    def member(self, draw, text):
        sign = draw.choice(SINGLE if draw.random() < 0.98 else DOUBLED)
        return sign + draw.choice(("", " ")) + text + draw.choice(("", "", "", ".*"))

    def answers(self, asked):
        """Whether sets, by their alternatives, have versions."""
        return [self.model.has(*each) for each in asked]


class Ordered:
    """Another scheme, whose sets go by the order of its system alone."""

    def __init__(self, system):
        self.name, self.draw, self.neighbour = system.name, system.draw, system.neighbour
        self.reads, self.compare, self.long, self.slips = system.reads, system.compare, system.long, system.slips
        self.operators, self.is_in_order = system.operators, system.is_in_order

    def member(self, draw, text):
        return draw.choice((*self.operators,) if draw.random() < 0.97 else (*SINGLE, *DOUBLED)) + text

    def read(self, text):
        """The alternatives of what is drawn here, each with its operators and versions."""
        alternatives = [[]]
        for found in PIECE.finditer(text):
            if found[0] == "||":
                alternatives.append([])
            elif found[0] != ",":
                sign = next(each for each in (*DOUBLED, *SINGLE) if found[0].startswith(each))
                version = found[0][len(sign) :]
                if sign not in self.operators or not self.known[version] or self.slips(version):
                    raise Wrong(found.start() + len(sign))
                alternatives[-1].append((sign, version))
        return alternatives

    def answers(self, asked):
        """Whether sets, by their alternatives, have versions."""
        pairs = [(version, end) for parts, version in asked for members in parts for _, end in members]
        orders = iter(self.compare(pairs))
        return [
            any([all([self.is_in_order(sign, next(orders)) for sign, _ in members]) for members in parts])
            for parts, _ in asked
        ]


class Trial:
    """A scheme, with pairs of its texts, half of them neighbours."""

    def __init__(self, database, versions, scheme, draw):
        self.database, self.versions, self.scheme, self.name = database, versions, scheme, scheme.name
        self.random, self.counts = draw, Counter()
        count = COUNT // (len(SYSTEMS) + 1)
        firsts = [scheme.draw(draw) for _ in range(count)]
        seconds = [scheme.neighbour(draw, text) if draw.random() < 0.5 else scheme.draw(draw) for text in firsts]
        self.pairs, self.seconds = [*zip(firsts, seconds)], seconds
        texts = [*{*firsts, *seconds}]
        texts.sort()
        scheme.known = dict(zip(texts, scheme.reads(texts)))
        parted = {False: [], True: []}
        for text in texts:
            if text and not ENDS_IN_SETS.search(text):
                parted[scheme.known[text] and not scheme.slips(text)].append(text)
        self.no_ends, self.ends = parted.values()

    def same(self, what, found, wanted, said):
        odd = [(*some, f"found {a!r}", f"wanted {b!r}") for a, b, some in zip(found, wanted, said) if a != b]
        check(f"{self.name}: {what}: of {len(wanted)} {len(odd)} differ", found == wanted, *odd[:5])

    def ask(self, expression, *values):
        return [answer for answer, in self.database.execute(f"SELECT {expression} FROM texts ORDER BY rowid", values)]

    def insert(self, sets):
        rows = [(*pair, self.name, text) for pair, text in zip(self.pairs, sets)]
        self.database.execute("DELETE FROM texts")
        self.database.executemany("INSERT INTO texts VALUES (?, ?, ?, ?)", rows)

    def order(self):
        """Comparisons and keys, with the scheme from a column and as a constant."""
        pairs, known = self.pairs, self.scheme.known
        both = [known[a] and known[b] for a, b in pairs]
        orders = iter(self.scheme.compare([pair for pair, are in zip(pairs, both) if are]))
        wanted = [next(orders) if are else None for are in both]
        self.counts.update(wanted)
        self.insert([None] * len(pairs))
        for place, words in (("scheme", ()), ("?1", (self.name,))):
            self.same(f"version_compare, {place}", self.ask(f"version_compare(a, b, {place})", *words), wanted, pairs)
            keys = [self.ask(f"version_key({text}, {place})", *words) for text in "ab"]
            by_key = [None if None in two else (two[0] > two[1]) - (two[0] < two[1]) for two in zip(*keys)]
            self.same(f"version_key, {place}", by_key, wanted, pairs)
            made = [self.versions.sort_keys(texts, scheme=self.name) for texts in zip(*pairs)]
            self.same(f"version_key beside the package, {place}", keys, made, [(), ()])

    def long_texts(self):
        """Texts whose keys and forms are longer than what is on the stack."""
        a, b = map(self.scheme.long, "12")
        asked = "version_key(?1, ?3), version_key(?2, ?3), version_compare(?1, ?2, ?3)"
        statement = f"SELECT {asked}, version_in_set('<' || ?2, ?1, ?3)"
        found = self.database.execute(statement, (a, b, self.name)).fetchone()
        keys = [self.versions.sort_key(text, scheme=self.name) for text in (a, b)]
        check(f"{self.name}: long texts", found == (*keys, -1, 1) and len(keys[0]) > 256, len(keys[0]), found[2:])

    def drawn_set(self):
        members = []
        for _ in range(self.random.choice((1, 1, 2, 2, 3, 5))):
            ends = self.ends if self.random.random() < 0.99 else self.no_ends
            members += [self.random.choice(SEPARATORS), self.scheme.member(self.random, self.random.choice(ends))]
        return "".join(members[1:])

    def drawn_sets(self, count):
        """Sets with their alternatives. What is drawn and is no set has its error tried."""
        found = []
        while len(found) < count:
            text = self.drawn_set()
            try:
                found.append((text, self.scheme.read(text)))
            except Wrong as wrong:
                self.none(text, len(text[: wrong.args[0]].encode()))
        return found

    def none(self, text, place):
        """The error of a text that is no set says where and why, as the package does."""
        self.counts["no set"] += 1
        try:
            self.versions.VersionSet(text, scheme=self.name)
            reason = "none"
        except self.versions.InvalidVersionSet as error:
            reason = error.reason
        try:
            said = self.database.execute("SELECT version_in_set(?, '1', ?)", (text, self.name)).fetchall()
        except sqlite3.OperationalError as error:
            said = str(error)
        begins = f"not a set of versions{'' if self.name == 'mixed' else f' of {self.name}'}: '"
        if not (said[: len(begins)] == begins and said.endswith(f"; at byte {place}: {reason}")):
            check(f"{self.name}: {text!r} is no set", False, said, place, reason)

    def in_sets(self):
        """A set of its own in each row."""
        sets = self.drawn_sets(len(self.pairs))
        asked = [(parts, b) for (_, parts), b in zip(sets, self.seconds) if self.scheme.known[b]]
        answers = iter(self.scheme.answers(asked))
        wanted = [int(next(answers)) if self.scheme.known[b] else None for b in self.seconds]
        self.counts.update(f"set {answer}" for answer in wanted)
        self.insert([text for text, _ in sets])
        said = [(text, b) for (text, _), b in zip(sets, self.seconds)]
        self.same("version_in_set, sets of a column", self.ask("version_in_set(list, b, scheme)"), wanted, said)
        if self.name == "mixed":
            self.same("version_in_set, without a scheme", self.ask("version_in_set(list, b)"), wanted, said)

    def in_constant_sets(self):
        """Sets that are the same in each row."""
        self.pairs, self.seconds = self.pairs[:ROWS], self.seconds[:ROWS]
        self.insert([None] * ROWS)
        for text, parts in self.drawn_sets(CONSTANT):
            answers = iter(self.scheme.answers([(parts, b) for b in self.seconds if self.scheme.known[b]]))
            wanted = [int(next(answers)) if self.scheme.known[b] else None for b in self.seconds]
            said = [(text, b) for b in self.seconds]
            for place, words in (("?2", (text, self.name)), ("scheme", (text,))):
                self.same(f"one set, {place}", self.ask(f"version_in_set(?1, b, {place})", *words), wanted, said)
            named = f"{self.name}:{text}"
            self.same("one set, its scheme in front", self.ask("version_in_set(?1, b)", named), wanted, said)
            self.same("one set, its scheme in front and beside", self.ask("version_in_set(?1, b, scheme)", named), wanted,
                      said)
            self.bounds(text, named, wanted)
            made = self.versions.VersionSet(text, scheme=self.name).has_all(self.seconds)
            self.same("one set, by the package", made, wanted, said)

    def bounds(self, text, named, wanted):
        """The bounds of a set: all that it has are between them, and the least and the greatest end are those of it."""
        low, high = self.database.execute("SELECT version_low(?, ?), version_high(?, ?)", (text, self.name) * 2).fetchone()
        between = self.ask("version_key(b, scheme) >= version_low(?1, scheme) AND "
                           "version_key(b, scheme) < version_high(?1, scheme)", named)
        out = [b for b, has, inside in zip(self.seconds, wanted, between) if has and not inside]
        intervals = self.versions.VersionSet(text, scheme=self.name).intervals
        ends = (intervals[0][0], intervals[-1][1] or b"\xff" * 16) if intervals else (b"", b"")
        check(f"{self.name}: the bounds of {text!r}", not out and (low, high) == ends, out[:5], low, high, ends)

    def greatest(self):
        """The greatest and the least of windows and of all, by keys, which are those of the package."""
        texts = [text for text, _ in self.pairs]
        self.insert([None] * len(texts))
        keys = self.versions.sort_keys(texts, scheme=self.name)
        for name, is_better in (("max", lambda a, b: a > b), ("min", lambda a, b: a < b)):
            for place, words in (("scheme", ()), ("?1", (self.name,))):
                found = self.ask_windows(f"version_{name}(a, {place})", words)
                wanted = [self.best(texts, keys, at, is_better) for at in range(len(texts))]
                self.same(f"version_{name} of windows, {place}", found, wanted, [(text,) for text in texts])
            found, = self.database.execute(f"SELECT version_{name}(a, scheme) FROM texts").fetchone()
            places = [place for place, key in enumerate(keys) if key is not None]
            check(f"{self.name}: version_{name} of all", found is not None and
                  not any(is_better(keys[place], keys[texts.index(found)]) for place in places), found)
        known = [int(self.scheme.known[text]) for text in texts]
        self.same("is_version", self.ask("is_version(a, scheme)"), known, [(text,) for text in texts])

    def ask_windows(self, call, words):
        statement = f"SELECT {call} OVER (ORDER BY rowid ROWS {WINDOW} PRECEDING) FROM texts ORDER BY rowid"
        return [answer for answer, in self.database.execute(statement, words)]

    def best(self, texts, keys, at, is_better):
        """The best of a row and those before it: of those that tie the first, and in mixed the best with ties broken."""
        best = None
        for place in range(max(0, at - WINDOW), at + 1):
            if keys[place] is None:
                continue
            if best is None or is_better(keys[place], keys[best]) or (
                self.name == "mixed" and keys[place] == keys[best]
                and is_better(self.versions.compare_total(texts[place], texts[best]), 0)
            ):
                best = place
        return None if best is None else texts[best]

    def conclude(self):
        share = COUNT // 1000
        few = {key for key in (-1, 1, "set 0", "set 1") if self.counts[key] < 10 * share}
        few |= {key for key in (0, None, "set None", "no set") if self.counts[key] < share}
        check(f"{self.name}: enough of each kind", not few, few, self.counts)


def schemes_that_change(database, versions, draw):
    """A set that is one text in all rows, whose schemes change from row to row."""
    texts = ["1.0.0", "1.0.0-1", "1.10.0", "2.0.0-rc.1", "2.0.0", "1.9.0", "0.9.0-a", "x y"]
    rows = [(draw.choice(texts), draw.choice([*versions.SCHEMES, None])) for _ in range(5000)]
    database.execute("CREATE TABLE many (v TEXT, scheme TEXT)")
    database.executemany("INSERT INTO many VALUES (?, ?)", rows)
    for text in (">=1.0.0 <2.0.0", ">1.0.0 <=2.0.0 || >3.0.0", "*"):
        sets = {name: versions.VersionSet(text, scheme=name) for name in versions.SCHEMES}
        wanted = [None if name is None else sets[name].has_all([version])[0] for version, name in rows]
        found = {(version, answer) for (version, name), answer in zip(rows, wanted) if name}
        check(f"{text}: schemes differ", len(found) > len(texts) or text == "*", found)
        for place in ("?1", "printf('%s', ?1)", "iif(rowid, ?1, '')"):
            statement = f"SELECT version_in_set({place}, v, scheme) FROM many ORDER BY rowid"
            found = [answer for answer, in database.execute(statement, (text,))]
            check(f"{text} as {place}, schemes that change", found == wanted)


def main(extension, work):
    versions, draw = built_package(work), random.Random(os.environ.get("SEED", "1"))
    schemes = [Mixed(versions), *(Ordered(system_of(name)) for name in SYSTEMS)]
    check("the schemes", [scheme.name for scheme in schemes] == [*versions.SCHEMES], versions.SCHEMES)
    database = sqlite3.connect(":memory:")
    database.enable_load_extension(True)
    database.load_extension(extension)
    database.execute("CREATE TABLE texts (a TEXT, b TEXT, scheme TEXT, list TEXT)")
    schemes_that_change(database, versions, draw)
    for scheme in schemes:
        trial = Trial(database, versions, scheme, draw)
        trial.order()
        trial.greatest()
        trial.long_texts()
        trial.in_sets()
        trial.in_constant_sets()
        trial.conclude()


if __name__ == "__main__":
    with tempfile.TemporaryDirectory() as folder:
        try:
            main(sys.argv[1], folder)
        except Missing as missing:
            stop(str(missing))
    conclude()
