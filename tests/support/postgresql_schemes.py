"""Compares the PostgreSQL extension's schemes and sets, on what is drawn, with the systems that the schemes are of
(schemes.py), with the model of sets (sets.py), and with the calls for C:
  python3 postgresql_schemes.py COUNT PSQL ..
COUNT is how many texts are drawn, in pairs, with as many sets, and PSQL the command of a client whose database has the
extension. SEED is what they are drawn by. C_LIBRARY is a folder of c/build. tests/postgresql runs it. The last line is
'N passed, M failed'.
"""
import os
import random
import subprocess
import sys
import tempfile
from collections import Counter
from pathlib import Path

sys.dont_write_bytecode = True
sys.path.insert(0, str(Path(__file__).resolve().parent))
from checks import check, conclude  # noqa: E402
from library import Library  # noqa: E402
from schemes import (  # noqa: E402
    NUMBERS, SCHEMES, SYSTEMS, Missing, System, chains_of, no_sets_of, sets_of, steps_of, system_of
)
from sets import Model  # noqa: E402

COUNT, PSQL = int(sys.argv[1]), sys.argv[2:]
TYPES = {name: "version" if name == "mixed" else f"{name}_version" for name in NUMBERS}
SETS = 20  # of which each is asked of a whole column


class C(Library):
    """The calls of a scheme."""

    def __init__(self, scheme):
        super().__init__(os.environ["C_LIBRARY"])
        self.scheme = scheme

    def key(self, text):
        return self.made("key", self.scheme, text.encode())

    def form(self, text):
        return self.made("set", self.scheme, text.encode())


class Mixed(System):
    """What the classes of other schemes have, for mixed: kinds and the order are the library's, by its own calls."""

    name, shapes = "mixed", "N.N N.N.N N N.NW N.N.N-W.N N.N.N-N E:N.N N.N-N N.N_N N.N+W W.N N.N.W vN.N N.N..N".split()
    words = {
        "N": "0 1 2 3 9 10 02 100".split(), "W": "a b rc x alpha 1a".split(), "E": "0 1 2".split(),
    }
    signs = "0011239abrcx..--++__:~ é"

    def __init__(self):
        self.c = C(NUMBERS["mixed"])
        self.model = Model(self.c.kind, self.c.compare)

    def reads(self, texts):
        return [self.c.kind(text) is not None for text in texts]

    def compare(self, pairs):
        return [self.c.compare(*pair) for pair in pairs]


def quoted(text):
    """A text as COPY reads it."""
    for sign, written in (("\\", "\\\\"), ("\t", "\\t"), ("\n", "\\n"), ("\r", "\\r")):
        text = text.replace(sign, written)
    return text


def copied(rows):
    return "".join("\t".join("\\N" if cell is None else quoted(str(cell)) for cell in row) + "\n" for row in rows)


def sql(*statements):
    """The rows that statements print, each by its columns, and as an error what they say."""
    words = [word for statement in statements for word in ("-c", statement)]
    done = subprocess.run([*PSQL, *words], stdout=subprocess.PIPE, stderr=subprocess.STDOUT, text=True)
    return [line.split("|") for line in done.stdout.splitlines()]


class Trial:
    """A scheme of the extension beside its system."""

    def __init__(self, name, system, draw):
        self.name, self.system, self.draw, self.c = name, system, draw, C(NUMBERS[name])
        self.type, self.tried, self.differ = TYPES[name], Counter(), []

    def same(self, what, found, wanted, *said):
        self.tried[f"{what} {wanted}" if wanted in ("t", "f") else what] += 1
        if found != wanted:
            self.differ.append((what, *said, f"{found}, and {wanted} was wanted"))

    def drawn_set(self, versions):
        """One to three alternatives of one or two members each, as a text, and as lists of operators and versions."""
        draw, others = self.draw, ("~", "^", "~=") if self.name == "mixed" else ()
        operators = (*self.system.operators, *others)
        alternatives = [
            [(draw.choice(operators), draw.choice(versions)) for _ in range(draw.choice((1, 1, 2)))]
            for _ in range(draw.choice((1, 1, 2, 3)))
        ]
        return " || ".join(", ".join(map("".join, members)) for members in alternatives), alternatives

    def has(self, alternatives, versions):
        """Whether each version is in each of the sets beside it."""
        if self.name == "mixed":
            read = [[[(sign, False, text) for sign, text in members] for members in each] for each in alternatives]
            return [self.system.model.has(each, version) for each, version in zip(read, versions)]
        pairs = [
            (version, text)
            for each, version in zip(alternatives, versions) for members in each for _, text in members
        ]
        orders = iter(self.system.compare(pairs))
        in_order = self.system.is_in_order
        holds = ([[in_order(sign, next(orders)) for sign, _ in some] for some in each] for each in alternatives)
        return [any(map(all, each)) for each in holds]

    def rows(self, count):
        """Pairs of texts that no text of PostgreSQL can't hold, each with two sets."""
        pairs = []
        while len(pairs) < count:
            a = self.system.draw(self.draw)
            b = self.system.neighbour(self.draw, a) if self.draw.randrange(2) else self.system.draw(self.draw)
            if "\0" not in a + b:
                pairs.append((a, b))
        return pairs

    def drawn(self, count):
        pairs = self.rows(count)
        texts = [text for pair in pairs for text in pair]
        reads = dict(zip(texts, self.system.reads(texts)))
        members = [text for text in reads if reads[text] and self.system.may_stand(text)]
        sets = [(self.drawn_set(members), self.drawn_set(members)) for _ in pairs]
        answers = self.answers(pairs, sets)
        both = [place for place, (a, b) in enumerate(pairs) if reads[a] and reads[b]]
        orders = dict(zip(both, self.system.compare([pairs[place] for place in both])))
        there = [place for place, (a, _) in enumerate(pairs) if reads[a]]
        ones, others = (
            dict(zip(there, self.has([sets[place][i][1] for place in there], [pairs[place][0] for place in there])))
            for i in (0, 1)
        )
        check(f"{self.name}: all rows are answered", len(answers) == count, len(answers), *answers[:2])
        if len(answers) != count:
            return reads
        for place, (answer, (a, b), ((one, _), (other, _))) in enumerate(zip(answers, pairs, sets)):
            key, order, in_set, typed, *of_sets, values = answer[1:]
            wanted = self.c.key(a)
            self.same("key is there", wanted is not None, reads[a], a)
            self.same("key", key, wanted.hex() if wanted else "NULL", a)
            self.same("order", order, str(orders.get(place, "NULL")), a, b)
            has, other_has = ones.get(place), others.get(place)
            shown = {None: "NULL", True: "t", False: "f"}
            self.same("in set", in_set, shown[has], a, one)
            if place in orders:
                less = orders[place]
                self.same("operators", typed, "".join("ft"[each] for each in (less < 0, less == 0, less > 0)), a, b)
            self.algebra(one, other, of_sets)
            if has is not None:
                computed = (has, has and other_has, has or other_has, has and not other_has, not has)
                self.same("computed", values, "".join("ft"[each] for each in computed), a, one, other)
        return reads

    def answers(self, pairs, sets):
        """What the extension says of each row."""
        with tempfile.NamedTemporaryFile("w", suffix=".rows", encoding="utf-8", newline="") as file:
            rows = ((n, a, b, one[0], other[0]) for n, ((a, b), (one, other)) in enumerate(zip(pairs, sets)))
            file.write(copied((*row, self.name) for row in rows))
            file.flush()
            os.chmod(file.name, 0o644)
            is_version = f"version_key(a, '{self.name}') IS NOT NULL"
            value = f"CASE WHEN {is_version} THEN a::{self.type} END"
            other = f"CASE WHEN version_key(b, '{self.name}') IS NOT NULL THEN b::{self.type} END"
            return sql(
                "CREATE TEMP TABLE drawn (n integer, a text, b text, one text, other text, scheme text)",
                f"\\copy drawn FROM '{file.name}'",
                f"""SELECT n, encode(version_key(a, scheme), 'hex'), version_compare(a, b, scheme),
                      version_in_set(one, a, scheme),
                      concat(v < w, v = w, v > w),
                      substr((s * t)::text, 3), substr((s + t)::text, 3), substr((s - t)::text, 3),
                      substr((~s)::text, 3), concat(s <@ t, s @> t, s && t, s = t),
                      concat(v <@ s, (s * t) @> v, v <@ (s + t), (s - t) @> v, version_in_set(~s, v))
                    FROM (SELECT *, version_set(one, scheme) AS s, version_set(other, scheme) AS t,
                      {value} AS v, {other} AS w FROM drawn) d ORDER BY n""",
            )

    def algebra(self, one, other, found):
        """What is computed of two sets is that of C."""
        c, forms = self.c, [self.c.form(text) for text in (one, other)]
        rest = c.made("set_not", forms[1])
        wanted = [c.made("set_and", *forms), c.made("set_or", *forms), c.made("set_and", forms[0], rest)]
        wanted.append(c.made("set_not", forms[0]))
        self.same("forms", found[:4], [form.hex() for form in wanted], one, other)
        asked = c.flag("set_part_of", *forms), c.flag("set_part_of", *forms[::-1]), c.flag("set_meets", *forms)
        self.same("of two sets", found[4], "".join("ft"[each] for each in (*asked, forms[0] == forms[1])), one, other)

    def column(self, reads):
        """A column of the type: its order, its ends, its different values, and what sets find by an index."""
        texts = [text for text in reads if reads[text]][:2000]
        members = [text for text in texts if self.system.may_stand(text)]
        sets = [self.drawn_set(members) for _ in range(SETS)]
        with tempfile.NamedTemporaryFile("w", suffix=".rows", encoding="utf-8", newline="") as file:
            file.write(copied((n, text) for n, text in enumerate(texts)))
            file.flush()
            os.chmod(file.name, 0o644)
            asked = ", ".join(f"({n}, version_set({literal(text)}, '{self.name}'))" for n, (text, _) in enumerate(sets))
            digest = "count(p), coalesce(sum(hashint4extended(p.n, 0)::numeric), 0)"
            found = sql(
                f"CREATE TABLE {self.name} (n integer, v {self.type})", f"\\copy {self.name} FROM '{file.name}'",
                f"CREATE INDEX ON {self.name} (v)", f"VACUUM ANALYZE {self.name}",
                f"SELECT array_agg(n ORDER BY v, n) FROM {self.name}", "SET enable_seqscan = off",
                "SET enable_bitmapscan = off", f"SELECT array_agg(n) FROM (SELECT n FROM {self.name} ORDER BY v) t",
                f"SELECT count(DISTINCT v), count(DISTINCT version_key(v)) FROM {self.name}",
                f"SELECT version_key(max(v)) = max(version_key(v)::text)::bytea, version_key(min(v)) = "
                f"min(version_key(v)::text)::bytea FROM {self.name}",
                "RESET enable_seqscan", "SET enable_indexscan = off", "SET enable_indexonlyscan = off",
                f"CREATE TABLE {self.name}_asked AS SELECT * FROM (VALUES {asked}) t (k, s)",
                f"SELECT k, {digest} FROM {self.name}_asked LEFT JOIN {self.name} p ON v <@ s GROUP BY k ORDER BY k",
                "RESET enable_indexscan", "SET enable_seqscan = off",
                f"SELECT k, {digest} FROM {self.name}_asked LEFT JOIN {self.name} p ON v <@ s GROUP BY k ORDER BY k",
                *(f"SELECT {k}, {digest} FROM {self.name} p WHERE v <@ version_set({literal(text)}, '{self.name}')"
                  for k, (text, _) in enumerate(sets)),
                f"EXPLAIN (COSTS OFF) SELECT * FROM {self.name}_asked JOIN {self.name} ON v <@ s",
            )
        if len(found) < 4 + 3 * SETS:
            check(f"{self.name}: a column", False, *found)
            return
        by_sort, by_index, counts, ends, *rest = found
        for what, (line,) in (("a sort", by_sort), ("an index", by_index)):
            order = [texts[int(place)] for place in line.strip("{}").split(",")]
            wrong = [pair for pair, each in zip(zip(order, order[1:]), self.system.compare([*zip(order, order[1:])]))
                     if each > 0]
            check(f"{self.name}: {what} of {len(texts)}", len(order) == len(texts) > 100 and not wrong, wrong[:5])
        keys = {self.c.key(text) for text in texts}
        check(f"{self.name}: different values", counts == [str(len(keys))] * 2, counts, len(keys))
        check(f"{self.name}: the ends", ends == ["t", "t"], ends)
        wanted = []
        for text, alternatives in sets:
            wanted.append(sum(self.has([alternatives] * len(texts), texts)))
        by_test, by_join, by_constant = rest[:SETS], rest[SETS : 2 * SETS], rest[2 * SETS : 3 * SETS]
        check(f"{self.name}: what sets find", [int(row[1]) for row in by_test] == wanted, by_test[:9], wanted[:9])
        check(f"{self.name}: what they find by an index", by_test == by_join == by_constant, by_join[:9])
        plan = "\n".join(map("|".join, rest[3 * SETS :]))
        check(f"{self.name}: the plan", "Index Cond: ((v >= version_set_low(" in plan, plan)

    def conclude(self, *floors):
        check(f"{self.name}: {sum(self.tried.values())} tried", not self.differ, *self.differ[:5])
        few = {what: self.tried[what] for what in floors if self.tried[what] < COUNT // 200}
        check(f"{self.name}: enough of each", not few, few)


def literal(text):
    return "'" + text.replace("'", "''") + "'"


def no_value(name, text, place, why):
    """What is said where a text is read as a value of the scheme's type, as a constant and as the text of a row."""
    made = TYPES[name]
    for statement in (f"{made} {text}", f"({text} || '')::{made}", f"{made}({text} || '')", f"({text} || '')::varchar::{made}"):
        found = ["|".join(row) for row in sql(f"SELECT {statement}")]
        wanted = f"ERROR:  22P02: invalid input syntax for type {made}: \"", f"DETAIL:  At byte {place}: {why}."
        check(f"{name}: {statement}", found[0].startswith(wanted[0]) and wanted[1] in found, found)
    found = sql(f"SELECT to_{made}({text}), pg_typeof(to_{made}({text})), is_version({text}, '{name}')")
    check(f"{name}: {text} is NULL", found == [["NULL", made, "f"]], found)


def by_hand():
    """The rows of the pages and by hand, by the functions and by the types."""
    for name, scheme in SCHEMES.items():
        made, sets = TYPES[name], [*sets_of(name)]
        check(f"{name}: sets of the pages", sets)
        for text, inside, outside in sets:
            given = ", ".join(f"({literal(version)})" for version in inside + outside)
            found = sql(
                f"SELECT version_in_set({literal(text)}, v, '{name}'), v::{made} <@ "
                f"version_set({literal(text)}, '{name}'), version_in_set(version_set({literal(text)}, '{name}'), v), "
                f"version_in_set('{name}:' || {literal(text)}, v) FROM (VALUES {given}) t (v)"
            )
            check(f"{name}: {text}", found == [["t"] * 4] * len(inside) + [["f"] * 4] * len(outside), found)
        for a, b, order in (step for chain in (*chains_of(name), *scheme.rows) for step in steps_of(chain)):
            both = f"{literal(a)}, {literal(b)}"
            found = sql(
                f"SELECT version_compare({both}, '{name}'), version_compare({literal(b)}, {literal(a)}, '{name}'), "
                f"version_compare({made} {literal(a)}, {literal(b)}), {made} {literal(a)} < {literal(b)}, "
                f"{made} {literal(a)} = {literal(b)}, to_{made}({literal(a)}) = {literal(a)}, "
                f"version_key({literal(a)}, '{name}') < version_key({literal(b)}, '{name}')"
            )
            less, equal = "ft"[order < 0], "ft"[order == 0]
            wanted = [str(order), str(-order), str(order), less, equal, "t", less]
            check(f"{name}: {a} and {b}", found == [wanted], found, wanted)
        for text, place, why in scheme.flaws:
            if "\0" not in text:
                no_value(name, literal(text), place, why)
        for text, place, why in no_sets_of(name):
            if "\0" not in text:
                found = ["|".join(row) for row in sql(f"SELECT version_in_set({literal(text)}, '1', '{name}')")]
                wanted = "ERROR:  22023: not a set of versions: \"", f"DETAIL:  At byte {place}: {why}."
                check(f"{name}: what is wrong with {text}", found[0].startswith(wanted[0]) and wanted[1] in found, found)
        if name != "mixed":
            found = ["|".join(row) for row in sql(f"SELECT version '1'::{made}")]
            check(f"{name}: no cast between types", found[0].startswith("ERROR:  42846: "), found)


draw = random.Random(os.environ.get("SEED", "1"))
check("each scheme has a type", NUMBERS.keys() == {"mixed", *SYSTEMS}, *SYSTEMS)
by_hand()
for name in NUMBERS:
    try:
        trial = Trial(name, Mixed() if name == "mixed" else system_of(name), draw)
    except Missing as missing:
        check(f"{name}: what its system needs", False, missing)
        continue
    trial.column(trial.drawn(COUNT // 2 // len(NUMBERS)))
    trial.conclude("key", "in set t", "in set f", "order", "operators", "computed", "forms")
conclude()
