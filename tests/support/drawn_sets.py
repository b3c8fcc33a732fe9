#!/usr/bin/python3
"""Draws sets and versions of each scheme, with what is to be said of them, as lines of JSON:
  tests/support/drawn_sets.py COUNT [surrogates]
COUNT is how many versions are asked of sets. A line is about a set, or about many texts. With the word, some texts have
lone surrogates, as a text of JavaScript may.

Which texts are sets, where others are wrong, what a set has and how two versions compare is by the models: sets.py for
mixed, and the systems of schemes.py for the others. Keys, intervals, sentences, orders and what is made of two sets are
by the library for C, of the folder that C_LIBRARY names. SEED draws others. It runs by Debian's Python, which has the
modules of python3-apt and python3-rpm.
"""
import ctypes
import itertools
import json
import os
import random
import sys
from pathlib import Path

sys.dont_write_bytecode = True
sys.path.insert(0, str(Path(__file__).resolve().parent))
from library import OK, Library, coded  # noqa: E402
from schemes import NUMBERS, Missing, system_of  # noqa: E402
from sets import Model, Wrong, drawn_set, made_versions  # noqa: E402

EACH, POOL = 3, 120
# What a text is spoiled with.
SPOILS = ("\u00e9", "\U0001f600", "\0", "\u00a0", "\n")
SURROGATES = ("\ud83d", "\ude00", "\U0001f600\ud83d")


class C(Library):
    """What lines are made of."""

    def ends(self, form):
        """The ends of each interval in hexadecimal, or None where it has no high end."""
        return [[low.hex(), high and high.hex()] for low, high in self.intervals(form)]

    def keys_and_order(self, scheme, texts):
        """The sort keys of texts, and their places in order; in mixed in that which breaks ties."""
        encoded = [*map(coded, texts)]
        joined, count, room = b"".join(encoded), len(texts), len(self.buffer)
        offsets = (ctypes.c_int64 * (count + 1))(0, *itertools.accumulate(map(len, encoded)))
        ends, order, sizes = (ctypes.c_int64 * (count + 1))(), (ctypes.c_uint64 * count)(), (count + 1, count)
        lengths = [ctypes.c_size_t(size) for size in sizes]
        written = (self.buffer, ctypes.c_size_t(room), ends, lengths[0], order, lengths[1])
        assert self.call("sort", scheme, joined, offsets, lengths[0], *written) == OK, scheme
        keys = [ctypes.string_at(self.buffer, ends[count])[start:end] for start, end in zip(ends, ends[1:])]
        return keys, [*order]


class MixedModel(Model):
    """The model of mixed, with versions to draw of."""

    def __init__(self, c):
        super().__init__(c.kind, c.compare)
        self.versions = made_versions(c.kind)

    def pool(self, draw):
        drawn = draw.sample(self.versions, 9 * POOL)
        members = [text for text in drawn if self.may_follow("=", text, False)]
        return members + drawn[: POOL // 10], ["", "1..2", "x y", "1.2.3-\u00e9", "1.", "1\0"]

    def drawn(self, draw, versions):
        return drawn_set(draw, versions, stars=25)


class SchemeModel(Model):
    """The model of another scheme's sets, by docs/SCHEMES.md: members go by the order alone. The system is asked for
    the orders of all pairs of a pool of versions at once, and of others one by one.
    """

    def __init__(self, system):
        super().__init__(self.is_version, self.order)
        self.system, self.known, self.orders = system, {}, {}

    def pool(self, draw):
        """Versions, and texts that are none."""
        texts = [self.system.draw(draw) for _ in range(POOL)]
        texts += [self.system.neighbour(draw, text) for text in texts]
        asked = [text for text in dict.fromkeys(texts) if text.isascii()]
        self.known = dict(zip(asked, map(bool, self.system.reads(asked))))
        versions = [text for text in asked if self.known[text]][:POOL]
        pairs = [*itertools.product(versions, repeat=2)]
        self.orders = dict(zip(pairs, self.system.compare(pairs)))
        return versions, [text for text in texts if not self.is_version(text)]

    def drawn(self, draw, versions):
        return drawn_set(draw, versions, (*[*self.system.operators] * 9, "~", "^", "~="), stars=90)

    def is_version(self, text):
        if text not in self.known:
            self.known[text] = text.isascii() and bool(self.system.reads([text])[0])
        return self.known[text]

    def order(self, a, b):
        if (a, b) not in self.orders:
            (self.orders[a, b],) = self.system.compare([(a, b)])
        return self.orders[a, b]

    def may_follow(self, operator, text, of_parts):
        return operator in self.system.operators and not of_parts and self.is_version(text) and self.system.may_stand(text)

    def holds(self, operator, of_parts, text, version):
        return operator is None or self.system.is_in_order(operator, self.order(version, text))


class Drawing:
    """What is drawn of a scheme."""

    def __init__(self, c, name, number, model, spoils):
        self.c, self.name, self.number, self.model, self.spoils = c, name, number, model, spoils
        self.draw = random.Random(f"{os.environ.get('SEED', 'one')} {name}")
        self.before = "*", c.made("set", number, b"*"), [[(None, False, "*")]]

    def text(self):
        text = self.model.drawn(self.draw, self.versions)
        if self.draw.randrange(30) == 0:
            place = self.draw.randrange(len(text) + 1)
            text = text[:place] + self.draw.choice(self.spoils) + text[place:]
        return text

    def case(self):
        """A set and what it has, or where it is wrong; what is made of it and the set before it."""
        c, text = self.c, self.text()
        form = c.made("set", self.number, coded(text))
        case = {"scheme": self.name, "text": text}
        try:
            alternatives = self.model.read(text)
        except Wrong as fault:
            reason = c.made("set_wrong_text", self.number, coded(text))
            return {**case, "wrong": [fault.args[0], reason and reason.decode()]}
        other_text, other, others = self.before
        self.before = text, form, alternatives
        made = [c.made(f"set_{name}", form, other) for name in ("and", "or")] + [c.made("set_not", form)]
        members = [member[2] for member in alternatives[0] if member[2] != "*"]
        versions = self.draw.choices(self.versions, k=EACH - 1) + [self.draw.choice(members or self.versions)]
        a, b = versions[:2]
        return {
            **case,
            "other": other_text,
            "made": [*map(c.ends, (form, *made))],
            "isPartOf": c.flag("set_part_of", form, other),
            "meets": c.flag("set_meets", form, other),
            "equals": form == other,
            "has": [[version, self.model.has(alternatives, version), self.model.has(others, version)]
                    for version in versions],
            "none": self.draw.choice(self.others),
            "order": self.model.compare(a, b),
            "keys": [c.made("key", self.number, coded(version)).hex() for version in (a, b)],
        }

    def many(self):
        """A list with its keys, its order, and which of it is before a version."""
        texts = self.draw.choices(self.versions, k=30) + self.draw.choices(self.others, k=5)
        self.draw.shuffle(texts)
        keys, order = self.c.keys_and_order(self.number, texts)
        low = self.draw.choice([text for text in self.versions if self.is_member(text)])
        inside = [self.model.compare(text, low) < 0 if key else None for text, key in zip(texts, keys)]
        return {
            "scheme": self.name, "texts": texts, "keys": [key.hex() for key in keys], "order": order,
            "text": f"<{low}", "inside": inside,
        }

    def is_member(self, text):
        return not {*text} & {*" \t|,"} and not text.endswith(".*") and self.model.may_follow("<", text, False)

    def lines(self, count):
        """Cases until so many versions are asked of sets, and some lists of texts."""
        asked = 0
        for place in itertools.count():
            if asked >= count:
                return
            if place % 1000 == 0:
                self.versions, self.others = self.model.pool(self.draw)
            case = self.case()
            asked += len(case.get("has", ()))
            yield case
            if place % 50 == 0:
                yield self.many()


def main(count, *words):
    c = C(os.environ["C_LIBRARY"])
    spoils = SPOILS + SURROGATES if "surrogates" in words else SPOILS
    for name, number in NUMBERS.items():
        try:
            model = MixedModel(c) if name == "mixed" else SchemeModel(system_of(name))
        except Missing as missing:
            sys.exit(f"{name}: {missing}")
        drawing = Drawing(c, name, number, model, spoils)
        for line in drawing.lines(-(-count // len(NUMBERS))):
            print(json.dumps(line))


if __name__ == "__main__":
    main(int(sys.argv[1]), *sys.argv[2:])
