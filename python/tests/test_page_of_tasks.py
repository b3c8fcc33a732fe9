"""The tables of docs/TASKS.md, row by row."""

import os
import re
import unittest

from counted import of_library
from versions import InvalidVersion, Stability, Version

PAGE = os.path.join(os.path.dirname(os.path.abspath(__file__)), "..", "..", "docs", "TASKS.md")
TABLE = re.compile(r"^\|(.*)\|\n\|[-|]+\|\n((?:\|.*\|\n)+)", re.M)
DIFFERENCES = {"same": "NONE"}


def rows(*titles):
    """The rows of the table with these titles: of each cell the texts in code, or its words."""
    with open(PAGE, encoding="utf-8") as page:
        tables = {tuple(head.split("|")): body for head, body in TABLE.findall(page.read())}
    for line in tables[tuple(f" {title} " for title in titles)].splitlines():
        yield [re.findall(r"`([^`]+)`", cell) for cell in line.strip("|").split("|")]


def answer(call, *words):
    """What a call answers, as a page writes it: nothing where it answers with an error."""
    try:
        return [str(call(*words))]
    except (InvalidVersion, ValueError):
        return []


@of_library
class Page(unittest.TestCase):
    def test_tags(self):
        count = 0
        for tags, version in rows("tag", "version"):
            for tag in tags:
                self.assertEqual(answer(Version.from_tag, tag), version, tag)
                count += 1
        self.assertEqual(count, 25)
        for (prefix,), (tag,), version in rows("prefix", "tag", "version"):
            self.assertEqual(answer(Version.from_tag, tag, prefix), version)

    def test_stabilities(self):
        found = []
        for texts, (stability,) in rows("version", "stability"):
            found.append(stability)
            for text in texts:
                self.assertEqual(str(Version(text).stability), stability, text)
        self.assertEqual(found, list(map(str, Stability)))

    def test_words_of_each_stability(self):
        with open(PAGE, encoding="utf-8") as page:
            (table,) = re.findall(r"^\| stability \| words .*\n\|[-|]+\|\n((?:\|.*\|\n)+)", page.read(), re.M)
        for line in table.splitlines():
            stability, words, _ = (cell.strip() for cell in line.strip("|").split("|"))
            for word in re.findall(r"`([^`]+)`", words):
                for text in (f"1.0-{word}", f"1.{word.upper()}.2", f"1_{word}1"):
                    self.assertEqual(str(Version(text).stability), stability, text)

    def test_differences(self):
        for (one,), (other,), (difference,) in rows("one", "other", "differ in"):
            name, _, part = difference.partition(" ")
            found = Version(one).difference(other)
            self.assertEqual(found.kind.name, DIFFERENCES.get(name, name.upper()), (one, other))
            self.assertEqual(found.part, int(part) if part else None)

    def test_next(self):
        for (version,), (place,), wanted in rows("version", "place", "next"):
            self.assertEqual(answer(Version(version).next, int(place)), wanted, (version, place))
        for (version,), word, wanted in rows("version", "word", "next pre-release"):
            self.assertEqual(answer(Version(version).next_pre, *word), wanted, (version, word))
