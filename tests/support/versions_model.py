"""The program `versions` a second time: what a run writes, how it ends, and whether it reads standard input.

The Python package answers what is a version of a scheme, which of two comes first, what matches and the like, and for
schemes beside mixed tasks.py what a tag has and what words say of stability. Words, lines, columns, options, orders and
faults are this file's.
"""
import csv
import json
import re
import sys
from functools import cmp_to_key

import versions
from runs import REFUSED
from schemes import LISTED, SCHEME_OF
from tasks import stability_of_words, text_after_prefix, text_in_tag

csv.field_size_limit(sys.maxsize)
STABILITIES = ["dev", "alpha", "beta", "rc", "stable"]
SIGNS = {"<": "lt", "<=": "le", "=": "eq", ">=": "ge", ">": "gt"}
HOLDS = {"lt": (-1,), "le": (-1, 0), "eq": (0,), "ge": (0, 1), "gt": (1,)}
NUMBERS = ["major", "minor", "patch"]
PLACES = [*NUMBERS, "release", "pre"]
# A member of a set, as it stands there.
MEMBER = re.compile(r"\*|[=!<>~^]+[ \t]*[^ \t,|]+")
SHOWN = 60
TAGS = b"versions: a version begins with v: with --tags the answer is another\n"
ORDINALS = "first second third fourth fifth sixth seventh eighth ninth tenth".split()

SHORT = {"r": "reverse", "u": "unique", "k": "key", "t": "field-separator", "z": "zero-terminated", "n": "count"}
SHORT.update(g="group", v="invert-match")
ENDS = {"zero-terminated", "crlf"}
NAMING = {"tags", "prefix"}
PLACE = {"key", "field-separator", "csv", "scheme"} | NAMING | ENDS
LINES = {"min-stability", "match", "header", "header-lines", "invalid", "invalid-to", "progress"} | PLACE
VALUED = (LINES | {"count", "group", "scheme-column", "word"}) - {"tags", "progress", "header", "csv"} - ENDS
NUMBERED = ("key", "count", "group", "scheme-column", "header-lines")
# Those for a column, which is also asked for by its name.
COLUMNS = ("key", "group", "scheme-column")
# The options of each command, and how many words it takes.
COMMANDS = {
    "sort": ({"reverse", "unique", "scheme-column"} | LINES, 0, None),
    "newest": ({"count", "group", "scheme-column"} | LINES, 0, None),
    "filter": ({"invert-match"} | LINES, 0, None),
    "show": ({"json"} | NAMING | ENDS, 0, None),
    "key": ({"scheme"} | NAMING | ENDS, 0, None),
    "test": ({"scheme"} | NAMING, 2, 3),
    "compare": ({"explain", "scheme"} | NAMING, 2, 2),
    "why": ({"scheme"} | NAMING | ENDS, 1, None),
    "implies": ({"scheme"}, 2, 2),
    "meets": ({"scheme"}, 2, 2),
    "diff": ({"lists", "group", "invalid"} | PLACE, 2, 2),
    "next": ({"word"} | NAMING | ENDS, 1, None),
}


class Ended(Exception):
    """A run that fails: its status, and what it writes to standard error. None is any text about wrong words."""

    def __init__(self, status, text=None):
        self.status, self.text = status, text


WRONG = Ended(2)


class Run:
    """A run of the program. `read` returns what a file holds, or None where it can't be read."""

    def __init__(self, words, given, read):
        self.given, self.read, self.written, self.output = given, read, {}, b""
        self.reads_given, self.scheme, self.by_name = False, None, False
        self.status, self.error, self.beside, self.filtered = 0, b"", b"", None
        try:
            self.output = self.answer([*words])
        except Ended as ended:
            self.status, self.error = ended.status, ended.text
            if self.error:
                self.error = self.beside + b"versions: " + self.error + b"\n"

    def answer(self, words):
        if not words or words[0] not in COMMANDS:
            raise WRONG
        self.command = command = words.pop(0)
        self.options, rest = parsed(command, words)
        self.scheme = SCHEME_OF[self.options.get("scheme", "mixed").lower()]
        return getattr(self, command)(*rest)

    # Lines.

    def end(self):
        return b"\0" if "zero-terminated" in self.options else b"\n"

    def input(self, names):
        texts = []
        for name in names or ["-"]:
            if name == "-":
                text, self.given, self.reads_given = self.given, b"", True
            else:
                text = self.read(name)
            if text is None:
                why = REFUSED[21 if name == "." else 2]
                raise Ended(3, b"cannot be read: %s: %s" % (shown(name.encode()), why.encode()))
            texts.append(self.split(name, text if not text or text.endswith(self.end()) else text + self.end()))
        self.inputs = [(name, len(lines)) for name, lines in zip(names, texts)]
        return [line for lines in texts for line in lines]

    def split(self, name, text):
        """The lines of an input, the last of which ends there."""
        if "csv" not in self.options:
            return text.split(self.end())[:-1]
        lines, goes_on = records(text, self.end(), self.separators() or b",")
        if goes_on:
            raise Ended(1, b"line %d of %s: its quotes never close" % (len(lines), shown(name.encode())))
        return lines

    def separators(self):
        """The bytes of which each separates columns, or None."""
        word = self.options.get("field-separator")
        return {None: None, "\\t": b"\t", "\\0": b"\0"}.get(word, word and word.encode())

    def key_column(self, default=None):
        return number(self.options.get("key", default or ("1" if "csv" in self.options else None)))

    def of_file(self, number):
        """Of which file the line of a number is, and its number there."""
        for name, count in self.inputs:
            if number <= count:
                return b" of " + shown(name.encode()), number
            number -= count
        return b"", number

    def column(self, line, number):
        """The text of a column, counted from 1, or None."""
        if number is None:
            return self.whole(line)
        columns = self.columns(line)
        return columns[number - 1] if number <= len(columns) else None

    def whole(self, line):
        return line[:-1] if {"crlf", "csv"} & {*self.options} and line.endswith(b"\r") else line

    def columns(self, line):
        line, separators = self.whole(line), self.separators()
        if "csv" in self.options:
            return csv_fields(line, separators or b",", self.end())
        if separators is not None:
            return re.split(b"[" + re.escape(separators) + b"]", line)
        return re.split(rb"[ \t]+", line.strip(b" \t")) if line.strip(b" \t") else []

    def look_up(self, head):
        """Puts the numbers of columns in the place of their names in a header. Without lines none is looked up."""
        for option in COLUMNS:
            word = self.options.get(option, "1")
            if not is_number(word):
                self.by_name = True
                names = self.columns(head[-1]) if head else [word.encode()]
                if word.encode() not in names:
                    raise Ended(1, b"no column is named " + shown(word.encode()))
                self.options[option] = str(names.index(word.encode()) + 1)

    def texts(self, lines, number):
        """The version of each line, or None."""
        found = {}
        for group in self.by_scheme(list(enumerate(lines)), 1):
            texts = self.spelled([self.column(line, number) for _, line in group])
            keys = versions.sort_keys(texts, scheme=self.scheme)
            found.update((place, text) for (place, _), text, key in zip(group, texts, keys) if key)
        return [found.get(place) for place in range(len(lines))]

    def by_scheme(self, rows, of_line=0):
        """The rows of each scheme, as schemes first appear: all where no column names them, none of what names none."""
        groups = {}
        for row in rows:
            name = self.scheme
            if "scheme-column" in self.options:
                name = scheme_named(self.column(row[of_line], number(self.options["scheme-column"])))
            groups.setdefault(name, []).append(row)
        for name, group in groups.items():
            if name is not None:
                self.scheme = name
                yield group

    def spelled(self, columns):
        """The texts in columns that are to be versions, or None."""
        return (self.of_mixed if self.scheme == "mixed" else self.of_scheme)(columns)

    def of_mixed(self, columns):
        """The same of mixed: in tags by the library, which has that for mixed alone."""
        found = [readable(column) for column in columns]
        if "tags" in self.options:
            # The name before a version may be of any bytes.
            return versions.in_tags([(column or b"").decode(errors="replace") for column in columns])
        if "prefix" in self.options:
            return [in_tag(text, readable(self.options["prefix"].encode())) for text in found]
        return found

    def of_scheme(self, columns):
        """The same of another scheme: what a tag has may be no version of mixed."""
        columns = [column or b"" for column in columns]
        if "tags" in self.options:
            columns = [text_in_tag(column) for column in columns]
        elif "prefix" in self.options:
            columns = [text_after_prefix(self.options["prefix"].encode(), column) for column in columns]
        return [readable(column) for column in columns]

    def version(self, word, status=1):
        try:
            return versions.Version(self.spelled([word.encode()])[0] or "", scheme=self.scheme)
        except versions.InvalidVersion:
            said, below = self.told(word.encode(), self.scheme)
            raise Ended(status, b"not a version: " + said + below) from None

    def found(self, text):
        """The rest of a text that should be its version, or None."""
        if "prefix" in self.options:
            return text_after_prefix(self.options["prefix"].encode(), text)
        return text_in_tag(text) if "tags" in self.options else text

    def told(self, text, scheme):
        """What is said of a text that spells none; and why, with the text and a pointer below, if a version begins."""
        rest = self.found(text)
        if rest is None:
            prefix = re.match(rb"[^0-9]*", text)[0]
            tip = "tags" in self.options and is_plain(prefix) and is_version(text[len(prefix) :], scheme)
            return shown(text) + (b": --prefix " + prefix if tip else b""), b""
        try:
            versions.Version(readable(rest), scheme=scheme)
        except versions.InvalidVersion as error:
            before = text[: len(text) - len(rest) + error.place]
            pointer = b"\n  " + b" " * len(before) + b"^" if is_plain(before) else b""
            return error.reason.encode(), b"\n  " + shown(text) + pointer

    def version_set(self, word, status=1):
        try:
            return versions.VersionSet(word, scheme=self.scheme)
        except versions.InvalidVersionSet as error:
            place, reason = len(word[: error.start].encode()) + 1, error.reason.encode()
            raise Ended(status, b"not a set: %s; at byte %d: %s" % (shown(word.encode()), place, reason)) from None

    def levels(self, texts):
        """How stable versions are: by their words, of mixed and semver also by their pre-release."""
        if self.scheme not in ("mixed", "semver"):
            return [stability_of_words(text) - 1 for text in texts]
        levels = zip(texts, versions.stabilities(texts))
        return [STABILITIES.index(str(it)) if it else stability_of_words(text) - 1 for text, it in levels]

    def bad(self, lines, texts, asked, header=0, key=None):
        """The lines without a version behind a header, unless they are a fault."""
        bad = [place for place, text in enumerate(texts) if text is None]
        if bad and asked == "fail":
            line, scheme = lines[bad[0]], self.scheme
            if "scheme-column" in self.options:
                scheme = scheme_named(self.column(line, number(self.options["scheme-column"])))
            text, below = self.column(line, self.key_column(key)), b""
            if scheme is None:
                said = shown(line) + b": no scheme is named, of " + LISTED.encode()
            elif text is None:
                said = shown(line) + b": no such column"
            else:
                said, below = self.told(text, scheme)
            said, (of, place) = b" is not a version: " + said, self.of_file(header + bad[0] + 1)
            if not {"crlf", "csv"} & {*self.options} and line.endswith(b"\r"):
                said, below = b" ends in a carriage return: --crlf", b""
            more = b" (and %d more)" % (len(bad) - 1) if len(bad) > 1 else b""
            raise Ended(1, b"line %d%s%s%s%s" % (place, of, said, more, below))
        return [lines[place] for place in bad]

    def lines(self, files, default, arrange):
        """What `sort`, `newest` and `filter` write of their input."""
        wanted = self.version_set(self.options.get("match", "*"))
        asked = self.options.get("invalid", "skip" if "invalid-to" in self.options else default)
        header = int(self.options.get("header-lines", "header" in self.options))
        lines = self.input(files)
        head, lines = lines[:header], lines[header:]
        self.look_up(head)
        texts = self.texts(lines, self.key_column())
        if self.takes_whole_lines():
            self.beside = b"versions: each line is taken for its version: -k names a column between -t\n"
        bad = self.bad(lines, texts, asked, header)
        rows = [(line, text) for line, text in zip(lines, texts) if text is not None]
        least = STABILITIES.index(self.options.get("min-stability", "dev"))
        stable = set()
        for group in self.by_scheme(rows):
            levels = self.levels([text for _, text in group])
            stable.update(id(row) for row, level in zip(group, levels) if level >= least)
        rows = [row for row in rows if id(row) in stable]
        if "match" in self.options:
            rows = matching(rows, wanted, True)
        good = [line for group in self.by_scheme(rows) for line, _ in arrange(group)]
        if self.answers_otherwise(lines, texts, good, wanted):
            self.error += TAGS
        self.hints(default == "skip" and not good and lines)
        self.error += self.beside
        if "invalid-to" in self.options:
            self.written[self.options["invalid-to"]] = b"".join(line + self.end() for line in bad)
        kept = {"first": bad + good, "last": good + bad}.get(asked, good)
        return b"".join(line + self.end() for line in head + kept)

    def takes_whole_lines(self):
        """Whether bytes between columns are named, and no column is asked for."""
        return "field-separator" in self.options and not {"csv", *COLUMNS} & {*self.options}

    def answers_otherwise(self, lines, texts, good, wanted):
        """Whether a version begins with v, and other lines would be written, or in another order, with --tags."""
        if {"tags", "prefix", "scheme-column"} & {*self.options}:
            return False
        columns = {id(line): self.column(line, self.key_column()) or b"" for line in lines}

        def is_kept(text):
            return (
                text is not None
                and self.levels([text])[0] >= STABILITIES.index(self.options.get("min-stability", "dev"))
                and ("match" not in self.options or versions.match_all(wanted, [text])[0])
                and (self.filtered is None or versions.match_all(self.filtered[0], [text])[0] is self.filtered[1])
            )

        def is_kept_otherwise(line, text):
            tag = self.tagged(columns[id(line)])
            return begins_with_v(columns[id(line)]) and tag is not None and is_kept(tag) != is_kept(text)

        def order(*two):
            found = [self.tagged(columns[id(line)]) for line in two]
            if None in found or not any(begins_with_v(columns[id(line)]) for line in two):
                return None
            return versions.compare(*found, scheme=self.scheme)

        if self.command == "newest" and good:
            group = int(self.options.get("group", 0))
            groups = {id(line): self.column(line, group) or b"" if group else b"" for line in lines}
            rest = [line for line in lines if groups[id(line)] == groups[id(good[0])]]
            return any(order(good[0], line) == -1 and is_kept(self.tagged(columns[id(line)])) for line in rest)
        if any(map(is_kept_otherwise, lines, texts)):
            return True
        wrong = [-1 if "reverse" in self.options else 1] + [0] * ("unique" in self.options)
        return self.command == "sort" and any(order(*two) in wrong for two in zip(good, good[1:]))

    def tagged(self, column):
        """The version in a tag, or None."""
        text = readable(text_in_tag(column))
        return text if text is not None and versions.sort_keys([text], scheme=self.scheme)[0] else None

    def tell_of_two(self, first, second, answer):
        """Tells where two words compare otherwise with --tags, one of which begins with v."""
        found = [self.tagged(word.encode()) for word in (first, second)]
        whole = not NAMING & {*self.options} and any(begins_with_v(word.encode()) for word in (first, second))
        if whole and None not in found and answer(versions.compare(*found, scheme=self.scheme)):
            self.error += TAGS

    def tell_of_set(self, words, wanted):
        """Tells where a set has the version in the tag of a word that begins with v, and hasn't the word, or the other way."""
        if NAMING & {*self.options}:
            return
        for word in words:
            tag, found = self.tagged(word.encode()), versions.sort_keys([word], scheme=self.scheme)[0]
            has = found and versions.match_all(wanted, [word])[0]
            if begins_with_v(word.encode()) and tag is not None and versions.match_all(wanted, [tag])[0] != bool(has):
                self.error += TAGS
                return

    def hints(self, left_out):
        """What is told beside of lines of which none was kept."""
        if left_out:
            returns = not {"crlf", "csv"} & {*self.options} and left_out[0].endswith(b"\r")
            self.error += b"versions: no line was kept" + (b": they end in carriage returns: --crlf" if returns else b"") + b"\n"

    def sort(self, *files):
        reverse = "reverse" in self.options

        def arrange(rows):
            is_mixed = self.scheme == "mixed"
            keyed = [(versions.sort_key(text, scheme=self.scheme), line, text) for line, text in rows]
            if "unique" in self.options:
                first = {}
                for row in keyed:
                    first.setdefault(row[0], row)
                keyed = sorted(first.values(), key=lambda row: row[0], reverse=reverse)
            else:
                # Beside mixed, lines that tie keep their order.
                keyed.sort(key=lambda row: (row[0], TOTAL(row[2]) if is_mixed else 0), reverse=reverse)
            return [row[1:] for row in keyed]

        return self.lines(files, "fail", arrange)

    def newest(self, *files):
        def arrange(rows):
            groups = {}
            for line, text in rows:
                name = self.column(line, number(self.options["group"])) or b"" if "group" in self.options else b""
                groups.setdefault(name, []).append((line, text))
            for group in groups.values():
                newest = sorted(group, key=lambda row: versions.sort_key(row[1], scheme=self.scheme), reverse=True)
                yield from newest[: number(self.options.get("count", "1"))]

        return self.lines(files, "fail", arrange)

    def filter(self, *words):
        if not words:
            return self.lines([], "skip", lambda rows: rows)
        asks = self.options.get("min-stability", "dev") != "dev" or "match" in self.options
        if asks and "invert-match" not in self.options and self.is_there(words[0]):
            try:
                self.version_set(words[0])
            except Ended:
                return self.lines(words, "skip", lambda rows: rows)
        wanted, keeps = self.version_set(words[0]), "invert-match" not in self.options
        self.filtered = wanted, keeps
        return self.lines(words[1:], "skip", lambda rows: matching(rows, wanted, keeps))

    def is_there(self, name):
        return name in ("-", ".") or self.read(name) is not None

    # One version or two.

    def each(self, words, answer):
        """The answers of the versions that words or lines name, each in lines: by the text and its version."""
        if words and words != ("-",):
            given, found = [], []
            for word in words:
                try:
                    found.append(self.version(word))
                    given.append(word.encode())
                except Ended as ended:
                    self.status, self.error = ended.status, self.error + b"versions: " + ended.text + b"\n"
            if not found:
                raise Ended(1, self.error.removeprefix(b"versions: ").removesuffix(b"\n"))
        else:
            lines = self.input([])
            given, texts = [self.column(line, None) for line in lines], self.texts(lines, None)
            self.bad(lines, texts, "fail")
            found = [versions.Version(text, scheme=self.scheme) for text in texts]
        answers = [line for text, one in zip(given, found) for line in answer(text, one)]
        return b"".join((line if isinstance(line, bytes) else line.encode()) + self.end() for line in answers)

    def show(self, *words):
        return self.each(words, as_json if "json" in self.options else as_lines)

    def key(self, *words):
        return self.each(words, lambda _, one: [one.key.hex()])

    def why(self, wanted, *words):
        found = self.version_set(wanted)
        head = b"" if found else b"no version is in " + wanted.encode() + self.end()
        members = [MEMBER.findall(alternative) for alternative in wanted.split("||")]
        alternatives = [[(text, self.version_set(text)) for text in texts] for texts in members]

        def lines(given, one):
            if one in found:
                return [given + b" matches"]
            first = [next(text for text, member in members if one not in member) for members in alternatives]
            return [given + b" is left out by " + " and by ".join(first).encode()]

        answer = head + self.each(words, lines)
        if words != ("-",):
            told, self.error = self.error, b""
            self.tell_of_set(words, found)
            self.error += told
        return answer

    def next(self, place, *words):
        if place not in PLACES and not (re.fullmatch("[0-9]+", place) and int(place) < 2**64):
            raise WRONG
        if "word" in self.options and place != "pre":
            raise WRONG

        def following(one):
            if place == "pre" and self.options.get("word") == "":
                raise ValueError
            if place == "pre":
                return one.next_pre(self.options.get("word"))
            if place == "release":
                return one.next_release()
            return one.next(NUMBERS.index(place) if place in NUMBERS else int(place))

        def has_next_in_tag(word):
            """Whether no version comes next to a word that begins with v, and one does to the version in its tag."""
            found = [word if versions.sort_keys([word])[0] else None, self.tagged(word.encode())]
            if not begins_with_v(word.encode()) or None in found:
                return False
            nexts = []
            for text in found:
                try:
                    nexts.append(following(versions.Version(text)))
                except (ValueError, OverflowError):
                    nexts.append(None)
            return nexts[0] is None and nexts[1] is not None

        def answer(given, one):
            try:
                return [given.removesuffix(str(one).encode()) + str(following(one)).encode()]
            except (ValueError, OverflowError):
                if words != ("-",) and not NAMING & {*self.options} and any(map(has_next_in_tag, words)):
                    self.beside = TAGS
                raise Ended(1, b"no version comes next at that place: " + shown(given)) from None

        return self.each(words, answer)

    def test(self, *words):
        if len(words) == 3 and SIGNS.get(words[1], words[1]) not in HOLDS:
            raise WRONG
        if len(words) == 2:
            one, wanted = self.version(words[0], 2), self.version_set(words[1], 2)
            self.tell_of_set(words[:1], wanted)
            return self.ending(one in wanted)
        first, second = self.version(words[0], 2), self.version(words[2], 2)
        holds = HOLDS[SIGNS.get(words[1], words[1])]
        answer = versions.compare(first, second, scheme=self.scheme) in holds
        self.tell_of_two(words[0], words[2], lambda order: (order in holds) != answer)
        return self.ending(answer)

    def implies(self, one, other):
        return self.ending(self.version_set(one, 2) <= self.version_set(other, 2), b"yes\n", b"no\n")

    def meets(self, one, other):
        one, other = self.version_set(one, 2), self.version_set(other, 2)
        return self.ending(not one.isdisjoint(other), b"yes\n", b"no\n")

    def ending(self, answer, yes=b"", no=b""):
        """Ends with 0 for yes and 1 for no."""
        self.status = 0 if answer else 1
        return yes if answer else no

    def compare(self, first, second):
        words, first, second = (first, second), self.version(first), self.version(second)
        sign = "<=>"[versions.compare(first, second, scheme=self.scheme) + 1]
        self.tell_of_two(*words, lambda order: "<=>"[order + 1] != sign)
        if "explain" not in self.options:
            return f"{sign}\n".encode()
        return f"{first} {sign} {second}: {explained(first, second, sign)}\n".encode()

    def diff(self, first, second):
        if "lists" in self.options:
            return self.changes(first, second)
        found = self.version(first).difference(self.version(second))
        name = {"NONE": "same", "PART": f"part {found.part}"}.get(found.kind.name, found.kind.name.lower())
        return f"{name}\n".encode()

    def changes(self, *files):
        asked = self.options.get("invalid", "fail")
        both = [self.input([name]) for name in files]
        texts = [self.texts(lines, number(self.options.get("key", "2"))) for lines in both]
        for name, lines, found in zip(files, both, texts):
            self.inputs = [(name, len(lines))]
            self.bad(lines, found, asked, key="2")
        old, new, end = {}, {}, self.end()
        for names, lines, found in zip((old, new), both, texts):
            for line, text in zip(lines, found):
                if text is not None:
                    names.setdefault(self.column(line, number(self.options.get("group", "1"))) or b"", text)
        for file, names, found in zip(files, (old, new), texts):
            repeated = sum(text is not None for text in found) - len(names)
            if repeated:
                left_out = b"versions: lines left out of %s, since an earlier one has their name: %d\n"
                self.error += left_out % (shown(file.encode()), repeated)
        answer = b""
        for name, text in old.items():
            order = versions.compare(text, new[name], scheme=self.scheme) if name in new else 0
            if name not in new:
                answer += b"removed %s %s" % (name, text.encode()) + end
            elif order != 0:
                what = b"raised" if order < 0 else b"lowered"
                answer += b"%s %s %s %s" % (what, name, text.encode(), new[name].encode()) + end
        added = [name for name in new if name not in old]
        answer += b"".join(b"added %s %s" % (name, new[name].encode()) + end for name in added)
        return answer


TOTAL = cmp_to_key(versions.compare_total)


def number(word):
    return None if word is None else int(word)


def is_number(word):
    return re.fullmatch(r"\+?[0-9]+", word)


def parsed(command, words):
    """The options of a command's words, and the words that are none."""
    names, least, most = COMMANDS[command]
    options, rest = {}, []

    def value():
        if not words or (words[0].startswith("-") and words[0] != "-"):
            raise WRONG
        return words.pop(0)

    def put(name, attached):
        if name not in names or name in options or (attached is not None and name not in VALUED):
            raise WRONG
        options[name] = value() if name in VALUED and attached is None else attached

    while words:
        word = words.pop(0)
        if word == "--":
            rest += words
            break
        if word == "-" or not word.startswith("-"):
            rest.append(word)
        elif word.startswith("--"):
            name, equals, attached = word[2:].partition("=")
            put(name, attached if equals else None)
        else:
            letters = word[1:]
            while letters:
                name, letters = SHORT.get(letters[0]), letters[1:]
                attached = letters.removeprefix("=") if name in VALUED and letters else None
                put(name, attached)
                letters = "" if attached is not None else letters
    if not least <= len(rest) <= (len(rest) if most is None else most) or not are_right(command, options):
        raise WRONG
    # `filter` needs a set, but where the stability alone is asked for.
    if command == "filter" and not rest and ("min-stability" not in options or "invert-match" in options):
        raise WRONG
    return options, rest


def are_right(command, options):
    words = {name: options[name] for name in NUMBERED if name in options}
    names = [name for name in COLUMNS if name in words and command != "diff" and not is_number(words[name])]
    numbers = [word for name, word in words.items() if name not in names]
    separator = options.get("field-separator", ",")
    invalid = ["fail", "skip"] if command in ("newest", "diff") else ["fail", "skip", "first", "last"]
    return (
        all(is_number(text) and 0 < int(text) < 2**64 for text in numbers)
        and not (names and not {"header", "header-lines"} & {*options})
        and separator.isascii()
        and separator != ""
        and ("csv" not in options or is_of_csv(separator, b"\0" if "zero-terminated" in options else b"\n"))
        and options.get("min-stability", "dev") in STABILITIES
        and options.get("invalid", "fail") in invalid
        and not ("invalid-to" in options and options.get("invalid", "skip") != "skip")
        and options.get("scheme", "mixed").lower() in SCHEME_OF
        and not ("tags" in options and "prefix" in options)
        and not ("explain" in options and "scheme" in options)
        and not ("scheme-column" in options and ("scheme" in options or "match" in options))
        and (command != "diff" or "lists" in options or not {*options} - NAMING)
    )


def is_of_csv(separator, end):
    """Whether a word names a byte between the fields of CSV."""
    return separator in ("\\t", "\\0") and {"\\t": b"\t", "\\0": b"\0"}[separator] != end or (
        len(separator) == 1 and separator != '"' and separator.encode() != end
    )


def as_csv(text, end):
    """Bytes as text for Python's csv module: what ends records is a line feed there, and a carriage return is nothing."""
    return text.decode("latin-1").translate({ord(end): "\n", ord("\n"): end.decode(), ord("\r"): "\u0100"})


def records(text, end, separator):
    """The records of CSV, by how many lines Python's csv module reads for each; and whether the last takes one more."""
    lines = [line + end for line in text.split(end)[:-1]]
    reader = csv.reader((as_csv(line, end) for line in [*lines, end]), delimiter=as_csv(separator, end))
    ends = [0, *(reader.line_num for _ in reader)]
    found = [b"".join(lines[start:stop]).removesuffix(end) for start, stop in zip(ends, ends[1:])]
    goes_on = ends[-2] < len(lines)
    return (found if goes_on else found[:-1]), goes_on


def csv_fields(record, separator, end):
    """The fields of a record, without quotes around them, in which two stay two; none if it is none of RFC 4180."""
    try:
        rows = [*csv.reader([as_csv(record, end)], delimiter=as_csv(separator, end), strict=True)]
    except csv.Error:
        return []
    back, fields, at = {ord("\n"): end.decode(), ord(end): "\n", 0x100: "\r"}, [], 0
    for field in (rows[0] if rows else []) or [""]:
        is_quoted = record[at : at + 1] == b'"'
        field = field.replace('"', '""') if is_quoted else field
        at += len(field) + 2 * is_quoted + 1
        fields.append(field.translate(back).encode("latin-1"))
    return fields


def scheme_named(column):
    """The scheme that a column names, or None."""
    text = readable(column)
    return None if text is None else SCHEME_OF.get(text.lower())


def begins_with_v(text):
    return re.match(b"[vV][0-9]", text) is not None


def explained(first, second, sign):
    """Where two versions differ first, and what they have there."""
    kind, part = first.difference(second).kind.name, first.difference(second).part
    if kind == "NONE" and str(first) != str(second):
        return "they differ only after the plus, which doesn't count"
    said = {"NONE": "they are the same version", "TIE": "they compare equal, and are not the same version"}
    if kind in said:
        return said[kind]
    place, both = "the epoch", [str(one).partition(":")[0] if one.epoch is not None else "nothing" for one in (first, second)]
    if kind == "PART":
        both = [pieces[part] if part < len(pieces) else "nothing" for pieces in map(parts_of, (first, second))]
        noun = "number" if all(re.fullmatch("[0-9]+", it) for it in both) else "part"
        place = f"the {ORDINALS[part]} {noun}" if part < len(ORDINALS) else f"{noun} {part + 1}"
    if kind == "TAIL":
        place, both = "what follows the parts", [*map(tail_of, (first, second))]
    return f"{place}, {both[0]} {sign} {both[1]}"


def behind_epoch(one):
    return str(one).partition(":")[2] if one.epoch is not None else str(one)


def parts_of(one):
    return re.match("[0-9A-Za-z.]*", behind_epoch(one))[0].split(".")


def tail_of(one):
    """What counts behind the parts of a version."""
    rest = behind_epoch(one)[len(".".join(parts_of(one))) :]
    if one.kind == "complex":
        return rest or "nothing"
    text = rest.partition("+")[0].removeprefix("-")
    return f"{'the pre-release' if one.kind == 'ideal' else 'the release'} {text}" if text else "nothing"


def readable(text):
    """Each byte as a character: one past ASCII is in no version, and in a tag a sign, also where it is not UTF-8."""
    return None if text is None else text.decode("latin-1")


def in_tag(text, prefix):
    try:
        return None if text is None else str(versions.Version.from_tag(text, prefix))
    except versions.InvalidVersion:
        return None


def is_version(text, scheme):
    return bool(versions.sort_keys([readable(text)], scheme=scheme)[0])


def is_plain(text):
    """Whether a message shows all of it as it is."""
    return len(text) <= SHOWN and all(32 <= byte <= 126 for byte in text)


def matching(rows, wanted, keeps):
    found = versions.match_all(wanted, [text for _, text in rows])
    return [row for row, matches in zip(rows, found) if matches is keeps]


def shown(text):
    """The beginning of a text as a fault quotes it: up to the first byte that is no UTF-8, with Rust's escapes."""
    cut = text[:SHOWN]
    try:
        text = cut.decode()
    except UnicodeDecodeError as error:
        text = cut[: error.start].decode()
    escapes = {"\t": "\\t", "\n": "\\n", "\r": "\\r"}
    return "".join(
        escapes.get(c, f"\\u{{{ord(c):x}}}") if ord(c) < 32 or 127 <= ord(c) < 160 else c for c in text
    ).encode()


def fields(one):
    return {
        "kind": one.kind,
        "epoch": one.epoch,
        "major": one.major,
        "minor": one.minor,
        "patch": one.patch,
        "pre_release": one.pre_release,
        "release": one.release,
        "metadata": one.metadata,
        "stability": str(one.stability),
    }


def as_json(_, one):
    return [json.dumps({"version": str(one), **fields(one)}, separators=(",", ":"))]


def as_lines(_, one):
    found = {name.replace("_", "-"): value for name, value in fields(one).items() if value is not None}
    return [f"{one}", *(f"  {name}: {value}" for name, value in found.items())]
