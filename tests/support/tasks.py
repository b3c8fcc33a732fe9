"""What the calls about tasks return, by their rules and not by their code.

Kinds, keys, orders, ranges and matches are those of the library, which `library` gives.
"""
import re

LARGEST = 2**32 - 1
IDEAL, GENERAL, COMPLEX = 1, 2, 3
# The words that name a stability, and the runs of letters and digits.
NAMES = [
    ("dev|devel|snapshot|nightly|canary", "dev"),
    ("alpha|pre|preview|prerelease|milestone|eap", "[0-9]{1,3}a[0-9]{1,2}|m[0-9]+|ea"),
    ("beta", "[0-9]{1,3}b[0-9]{1,2}"),
    ("rc|cr", "[0-9]{1,3}c[0-9]{1,2}"),
]
ALPHA, STABLE = 2, 5


def text_in_tag(tag):
    """The rest of a tag from where its version begins, or None."""
    start = re.search(rb"(?:\A|[^A-Za-z0-9.])[vV]?(?=[0-9])", tag)
    if start is None or re.search(rb"[0-9][.][0-9]", tag[: start.end()]):
        return None
    return tag[start.end() :]


def text_after_prefix(prefix, tag):
    start = re.match(re.escape(prefix) + rb"[vV]?(?=[0-9])", tag)
    return tag[start.end() :] if start else None


def stability_of_words(text):
    """The lowest stability that words or runs of a text name."""
    for stability, (words, runs) in enumerate(NAMES, 1):
        for test, every in (words, "[a-z]+"), (runs, "[a-z0-9]+"):
            if any(re.fullmatch(test, run) for run in re.findall(every, text.lower())):
                return stability
    return STABLE


class Model:
    def __init__(self, library):
        self.library = library

    def in_tag(self, tag):
        return self._version(text_in_tag(tag))

    def after_prefix(self, prefix, tag):
        return self._version(text_after_prefix(prefix, tag))

    def _version(self, text):
        return text if text is not None and self.library.kind(text) else None

    def stability(self, version):
        kind = self.library.kind(version)
        text = version.decode().lower()
        counted = text if kind == COMPLEX else text.split("+")[0]
        named = stability_of_words(counted)
        chunk = counted.partition("-")[2].split(".")[0]
        early = kind == IDEAL and re.match("[a-z-]", chunk) and not re.fullmatch("r[0-9]+", chunk)
        return ALPHA if named == STABLE and early else named

    def newest(self, texts, requirements, least, tags):
        """The place of the newest text, or None."""
        best = None
        for place, text in enumerate(texts):
            version = self.in_tag(text) if tags else self._version(text)
            if version is None or not self.library.matches(requirements, version) or self.stability(version) < least:
                continue
            if best is None or self.library.compare(version, best[1]) > 0:
                best = place, version
        return best and best[0]

    def difference(self, a, b):
        if self.library.compare_total(a, b) == 0:
            return "same", 0
        if self.library.compare(a, b) == 0:
            return "tie", 0
        (epoch, parts), (other_epoch, others) = _front(a), _front(b)
        if epoch != other_epoch:
            return "epoch", 0
        for place in range(max(len(parts), len(others))):
            pair = parts[place : place + 1] + others[place : place + 1]
            if len(pair) < 2 or self.library.compare(*pair) != 0:
                return "part", place
        return "tail", 0

    def next(self, version, place):
        """The text of the next version, or None."""
        read, parts = self._parts(version)
        numerals = all(re.fullmatch(b"0|[1-9][0-9]*", part) and int(part) <= LARGEST for part in parts)
        if place >= len(parts) or not numerals:
            return None
        for number in int(parts[place]), int(parts[place]) + 1:
            body = parts[:place] + [b"%d" % number] + [b"0"] * (len(parts) - place - 1)
            text = (read[1] or b"") + b".".join(body)
            if number <= LARGEST and self.library.compare(text, version) > 0:
                return text
        return None

    def _parts(self, version):
        """What is read of a strict or general version of numbers alone, and its parts; of another there are none."""
        read = re.fullmatch(rb"([0-9]+:)?([0-9]+(?:[.][0-9]+)*)(?:[-+].*)?", version)
        return read, read[2].split(b".") if read and self.library.kind(version) in (IDEAL, GENERAL) else []

    def next_release(self, version):
        _, parts = self._parts(version)
        return self.next(version, len(parts) - 1) if parts else None

    def next_pre(self, version, word):
        """The least of all the versions that may be next, or None. No word is empty."""
        if self.library.kind(version) != IDEAL:
            return None
        major, minor, patch, own = re.fullmatch(rb"(\d+)[.](\d+)[.](\d+)(?:-([^+]*))?(?:[+].*)?", version).groups()
        chunks = own.split(b".") if own else []
        if word:
            # The chunks of a word are what a strict version may have as a pre-release.
            front = word + b"."
            if b"+" in word or self.library.kind(b"0.0.0-" + word) != IDEAL:
                return None
        elif chunks and re.fullmatch(b"[0-9]+", chunks[-1]):
            front = b"".join(chunk + b"." for chunk in chunks[:-1])
        else:
            return None
        # The least number is 1, or one above a number of the pre-release; at a later patch it is 1.
        numbers = {1} | {int(chunk) + 1 for chunk in chunks if re.fullmatch(b"[0-9]+", chunk)}
        places = [(int(patch), number) for number in numbers] + [(int(patch) + 1, 1)]
        best = None
        for at, number in places:
            text = b"%s.%s.%d-%s%d" % (major, minor, at, front, number)
            if max(at, number) > LARGEST or self.library.compare(text, version) <= 0:
                continue
            if best is None or self.library.compare(text, best) < 0:
                best = text
        return best

    def why_not(self, requirements, version):
        """The first member that does not match, where it lies, and why; or None."""
        start = 0
        for member in requirements.split(b","):
            if not self.library.matches(member, version):
                return start, start + len(member), self._why(member, version)
            start += len(member) + 1
        return None

    def _why(self, member, version):
        low, high, kinds = self.library.range(member)
        key = self.library.key(version)
        if self.library.kind(version) not in kinds:
            return "kind"
        return "below" if key < low else "above" if high is not None and key >= high else "parts"

    def is_conflict(self, requirements, found):
        """Whether two members, or none, are an answer to what excludes each other in a list."""
        if found is None:
            return not self.is_empty(requirements)
        starts = {0} | {place + 1 for place, byte in enumerate(requirements) if byte == ord(",")}
        members = [requirements[start:end] for start, end in found]
        are_members = {start for start, _ in found} <= starts and not any(b"," in member for member in members)
        whole = all(requirements[end : end + 1] in (b"", b",") for _, end in found)
        return are_members and whole and self.is_empty(b",".join(members))

    def is_empty(self, requirements):
        low, high, kinds = self.library.range(requirements)
        return not kinds or (high is not None and low >= high)


def _front(version):
    """The value of the epoch, and the parts of the body."""
    epoch, body = re.match(rb"(?:([0-9]+):)?([A-Za-z0-9.]*)", version).groups()
    return int(epoch or 0), body.split(b".")
