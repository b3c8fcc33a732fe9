"""A model of sets of versions, written from docs/SETS.md alone: which texts are sets, where others are wrong, and which
versions a set has. Of what kind a version is, and how two compare, is asked of the library. And the page's tables.
"""
import itertools
import re

from checks import TOP

SINGLE = ("==", "=", "!=", "<=", "<", ">=", ">", "~=", "~>", "~", "^")
DOUBLED = ("<<", ">>")  # of Debian's sets alone
PIECE = re.compile(r"\|\||[|,]|[^ \t|,]+")


class Wrong(ValueError):
    """The place of the first wrong piece."""


def parts_of(text):
    """The parts between the epoch and what follows the first of -, +, _, ~ and another colon."""
    return re.split("[-+_~:]", re.sub("^[0-9]+:", "", text))[0].split(".")


class Model:
    def __init__(self, kind, compare):
        self.kind, self.compare = kind, compare

    def read(self, text):
        """The alternatives of a set, each with its members: an operator, whether `.*` stands behind, and a version."""
        alternatives, wanted, operator = [[]], True, None
        for found in PIECE.finditer(text):
            piece, place = found[0], found.start()
            if piece in (",", "||", "|"):
                if wanted or piece == "|":
                    raise Wrong(place)
                alternatives, wanted = alternatives + [[]] if piece == "||" else alternatives, True
                continue
            if operator is None and piece != "*":
                operator = next((each for each in (*DOUBLED, *SINGLE) if piece.startswith(each)), None)
                piece, place, wanted = piece[len(operator or "") :], place + len(operator or ""), True
            front = piece.removesuffix(".*")
            if piece and not (self.may_follow(operator, front, front != piece) if operator else piece == "*"):
                raise Wrong(place)
            if piece:
                alternatives[-1].append((operator, front != piece, front))
                operator, wanted = None, False
        if wanted:
            raise Wrong(len(text))
        return alternatives

    def may_follow(self, operator, text, of_parts):
        """Whether a version may stand behind an operator: one that is meant as a tag, a pattern or a word may not."""
        is_meant = re.search("[0-9]", text) and not re.match("[vV][0-9]", text) and not {*"xX"} & {*parts_of(text)}
        is_bare = self.kind(text) != "complex" and not re.search("[-+]", text)
        is_known = self.kind(text) and is_meant and operator not in DOUBLED
        return is_known and (not of_parts or (operator in ("=", "==", "!=") and is_bare))

    def has(self, alternatives, version):
        return any(all(self.holds(*member, version) for member in members) for members in alternatives)

    def holds(self, operator, of_parts, text, version):
        if operator is None:
            return True
        order, parts = self.compare(version, text), parts_of(text)
        others = next((n for n, part in enumerate(parts) if self.compare(part, "0") != 0), len(parts) - 1)
        count = len(parts) if of_parts else others + 1 if operator == "^" else max(len(parts) - 1, 1)
        if of_parts:
            return self.begins(version, text, count) != (operator == "!=")
        if operator[0] in "~^":
            return order >= 0 and self.begins(version, text, count)
        answers = {"!=": order != 0, "<": order < 0, "<=": order <= 0, ">": order > 0, ">=": order >= 0}
        return answers.get(operator, order == 0)

    def begins(self, version, text, count):
        """Whether a version has the epoch and the first parts of another."""
        epochs = [int((re.match("([0-9]+):", each) or ["", "0"])[1]) for each in (version, text)]
        pairs = list(zip(parts_of(version), parts_of(text)))[:count]
        return epochs[0] == epochs[1] and len(pairs) == count and all(self.compare(a, b) == 0 for a, b in pairs)


def made_versions(kind):
    """Versions with parts that tie, zeros, words, epochs, a v, and what may follow parts."""
    parts = ("0", "1", "2", "10", "02", "1a", "a", "x")
    bodies = [".".join(each) for count in (1, 2, 3) for each in itertools.product(parts, repeat=count)]
    made = ["".join(each) for each in itertools.product(("", "0:", "1:", "v"), bodies, ("", "-rc.1", "-1", "+x", "_3"))]
    return [text for text in made if kind(text)]


def drawn_set(draw, versions, operators=SINGLE, stars=8):
    """A set's text, and sometimes one that is none. One of so many members has `.*`, as `stars` says."""
    pieces = []
    for alternative in range(draw.choice((1, 1, 2, 3))):
        pieces += ["||"] if alternative else []
        for member in range(draw.choice((1, 1, 2, 3))):
            pieces += [draw.choice((",", " , ", " ", "\t"))] if member else []
            operator, star = draw.choice(operators if draw.randrange(20) else DOUBLED), draw.randrange(stars) == 0
            pieces += [operator, draw.choice(("", "", " ")), draw.choice(versions), ".*" if star else ""]
            if draw.randrange(12) == 0:
                pieces[-4:] = ["*"]
    if draw.randrange(6) == 0:
        pieces.insert(draw.randrange(len(pieces) + 1), draw.choice((",", "||", "|", " ", "=", "*", "x", ">= ")))
    return draw.choice(("", " ")).join(pieces) if draw.randrange(4) == 0 else "".join(pieces)


def rows_of_page(heading):
    """The rows of the page's table with a heading, each by the texts of its cells."""
    page = (TOP / "docs/SETS.md").read_text(encoding="utf-8")
    for line in page.split(f"| {heading} |", 1)[1].split("\n\n")[0].splitlines()[2:]:
        yield [cell.strip().replace("\\|", "|") for cell in re.split(r"(?<!\\)\|", line)[1:-1]]


def worked_rows():
    """Sets of the page, each with versions that it has, and that it has not."""
    for text, has, lacks in rows_of_page("set | has | has not"):
        yield text.strip("`"), re.findall("`(.*?)`", has), re.findall("`(.*?)`", lacks)


def wrong_rows():
    """Texts of the page that are no sets, each with the place and the sentence that are told."""
    for text, place, sentence in rows_of_page("text | at | what is said"):
        yield text.strip("`"), int(place), sentence


# What is said of those texts.
SAID = {text: sentence for text, _, sentence in wrong_rows()}
