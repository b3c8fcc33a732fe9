"""Lines of every shape, drawn by a seed, for the scripts that compare answers on them."""
import random

COMPARISONS = (">", ">=", "<", "<=")
OPERATORS = ("=", *COMPARISONS, "~", "^")
VERSIONS_OF_EACH_OPERATOR = 5
USUAL = ("1.1.1", "0.1.1", "0.0.1-rc.1")
REQUIREMENT_TEXTS = 300

WORDS = "a b r R v rc RC beta alpha post dev git deb ubuntu x y z e A Z git872b87e73dfb".split()
SIGNS = ":-+_~"
SOUP = "0123459" + "arRvz" + "..--++__::~~" + "0."
PAST_ASCII = ["é", "ß", "İ", "٣", "１", "Ⅷ", "²", "\u00a0", "\u0085", "\u2028", "\ufeff", "𝟙", "‐", "＋", "．"]
CONTROLS = [bytes([b]) for b in (0, 1, 8, 9, 11, 12, 13, 27, 31, 32, 127)]
NO_UTF_8 = [b"\xff", b"\xfe", b"\x80", b"\xc3", b"\xe2\x82", b"\xc0\xaf", b"\xed\xa0\x80", b"\xf4\x90\x80\x80"]
ODD = [c.encode() for c in PAST_ASCII] + CONTROLS + NO_UTF_8 + [bytes([b]) for b in b"!@/,*^=<>[]{}`|\"'"]


class Shapes:
    """Lines of every shape, drawn by a seed."""

    def __init__(self, seed):
        self.random = random.Random(seed)

    # Pieces.

    def one_in(self, n):
        return self.random.randrange(n) == 0

    def numeral(self):
        kind = self.random.randrange(20)
        if kind < 12:
            return str(self.random.randrange(4))
        if kind < 18:
            return str(self.random.randrange(10 ** self.random.randrange(1, 10)))
        return str(2**32 - 1 - self.random.randrange(4))

    def digits(self):
        kind = self.random.randrange(20)
        if kind < 16:
            return self.numeral()
        if kind < 18:
            return "0" * self.random.randrange(1, 4) + self.numeral()
        if kind < 19:
            return str(2**32 - 4 + self.random.randrange(8))
        return str(self.random.randrange(1, 10 ** self.random.randrange(11, 30)))

    def word(self):
        return self.random.choice(WORDS)

    def mixed(self):
        return "".join(self.random.choice((self.digits, self.word))() for _ in range(self.random.randrange(1, 5)))

    def part(self):
        kind = self.random.randrange(10)
        if kind < 6:
            return self.numeral()
        if kind < 7:
            return self.numeral() + self.word() + self.numeral()
        if kind < 8:
            return self.numeral() + self.word()
        if kind < 9:
            return self.word() + self.digits()
        return self.mixed()

    def identifier(self):
        kind = self.random.randrange(12)
        if kind < 5:
            return self.numeral()
        if kind < 8:
            return self.word()
        if kind < 9:
            return "-" * self.random.randrange(1, 4)
        if kind < 10:
            return "-".join((self.word(), self.digits(), self.word()))
        return self.word() + self.mixed() + self.random.choice(("", "-", "-0"))

    def some(self, piece, most, between="."):
        return between.join(piece() for _ in range(self.random.randrange(1, most + 1)))

    def metadata(self):
        return "".join(self.random.choice(".-" + "019az") for _ in range(self.random.randrange(1, 9)))

    def tail(self):
        release = "-" + self.some(self.identifier, 4) if self.one_in(2) else ""
        return release + ("+" + self.metadata() if self.one_in(3) else "")

    # Whole lines.

    def strict(self):
        return ".".join((self.numeral(), self.numeral(), self.numeral())) + self.tail()

    def general(self):
        epoch = self.numeral() + ":" if self.one_in(3) else ""
        return epoch + self.some(self.part, 6) + self.tail()

    def messy(self):
        line = self.some(self.mixed, 4)
        while not self.one_in(3):
            line += self.random.choice(SIGNS) + self.some(self.mixed, 3)
        return line

    def soup(self):
        return "".join(self.random.choice(SOUP) for _ in range(self.random.randrange(0, 14)))

    def long(self):
        many = self.random.randrange(50, 900)
        kind = self.random.randrange(5)
        if kind == 0:
            return self.random.choice(("", "1.2.3-", "1.2.3+", "1.2-")) + self.random.choice("0123aZ-") * many
        if kind == 1:
            return self.random.choice("._-:").join(self.digits() for _ in range(many))
        if kind == 2:
            return ".".join(self.part() for _ in range(many)) + self.tail()
        if kind == 3:
            return "1.2.3-" + ".".join(self.identifier() for _ in range(many))
        return "".join(self.mixed() + self.random.choice(SIGNS + ".") for _ in range(many)) + "1"

    def good(self):
        return self.random.choice((self.strict, self.general, self.messy))()

    def odd(self):
        """A good line with an added piece that no version has."""
        line = self.good().encode()
        at = self.random.randrange(len(line) + 1)
        return line[:at] + self.random.choice(ODD) + line[at:]

    def spoiled(self):
        """A good line with a byte or two deleted, added, swapped or doubled."""
        line = bytearray(self.good().encode())
        for _ in range(self.random.randrange(1, 3)):
            at = self.random.randrange(len(line)) if line else 0
            kind = self.random.randrange(5)
            if kind == 0:
                del line[at : at + 1]
            elif kind == 1:
                line[at:at] = self.random.choice(SOUP).encode()
            elif kind == 2:
                line[at : at + 2] = line[at : at + 2][::-1]
            elif kind == 3:
                line[at:at] = line[at : at + 1]
            else:
                line[at : at + 1] = self.random.choice(SOUP).encode()
        return bytes(line)

    def line(self):
        kind = self.random.randrange(1000)
        if kind < 250:
            return self.strict().encode()
        if kind < 400:
            return self.general().encode()
        if kind < 500:
            return self.messy().encode()
        if kind < 650:
            return self.soup().encode()
        if kind < 700:
            return self.odd()
        if kind < 701:
            return self.long().encode()
        return self.spoiled()

    def lines(self, count):
        """That many lines, all different."""
        lines = {}
        while len(lines) < count:
            lines[self.line()] = None
        return list(lines)

    def requirements(self):
        """Operators, and the strict versions after them."""
        drawn = [self.strict() for _ in range(VERSIONS_OF_EACH_OPERATOR * len(OPERATORS))]
        pairs = list(zip(OPERATORS * VERSIONS_OF_EACH_OPERATOR, drawn))
        return pairs + [(op, version) for op in OPERATORS for version in USUAL] + [("*", "")]

    def requirement_texts(self, lines):
        """Operators, right and wrong ones, and lines after them that can be a program's words."""
        operators = (*OPERATORS, *OPERATORS, "*", "", "=>", "==", "!=", "> ")
        words = [line for line in self.random.sample(lines, len(lines) // 2) if line.isascii() and b"\0" not in line]
        return [(self.random.choice(operators), word) for word in words[:REQUIREMENT_TEXTS]] + [("*", b"")]


def lines_and_lists(count):
    """That many lines, and lists of requirements, right ones and wrong ones: always the same."""
    shapes = Shapes("one")
    lines = [shapes.line() for _ in range(count)]
    members = [operator.encode() + word for operator, word in shapes.requirement_texts(lines)]
    return lines, members + [b",".join(shapes.random.choices(members, k=shapes.random.randrange(2, 5))) for _ in range(300)]
