"""A requirement as a value."""

from __future__ import annotations

import enum
from typing import NamedTuple, Optional, Union

from . import _library
from ._value import Value
from ._version import Kind, Version

_KINDS: tuple[tuple[Kind, int], ...] = (
    ("ideal", _library.IDEAL),
    ("general", _library.GENERAL),
    ("complex", _library.COMPLEX),
)


class Range(NamedTuple):
    """The range of keys that a requirement asks for.

    Each version that the requirement matches has one of the `kinds`, and a key that is at least `low` and, unless
    `high` is None, below `high`. If the range is `exact`, the requirement matches every such version; otherwise ask it.
    """

    low: bytes
    high: Optional[bytes]
    kinds: tuple[Kind, ...]
    exact: bool


class Reason(enum.Enum):
    """Why a member doesn't match a version: the first of these that is so.

    The version's KIND is not one of those that the member asks for; it is BELOW what the member asks for; it is ABOVE
    that; or none of these, and its PARTS or fields differ.
    """

    KIND = _library.KIND
    BELOW = _library.BELOW
    ABOVE = _library.ABOVE
    PARTS = _library.PARTS


class Mismatch(NamedTuple):
    """Why a requirement doesn't match a version, with a sentence as its `str`, which the library writes.

    `member` is the first member that doesn't match. It is the requirement's text from `start` up to `end`.
    """

    version: str
    member: str
    start: int
    end: int
    reason: Reason

    def __str__(self) -> str:
        return _library.why_text(self.member, self.version)


class Requirement(Value, _library.Ranged):
    """A requirement, as `^1.2.3`, or a list of them with commas between, which matches what each member matches.

    It can't be changed. `InvalidRequirement` where the text is not a requirement. Two are equal where their texts are.
    `=` compares the fields of versions and not their precedence: `Requirement("=1.0")` doesn't match `0:1.0`, though
    `Version("1.0") == Version("0:1.0")`. `in` is `matches`: `InvalidVersion` for a text that is not a version.

    >>> wanted = Requirement(">=1.1.1,<2.0.0")
    >>> wanted.matches("1.5"), wanted.matches(Version("2.0.0")), "1.1.1" in wanted
    (True, False, True)
    >>> "0:1.0" in Requirement("=1.0"), "0:1.0" in Requirement(">=1.0,<=1.0")
    (False, True)
    >>> wanted.low == sort_key("1.1.1"), wanted.high == sort_key("2.0.0")
    (True, True)
    >>> Requirement("1.2.3")
    Traceback (most recent call last):
    versions.InvalidRequirement: not a requirement: '1.2.3'; a list looks like '>=1.2,<2'
    """

    __slots__ = ("__weakref__",)

    @property
    def range(self) -> Range:
        """The range of keys that it asks for, with the bounds `low` and `high`.

        >>> Requirement(">1.2").range.kinds, Requirement("^1.2").range.exact, Requirement(">1.2").range.high
        (('ideal', 'general', 'complex'), False, None)
        """
        flags = self._flags
        kinds = tuple(kind for kind, flag in _KINDS if flags & flag)
        return Range(self.low, self.high, kinds, bool(flags & _library.EXACT))

    @property
    def conflict(self) -> Optional[tuple[str, str]]:
        """Two members that exclude each other by their ranges, so that nothing matches, or None.

        The two are the same where one member excludes every version. None where the range isn't empty: such a list can
        still match nothing.

        >>> Requirement(">=1.2,*,<1.0").conflict, Requirement(">=1.2,<2").conflict
        (('>=1.2', '<1.0'), None)
        >>> wanted = Requirement("=1.0,=1.0+x")
        >>> wanted.conflict, wanted.filter(["1.0", "1.0+x"])
        (None, [])
        """
        return _library.conflict(self._text)

    def why_not(self, version: Union[str, Version]) -> Optional[Mismatch]:
        """Why it doesn't match a version, a `Version` or a text, and None where it does.

        `InvalidVersion` for a text that is not a version.

        >>> str(Requirement("*,>=1.5").why_not("1.4")), Requirement(">=1.5").why_not(Version("1.6"))
        ('1.4 is below >=1.5', None)
        >>> wanted = Requirement("^1.2.3,<1.9.0")
        >>> [wanted.why_not(text).reason.name for text in ("1.5", "1.2.2", "1.9.1")]
        ['KIND', 'BELOW', 'ABOVE']
        >>> str(Requirement("=1.0").why_not("0:1.0"))
        '0:1.0 is within the bounds of =1.0, but its parts or fields differ'
        """
        found = self._why_not(version)
        if found is None:
            return None
        text, start, end, reason = found
        return Mismatch(text, self._text[start:end], start, end, Reason(reason))

    def __eq__(self, other: object) -> bool:
        if not isinstance(other, Requirement):
            return NotImplemented
        return self._text == other._text

    def __hash__(self) -> int:
        return hash((Requirement, self._text))
