"""A set of versions as a value."""

from __future__ import annotations

from typing import TYPE_CHECKING, Any, Iterable, Optional, SupportsIndex, Union, overload

from . import _library
from ._schemes import SchemeName
from ._value import shown_scheme

if TYPE_CHECKING:
    from typing_extensions import Self

    from ._library import Series, Texts


class VersionSet(_library.Formed):
    """A set of versions, as `>=1.2, <2 || ^3`, which can't be changed. `InvalidVersionSet` where the text is not a set.

    It is made of a text, or of a `VersionSet`, whose scheme it has then. A text is read in the `scheme` mixed, or in
    another of `SCHEMES`, by whose order the set goes then. Sets of two schemes are never equal, and with `&`, `<=` and
    all else a `TypeError`.

    It is alternatives with `||` between them, each of members with a comma or blanks between them. A member is `*` for
    all versions, or an operator and a version r. `<r`, `<=r`, `>r` and `>=r` go by precedence, and so does all else, so
    versions that compare equal are in a set together: unlike `Requirement("=1.0")`, `VersionSet("=1.0")` has `0:1.0`.
    `=r` or `==r` is what compares equal to r, and `!=r` all else; `=r.*` or `==r.*` what has the epoch of r and begins
    with its parts, and `!=r.*` all else. `~r`, `~=r` or `~>r` is what is not before r, and has its parts but the last,
    or its only part; `^r` what is not before r, and has its parts through the first that is not zero, or all.

    `version in a` takes a `Version` or a text, and raises `InvalidVersion` for a text that is not a version. `a & b`
    has what both have, `a | b` what one of them has, `a - b` what `a` has and `b` hasn't, `a ^ b` what one of them has
    alone, and `~a` all else. `a <= b` is whether each key of `a` is in `b`,
    `a < b` whether `b` has another too, and `bool(a)` whether `a` has a key. Two that have the same keys are equal, and
    hash alike, however they were made. What is computed of subclasses is a `VersionSet`.

    >>> wanted = VersionSet(">=1.2, <2 || ^3")
    >>> "1.5" in wanted, Version("2.1") in wanted, "3.1" in wanted
    (True, False, True)
    >>> VersionSet(">=1.2") & VersionSet("<2") | VersionSet("^3") == wanted
    True
    >>> VersionSet("~1.2.3") < VersionSet("^1.2"), bool(wanted - wanted)
    (True, False)

    `intervals` has the keys from the first of each pair on that are below the second, or all where that is None. A key
    has no text of its own, so these stand in the `str` of a computed set, in hexadecimal, which is not a text of a set.

    >>> (wanted & VersionSet("<3")).intervals == ((sort_key("1.2"), sort_key("2")),)
    True
    >>> str(wanted), str(wanted & VersionSet("<3")), str(wanted & ~wanted)
    ('>=1.2, <2 || ^3', '[0003013102030132020202, 00030132020202)', 'nothing')
    >>> wanted, ~wanted & wanted
    (VersionSet('>=1.2, <2 || ^3'), <VersionSet: nothing>)
    >>> VersionSet(">=1.2,")
    Traceback (most recent call last):
    versions.InvalidVersionSet: not a set of versions: '>=1.2,'; at 6: a member is missing: * has all versions
    """

    __slots__ = ("__weakref__",)

    def __init_subclass__(cls, **named: Any) -> None:
        super().__init_subclass__(**named)
        # What is of a subclass may have attributes, and is copied with these, as it is pickled.
        for name in ("__copy__", "__deepcopy__"):
            if getattr(cls, name) is getattr(VersionSet, name):
                setattr(cls, name, None)

    @classmethod
    def all(cls, scheme: SchemeName = "mixed") -> Self:
        """The set of all versions of a scheme, `*`.

        >>> "1.0~rc1" in VersionSet.all("deb")
        True
        """
        return cls._of_form(_library.Formed("*", scheme=scheme)._form, "*", None)

    @classmethod
    def empty(cls, scheme: SchemeName = "mixed") -> Self:
        """The set of no version of a scheme.

        >>> VersionSet.empty() == VersionSet(">1 <1"), bool(VersionSet.empty("deb"))
        (True, False)
        """
        return cls._of_form((~_library.Formed("*", scheme=scheme))._form, None, None)

    @classmethod
    def union(cls, sets: Iterable[VersionSet], *, scheme: Optional[SchemeName] = None) -> VersionSet:
        """The set of what one of many sets has, of any iterable. `|` one after another would copy what grows each time.

        The sets are of one scheme, or it is a `TypeError`: of the `scheme` that is given, else of that of the first.
        `ValueError` where there is no set and no scheme.

        >>> VersionSet.union(map(VersionSet, ["=1.2", "^3", "<1"])) == VersionSet("<1 || =1.2 || ^3")
        True
        >>> VersionSet.union([], scheme="deb")
        <VersionSet: nothing, scheme='deb'>
        """
        level = list(sets)
        for each in level:
            if not isinstance(each, VersionSet):
                name = type(each).__name__
                raise TypeError(f"a set of versions is a VersionSet, and this is of type {name}: {each!r}")
        if scheme is None:
            if not level:
                raise ValueError("of no sets, the scheme is to be given")
            scheme = level[0].scheme
        # Two and two, so that each form is copied as often as the logarithm of their number.
        level.insert(0, VersionSet.empty(scheme))
        while len(level) > 1:
            pairs = zip(level[::2], level[1::2])
            level = [one | other for one, other in pairs] + level[len(level) // 2 * 2 :]
        return level[0]

    def __sub__(self, other: VersionSet) -> VersionSet:
        return self & ~other if isinstance(other, VersionSet) else NotImplemented

    def __xor__(self, other: VersionSet) -> VersionSet:
        return self - other | other - self if isinstance(other, VersionSet) else NotImplemented

    @overload
    def has_all(self, texts: Series) -> Any: ...
    @overload
    def has_all(self, texts: Texts) -> list[Optional[bool]]: ...
    def has_all(self, texts: Any) -> Any:
        """Whether the version of each of many texts is in it, and None for a text that is not a version.

        `texts` is what `kinds` takes. Of a Series of pandas the answers are a mask, as `match_all` has it:
        `table[wanted.has_all(table["version"])]`.

        >>> VersionSet("^1.2 || =3").has_all(["1.5", "2.0.0", "1..2", None, Version("3")])
        [True, False, None, None, True]
        """
        return _library.match_all(self, texts)

    def __str__(self) -> str:
        if self._text is not None:
            return self._text
        shown = (f"[{low.hex()}, {'' if high is None else high.hex()})" for low, high in self.intervals)
        return " || ".join(shown) or "nothing"

    def __repr__(self) -> str:
        name, of = type(self).__name__, shown_scheme(self.scheme)
        if self._text is not None:
            return f"{name}({self._text!r}{of})"
        return f"<{name}: {self}{of}>" if self._version is None else f"{name}.of({self._version!r}{of})"

    def __format__(self, spec: str) -> str:
        return format(str(self), spec)

    def __copy__(self) -> VersionSet:
        return self

    def __deepcopy__(self, memo: dict[int, Any]) -> VersionSet:
        return self

    def __getnewargs__(self) -> tuple[()]:
        # Without this `object` pickles nothing that has fields of C.
        return ()

    def __reduce_ex__(self, protocol: SupportsIndex) -> Union[str, tuple[Any, ...]]:
        # Protocols as in `Value`. It is made again of its form, unless a subclass has a `__reduce__` of its own.
        given = super().__reduce_ex__(max(protocol.__index__(), 2))
        if isinstance(given, str) or type(self).__reduce__ is not object.__reduce__:
            return given
        return (type(self)._of_form, (self._form, self._text, self._version), *given[2:])
