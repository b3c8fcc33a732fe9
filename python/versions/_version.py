"""A version as a value."""

from __future__ import annotations

import enum
import functools
from typing import TYPE_CHECKING, Any, Callable, Literal, NamedTuple, Optional, SupportsIndex, TypeVar, Union, cast

from . import _library
from ._errors import InvalidVersion
from ._schemes import Scheme
from ._value import Value, shown_scheme

if TYPE_CHECKING:
    from typing_extensions import Self

Kind = Literal["ideal", "general", "complex"]


class _StabilityType(enum.EnumMeta):
    """Calls `Stability` with a number or a name. An IntEnum alone takes True and 1.0 for 1."""

    def __call__(cls, value: Any, *args: Any, **named: Any) -> Any:
        if isinstance(value, bool) or not isinstance(value, (int, str)):
            raise TypeError(_not_a_stability(value))
        return super().__call__(value, *args, **named)


class Stability(enum.IntEnum, metaclass=_StabilityType):
    """How stable a version is, from DEV up to STABLE, by the words that stand in it: by habit, not by SemVer 2.0.

    It is made of its name, as `str` has it, or its number. `ValueError` for any other text or number, and `TypeError`
    for what is neither, as True.

    >>> Stability.DEV < Stability.ALPHA < Stability.BETA < Stability.RC < Stability.STABLE
    True
    >>> str(Stability.BETA), Stability("beta") is Stability.BETA
    ('beta', True)
    >>> Stability("betta")
    Traceback (most recent call last):
    ValueError: a stability is one of dev, alpha, beta, rc, stable, and this is 'betta'
    """

    DEV = _library.DEV
    ALPHA = _library.ALPHA
    BETA = _library.BETA
    RC = _library.RC
    STABLE = _library.STABLE

    if TYPE_CHECKING:

        def __new__(cls, value: Union[int, str]) -> Self: ...

    @classmethod
    def _missing_(cls, value: object) -> Stability:
        for stability in cls:
            if str(stability) == value:
                return stability
        raise ValueError(_not_a_stability(value))

    def __str__(self) -> str:
        return self.name.lower()

    def __format__(self, spec: str) -> str:
        # That of IntEnum formats the number in some versions of Python, and the name in others.
        return format(str(self), spec)


def _not_a_stability(value: object) -> str:
    return f"a stability is one of {', '.join(map(str, Stability))}, and this is {value!r}"


# What `_library.stabilities` answers, by the numbers of the library.
STABILITIES = (None, *Stability)


class DifferenceKind(enum.Enum):
    """The places where two versions may differ first: what `kind` of a `Difference` is."""

    NONE = _library.NONE
    TIE = _library.TIE
    EPOCH = _library.EPOCH
    PART = _library.PART
    TAIL = _library.TAIL


class Difference(NamedTuple):
    """Where two versions differ first, in the order of the rules of precedence. A sentence as its `str`.

    `kind` is EPOCH, PART or TAIL, which is what follows the parts; TIE where the two compare equal, but aren't the same
    version; and NONE where they are, up to the metadata of ideal ones. `part` is the number of the part, counted from
    0, and None where they don't differ in a part first.
    """

    kind: DifferenceKind
    part: Optional[int]

    def __str__(self) -> str:
        if self.kind is DifferenceKind.PART:
            return f"they differ first in part {self.part}"
        return _DIFFERENCES[self.kind]


_DIFFERENCES = {
    DifferenceKind.NONE: "they differ at most after the plus, which doesn't count",
    DifferenceKind.TIE: "they compare equal, and are not the same version",
    DifferenceKind.EPOCH: "they differ first in the epoch",
    DifferenceKind.TAIL: "they differ first in what follows the parts",
}


Method = TypeVar("Method", bound=Callable[..., Any])


class _MethodOfMixed:
    """A method that a version of another scheme hasn't: an `AttributeError`, so that `hasattr` is False of it."""

    def __init__(self, method: Callable[..., Any]) -> None:
        functools.update_wrapper(self, method)
        self._method = method

    def __get__(self, version: Optional[Version], owner: Optional[type] = None) -> Any:
        if version is None:
            return self._method
        version._mixed
        return self._method.__get__(version, owner)


def _of_mixed(method: Method) -> Method:
    return cast(Method, _MethodOfMixed(method))


class Version(Value, _library.Keyed):
    """A version of any kind, which can't be changed. `InvalidVersion` where the text is not a version.

    It is made of a text, or of a `Version`, whose text and scheme it has then. A text is read in the `scheme` mixed, or
    in another of `SCHEMES`, by whose order the version compares then. Versions of two schemes are never equal, and to
    order them is a `TypeError`. Kind, numbers, fields, stability and what comes next are for versions of mixed, and an
    `AttributeError` of any other.

    Comparisons, `==` and hashes go by precedence, the one order of all versions, and so by `key`. The text stays as it
    was written, and `str` returns it. Equal versions may have different texts. The requirement `=` distinguishes them:
    `Requirement("=1.0")` doesn't match `0:1.0`.

    >>> Version("1.2") < Version("1.2.0-rc.1") < Version("1.2.0")
    True
    >>> Version("1.0") == Version("0:1.0"), str(Version("0:1.0"))
    (True, '0:1.0')
    >>> Version("1.2.3").kind, Version("1.2").kind, Version("1.2_3").kind
    ('ideal', 'general', 'complex')
    >>> max(map(Version, ["1.9", "1.10", "1.10rc1"]))
    Version('1.10')
    >>> Version("1.0~rc1", scheme="deb") < Version("1.0", scheme="deb") == Version("1.0-0", scheme="deb")
    True
    >>> [hasattr(Version("1.0", scheme=scheme), "next") for scheme in ("mixed", "deb")]
    [True, False]
    >>> Version("1..2")
    Traceback (most recent call last):
    versions.InvalidVersion: not a version: '1..2'; at 2: an empty part
    """

    __slots__ = ("__weakref__",)

    @classmethod
    def _in_scheme(cls, text: str, scheme: Scheme) -> Self:
        # What a pickle of another scheme than mixed holds. A subclass may have a `__new__` that takes no scheme.
        return _library.Keyed.__new__(cls, text, scheme=scheme)

    def __repr__(self) -> str:
        return f"{type(self).__name__}({self._text!r}{shown_scheme(self.scheme)})"

    def __reduce_ex__(self, protocol: SupportsIndex) -> Union[str, tuple[Any, ...]]:
        given = super().__reduce_ex__(protocol)
        if self.scheme == "mixed" or isinstance(given, str) or type(self).__reduce__ is not object.__reduce__:
            return given
        return (type(self)._in_scheme, (self._text, self.scheme), *given[2:])

    @classmethod
    def from_tag(cls, tag: Union[str, Version], prefix: Optional[str] = None) -> Self:
        """The version in a tag of git, or in another name of a release. `InvalidVersion` where there is none.

        It begins at the first digit that is at the beginning, or after a separator, or after one `v` or `V` that is at
        the beginning or after a separator. A separator is a character that is neither a letter or digit of ASCII nor a
        dot. There is none where a dot between two digits comes before that place.

        With a `prefix`, the tag has to begin with it, and the version follows it, or one `v` or `V` after it.

        >>> [str(Version.from_tag(tag)) for tag in ("v1.2.3", "release-1.2.3", "refs/tags/v1.2.3", "k8s-v1.25")]
        ['1.2.3', '1.2.3', '1.2.3', '1.25']
        >>> Version.from_tag("go1.20.3", prefix="go")
        Version('1.20.3')
        >>> Version.from_tag("go1.20.3")
        Traceback (most recent call last):
        versions.InvalidVersion: not a version: 'go1.20.3'
        """
        try:
            found = _library.in_tag(tag, prefix)
        except InvalidVersion as error:
            error._is_tag = True
            raise
        return cls(found)

    @property
    def is_ideal(self) -> bool:
        """Whether it is strict, as SemVer 2.0 describes it: of the kind "ideal"."""
        return self.kind == "ideal"

    @property
    def is_general(self) -> bool:
        """Whether it is general: of the kind "general"."""
        return self.kind == "general"

    @property
    def is_complex(self) -> bool:
        """Whether it is messy: of the kind "complex"."""
        return self.kind == "complex"

    @property
    def is_prerelease(self) -> bool:
        """Whether it is strict and has a pre-release. The text of another version doesn't say whether it is one.

        >>> Version("1.2.0-rc.1").is_prerelease, Version("1.2.0").is_prerelease, Version("1.2rc1").is_prerelease
        (True, False, False)
        """
        return _library.is_prerelease(self._mixed)

    @property
    def stability(self) -> Stability:
        """How stable it is, by the words that stand in it, as `snapshot`, `alpha` and `rc`. The lowest of them counts.

        A word is a whole run of letters, upper or lower case. Metadata of strict and general versions doesn't count.

        >>> Version("1.0-SNAPSHOT").stability.name, Version("2.0.0-beta.1").stability.name
        ('DEV', 'BETA')
        >>> Version("1.5.0-1ubuntu1").stability is Stability.STABLE, Version("1.0rc1").stability >= Stability.BETA
        (True, True)
        """
        return Stability(_library.stability(self._mixed))

    @_of_mixed
    def difference(self, other: Union[str, Version]) -> Difference:
        """Where it first differs from another version, a `Version` or a text. `InvalidVersion` where that is none.

        >>> Version("1.2.3").difference("1.3.0").part, str(Version("1.2.3").difference("1.3.0"))
        (1, 'they differ first in part 1')
        >>> [Version("1.2").difference(other).kind.name for other in ("1.2", "0:1.2", "1:1.2", "1.2-1")]
        ['NONE', 'TIE', 'EPOCH', 'TAIL']
        """
        number, part = _library.difference(self._mixed, other)
        kind = DifferenceKind(number)
        return Difference(kind, part if kind is DifferenceKind.PART else None)

    @_of_mixed
    def next(self, place: int) -> Self:
        """The least version after it that has zeros after a place, its epoch, as many parts, and nothing after them.

        Places are counted from 0. `ValueError` where there is no such version: of a messy version, of a general one of
        which a part is no number, beyond the parts, and past 4294967295.

        >>> [str(Version("1.2.3").next(place)) for place in (0, 1, 2)]
        ['2.0.0', '1.3.0', '1.2.4']
        >>> str(Version("1.2.3-rc.1").next(2)), str(Version("1:1.9").next(1))
        ('1.2.3', '1:1.10')
        >>> Version("1.2rc1").next(0)
        Traceback (most recent call last):
        ValueError: 1.2rc1 has no next version at place 0
        """
        text = _library.next(self._mixed, place)
        if text is None:
            raise ValueError(f"{self._text} has no next version at place {place}")
        return type(self)(text)

    @_of_mixed
    def next_release(self) -> Self:
        """The version that comes next at the last place of its numbers: the release that a pre-release precedes, or the
        one after a release.

        `ValueError` where there is none, as `next` has it.

        >>> str(Version("1.2.3-rc.1").next_release()), str(Version("1.2.3").next_release())
        ('1.2.3', '1.2.4')
        """
        text = _library.next_release(self._mixed)
        if text is None:
            raise ValueError(f"{self._text} has no next release")
        return type(self)(text)

    @_of_mixed
    def next_pre(self, word: Optional[str] = None) -> Self:
        """The least version after a strict one with its major and minor numbers whose pre-release is a word and one
        number from 1 on.

        A word is one chunk or more, joined by dots. Without a word, or with an empty one, it is what stands before the
        number that the version's own pre-release ends with. `ValueError` where there is no such version: of a version
        that isn't strict, without a word for one whose pre-release doesn't end with a number, for a word that isn't
        such chunks, and past the patch 4294967295.

        >>> [str(Version(text).next_pre("rc")) for text in ("1.2.3", "1.2.3-rc.1", "1.2.3-alpha.4")]
        ['1.2.4-rc.1', '1.2.3-rc.2', '1.2.3-rc.1']
        >>> str(Version("1.2.3-rc.1").next_pre())
        '1.2.3-rc.2'
        >>> Version("1.2.3").next_pre()
        Traceback (most recent call last):
        ValueError: 1.2.3 has no next pre-release
        """
        text = _library.next_pre(self._mixed, word)
        if text is None:
            of = f" of {word}" if word else ""
            raise ValueError(f"{self._text} has no next pre-release{of}")
        return type(self)(text)

    @property
    def pre_release(self) -> Optional[str]:
        """What follows the hyphen of a strict version, or None.

        >>> Version("1.2.0-rc.1+x86").pre_release, Version("1.2-1").pre_release
        ('rc.1', None)
        """
        return _library.field(self._mixed, _library.PRE_RELEASE)

    @property
    def release(self) -> Optional[str]:
        """What follows the hyphen of a general version, or None.

        >>> Version("1.2-3.1").release, Version("1.2.0-rc.1").release
        ('3.1', None)
        """
        return _library.field(self._mixed, _library.RELEASE)

    @property
    def metadata(self) -> Optional[str]:
        """What follows the plus of a strict or general version, or None.

        >>> Version("1.2.0-rc.1+x86").metadata, Version("20.0026.1_0-2+0.93").metadata
        ('x86', None)
        """
        return _library.field(self._mixed, _library.METADATA)

    @property
    def epoch(self) -> Optional[int]:
        """The number before the colon, which counts in the order, or None for a version without one.

        A strict version has none. An epoch above 9223372036854775807 gives that number.

        >>> Version("1:2.0-3").epoch, Version("8:2007f~dfsg-7").epoch, Version("2.0-3").epoch
        (1, 8, None)
        """
        return _library.epoch(self._mixed)

    @property
    def major(self) -> Optional[int]:
        """The number at place 0, as `nth` returns it.

        >>> Version("1.2.3").major, Version("1:2.0").major, Version("a.2").major
        (1, 2, None)
        """
        return self.nth(0)

    @property
    def minor(self) -> Optional[int]:
        """The number at place 1, as `nth` returns it."""
        return self.nth(1)

    @property
    def patch(self) -> Optional[int]:
        """The number at place 2, as `nth` returns it.

        >>> Version("1.2.3").patch, Version("1.2").patch
        (3, None)
        """
        return self.nth(2)

    @_of_mixed
    def nth(self, n: int) -> Optional[int]:
        """The number at a place counted from 0, or None where the version has no number there.

        A strict version has three: major, minor and patch. A general version has a place for each part between its
        epoch and its release. A part that is a number gives that number. The last part also gives the number that it
        begins with, where letters follow that number, and after them nothing or one more number. A messy version has
        a place for each part of the first section that no colon follows, and a part that is digits alone gives their
        number. `ValueError` where n is negative.

        >>> [Version("1.2.3-4").nth(n) for n in range(4)]
        [1, 2, 3, None]
        >>> Version("1.7d-15").nth(1), Version("2rc1").nth(0), Version("1:20.0026.1_0-2").nth(1)
        (7, 2, 26)
        """
        return _library.nth(self._mixed, n)
