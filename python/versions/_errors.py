"""What the calls raise where a text is not a version, not a requirement or not a set of versions."""

from __future__ import annotations

from typing import Optional

from . import _library
from ._schemes import Scheme


class _Invalid(ValueError):
    """An error that holds a text. Its one argument is that text, so that it pickles."""

    _wanted = ""

    def __init__(self, text: str) -> None:
        super().__init__(text)
        self.text = text

    def __str__(self) -> str:
        return f"not a {self._wanted}: {self.text!r}"


class _InvalidInScheme(_Invalid):
    """The same of a text that was read in a scheme, which is its second argument where it isn't mixed."""

    def __init__(self, text: str, scheme: Scheme = "mixed") -> None:
        super().__init__(text)
        self.scheme: Scheme = scheme
        if scheme != "mixed":
            self.args = (text, scheme)

    def __str__(self) -> str:
        of = "" if self.scheme == "mixed" else f" of {self.scheme}"
        return f"not a {self._wanted}{of}: {self.text!r}"


class InvalidVersion(_InvalidInScheme):
    """A text that is not a version of the `scheme`, which `text` is.

    Up to `place` it could become one, a place of the text as Python counts them. `reason` says what stands there, or
    how the text ends there. Both are None where a tag has no version.

    >>> try:
    ...     Version("1..2")
    ... except InvalidVersion as error:
    ...     print(error)
    ...     print(error.text, error.place, error.reason)
    not a version: '1..2'; at 2: an empty part
    1..2 2 an empty part
    >>> Version("1-", scheme="deb")
    Traceback (most recent call last):
    versions.InvalidVersion: not a version of deb: '1-'; at 2: nothing after the hyphen
    """

    _wanted = "version"
    _is_tag = False

    @property
    def place(self) -> Optional[int]:
        """How many of its characters could begin a version."""
        return self._wrong()[0]

    @property
    def reason(self) -> Optional[str]:
        """What stands there, or how the text ends there: a phrase of the library's, without a full stop."""
        return self._wrong()[1]

    def _wrong(self) -> tuple[Optional[int], Optional[str]]:
        # One that was made by hand, or pickled beside another library, may name any scheme, and hold a version.
        known = not self._is_tag and self.scheme in _library.SCHEMES
        found = _library.wrong_version(self.text, self.scheme) if known else None
        return found or (None, None)

    def __str__(self) -> str:
        place, reason = self._wrong()
        wrong = "" if reason is None else f"; at {place}: {reason}"
        return f"{super().__str__()}{wrong}"


class InvalidRequirement(_Invalid):
    """A text that is neither a requirement nor a list of them, which `text` is.

    Its members are the pieces between the commas. The first that is wrong is `member`, and begins at `start`, a place
    of the text as Python counts them. A piece with a lone surrogate is wrong.

    >>> try:
    ...     Requirement(">=1.0, <2.0")
    ... except InvalidRequirement as error:
    ...     print(error)
    ...     print(repr(error.member), error.start)
    not a requirement: '>=1.0, <2.0'; its member ' <2.0' at 6 is wrong; a list looks like '>=1.2,<2'
    ' <2.0' 6
    """

    _wanted = "requirement"

    @property
    def start(self) -> int:
        """The place of the first member that is wrong."""
        return self._place()[0]

    @property
    def member(self) -> str:
        """The first member that is wrong, which may be empty."""
        start, end = self._place()
        return self.text[start:end]

    def _place(self) -> tuple[int, int]:
        return _library.wrong_member(self.text) or (0, len(self.text))

    def __str__(self) -> str:
        start, member = self.start, self.member
        wrong = "" if member == self.text else f"; its member {member!r} at {start} is wrong"
        return f"{super().__str__()}{wrong}; a list looks like '>=1.2,<2'"


class InvalidVersionSet(_InvalidInScheme):
    """A text that is not a set of versions of the `scheme`, which `text` is.

    Its first wrong piece begins at `start`, a place of the text as Python counts them; at its end where something is
    missing there. `reason` says why it is wrong, and what to write. A piece with a lone surrogate is wrong.

    >>> try:
    ...     VersionSet(">=1.2, 2")
    ... except InvalidVersionSet as error:
    ...     print(error)
    ...     print(error.start, error.reason)
    not a set of versions: '>=1.2, 2'; at 7: an operator is missing before the version: = for it alone, >= for it and all later
    7 an operator is missing before the version: = for it alone, >= for it and all later
    """

    _wanted = "set of versions"

    @property
    def start(self) -> int:
        """The place where the first wrong piece begins."""
        return self._wrong()[0]

    @property
    def reason(self) -> str:
        """Why that piece is wrong: a sentence of the library's, without a full stop."""
        return self._wrong()[1]

    def _wrong(self) -> tuple[int, str]:
        # One that was made by hand, or pickled beside a newer library, may name any scheme.
        found = _library.wrong_set(self.text, self.scheme) if self.scheme in _library.SCHEMES else None
        return found or (0, "")

    def __str__(self) -> str:
        start, reason = self._wrong()
        wrong = f"; at {start}: {reason}" if reason else ""
        return f"{super().__str__()}{wrong}"
