"""What the values have in common."""

from __future__ import annotations

from typing import Any, SupportsIndex, Union


def shown_scheme(scheme: str) -> str:
    """How the `repr` of what is of a scheme shows it: mixed isn't shown."""
    return "" if scheme == "mixed" else f", scheme={scheme!r}"


class Value:
    """A value that is made of a text. It is shown by that text; copies and pickles have its attributes too."""

    __slots__ = ()
    _text: str

    def __repr__(self) -> str:
        return f"{type(self).__name__}({self._text!r})"

    def __format__(self, spec: str) -> str:
        return format(self._text, spec)

    def __getnewargs__(self) -> tuple[str]:
        return (self._text,)

    def __reduce_ex__(self, protocol: SupportsIndex) -> Union[str, tuple[Any, ...]]:
        # The protocols 0 and 1 know neither the text nor `__slots__`.
        return super().__reduce_ex__(max(protocol.__index__(), 2))
