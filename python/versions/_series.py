"""Answers about a Series of pandas. Pandas isn't imported: a Series is recognised by its attributes."""

from __future__ import annotations

from typing import Any


def answers_of(texts: Any, answers: list[Any], is_mask: bool) -> Any:
    """The answers about many texts: a Series with the index of the texts where these are one, and else the list.

    A mask is of bool, and False where there is no answer.
    """
    constructor = getattr(texts, "_constructor", None)
    # Neither has all three: an Index has no index, and a DataFrame two dimensions.
    if constructor is None or getattr(texts, "ndim", None) != 1 or not hasattr(texts, "index"):
        return answers
    if is_mask:
        answers = [answer is True for answer in answers]
    return constructor(answers, index=texts.index, name=texts.name, dtype=bool if is_mask else object)
