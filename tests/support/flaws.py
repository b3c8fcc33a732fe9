"""A model of why a text is no version of a scheme: how far it could become one, by trying what may follow, and what
stands there."""
from schemes import AFTER, BLANK, CONTROL, EMPTY_PART, LATE_COLON, LEADING_ZERO, OTHER, PAST_ASCII, SCHEMES, TOO_EARLY

# What may follow the beginning of a version: numbers, letters, marks, and the rest of each word of Python's versions.
WORDS = ("alpha", "beta", "preview", "post", "rev", "dev", "rc", "v")
RESTS = sorted({word[start:] for word in WORDS for start in range(len(word))})
FOLLOWING = ("", "0", "1", "1.0", ".1", ".0.0", "0.0.0", "1.0.0", "a", "0a", ".a", "-a", "-1", "+1", ":1", "!1", "1:1", *RESTS)


def place_of(is_version, text):
    """The length of the longest beginning that something makes a version, where one of no more bytes than it has."""
    lengths = range(len(text), -1, -1)
    return next(length for length in lengths if any(is_version(text[:length] + rest.encode()) for rest in FOLLOWING))


def reason_at(scheme, text, place):
    before, at = text[:place][-1:].decode("latin-1"), text[place : place + 1].decode("latin-1")
    marks, is_zero_led = SCHEMES[scheme].marks, SCHEMES[scheme].zero_led.fullmatch(text[:place])
    hyphen, after = text[:place].partition(b"-")[1:] if ":" in marks else (b"", b"")
    if at == "" and before not in AFTER:
        found = LEADING_ZERO if is_zero_led else LATE_COLON if b":" in after else ""
        return found or (TOO_EARLY if before else "nothing")
    if at == "":
        return f"nothing after the {AFTER[before]}"
    if at in " \t":
        return BLANK
    if ord(at) < 32 or at == "\x7f":
        return CONTROL
    if ord(at) >= 128:
        return PAST_ASCII
    if at in marks and (before == "" or before in marks):
        return EMPTY_PART
    if at in "0123456789" and before == "0":
        return LEADING_ZERO
    if is_zero_led and at in marks:
        return LEADING_ZERO
    if hyphen and at == ":":
        return LATE_COLON
    return OTHER
