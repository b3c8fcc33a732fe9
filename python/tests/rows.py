"""What is by hand of each scheme: the rows that tests/support/schemes.py writes, in the file that SCHEMES names."""

import os
import re

SIGNS = {"\\0": "\0", "\\n": "\n", "\\t": "\t"}
with open(os.environ["SCHEMES"], encoding="utf-8") as file:
    ROWS = [[re.sub(r"\\[0nt]", lambda sign: SIGNS[sign[0]], word) for word in line[:-1].split("\t")] for line in file]


def rows_of(kind):
    """The rows of a kind, each by its words, the scheme first."""
    found = [row[1:] for row in ROWS if row[0] == kind]
    assert found, kind
    return found
