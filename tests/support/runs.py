"""Runs of the programs `vers` and `versions`, in which tests/refused_memory lets one allocation after another fail.

A run has FILES in its folder, and a file `full` that takes no byte. docs/VERS.md and docs/VERSIONS.md say what it does.
"""
import os
from typing import NamedTuple

from schemes import LISTED, NAMES


class Run(NamedTuple):
    """What a program is given, and does."""

    # They are divided by blanks; one with a blank in it is quoted.
    words: str
    given: str = ""
    output: str = ""
    status: int = 0
    # What it writes to standard error.
    fault: str = ""
    # The files that are there beside FILES, and those that it writes.
    files: dict = {}
    written: dict = {}


# What is told of an answer that would be another with --tags.
OTHERWISE = "versions: a version begins with v: with --tags the answer is another\n"
FILES = {
    "table": "left,1.10\nright,1.9\nup,1.10rc1\n",
    "old": "left 1.2\nright 2.0\nup 1.0\n",
    "new": "left 1.3\nright 1.9\ndown 0.1\n",
}

# Each command, and words or lines that it refuses. The last run keeps its lines, which are more than a buffer holds.
LONG_LINES = "7." * 35000 + "7\n7.2\n"
VERS = (
    Run("", "1.2.3\n1.2\n", "ideal 1.2.3\nnone\n"),
    Run("show", "1.2.3-1\n1.2.3r1\n000.007-1", "ideal 1.2.3-1\ngeneral 1.2.3r1\ncomplex 000.007-1\n"),
    Run("sort", "1.2.3.0\n1.2.3.git\n000.007-1\n1.2.3\n", "000.007-1\n1.2.3.git\n1.2.3\n1.2.3.0\n"),
    Run("match >=1.1.1,<2.0.0", "1.1.0\n1.1.1\n2.0.0\n2.0.0-rc.1\n1.5", "1.1.1\n2.0.0-rc.1\n1.5\n"),
    Run("key 1.2.3", "", "000301310203013202030133020202\n"),
    Run("sort", "1\n1 2", status=1, fault="line 2 is not a version\n"),
    Run("key 1..2", status=1, fault="not a version: 1..2\n"),
    Run("match ^7", LONG_LINES, LONG_LINES),
)

# Runs that take memory for their words alone.
VERS_WITHOUT_MEMORY = (
    Run("cmp 1.2.3 1.2.3-rc.1", "", ">\n"),
    Run("cmp 1 .", status=1, fault="not a version: .\n"),
    Run("match >=1.0,", status=1, fault="not a requirement: >=1.0,\n"),
    Run("ideal ideal", status=2, fault="usage: vers ideal, show, sort, cmp A B, key V, match R\n"),
)

HELP = """\
Sorts, filters and explains version numbers of mixed shapes

Usage: versions <COMMAND>

Commands:
  sort     Write lines in the order of their versions
  newest   Write the line with the newest version, or that of each group
  filter   Write lines whose versions are in a set
  show     Write the kind of versions, their numbers and other fields
  key      Write sort keys in hexadecimal, whose order as bytes is that of the versions
  test     End with 0 if it is so, 1 if not, and 2 if a word is wrong; write nothing
  compare  Write <, = or > between two versions
  why      Write whether each version is in a set, or which members leave it out
  implies  Write yes, and end with 0, if all that is in a set is in another; else no and 1
  meets    Write yes, and end with 0, if two sets have something in common; else no and 1
  diff     Write where two versions differ first, or what changed between two lists of names
  next     Write the version that comes next, and what stands before it in a tag

Options:
  -h, --help     Print help
  -V, --version  Print version

Status: 0 for an answer, even an empty one; 1 for a text that is no version or set, and for a no of
test, implies and meets; 2 for wrong words; 3 if there is no memory, or a file can't be read or written.
"""
SCHEMES = f"[possible values: {', '.join(NAMES)}]"
# What is said of a name that is none.
NAMES_OF_SCHEMES = f"[possible values: {LISTED}]"
HELP_OF_KEY = f"""\
Write sort keys in hexadecimal, whose order as bytes is that of the versions

Usage: versions key [OPTIONS] [VERSION]...

Arguments:
  [VERSION]...  Versions; without any, or with - alone, the lines of standard input

Options:
      --tags             The version is that of a tag, such as v1.2.0 or tool-1.2.0
      --prefix <P>       The version is what follows the prefix P
      --scheme <NAME>    Whose order it goes by; mixed unless it is given {SCHEMES}
  -z, --zero-terminated  Lines end with NUL, and not with a line feed
      --crlf             A carriage return at a line's end belongs to the end
  -h, --help             Print help

Example:
  $ versions key 1.9 1.10 | sort -c && echo in order
  in order
"""
FIELDS = """\
1:2.0-3
  kind: general
  epoch: 1
  major: 2
  minor: 0
  release: 3
  stability: stable
"""
JSON = (
    '{"version":"1.2.0-rc.1","kind":"ideal","epoch":null,"major":1,"minor":2,"patch":0,"pre_release":"rc.1",'
    '"release":null,"metadata":null,"stability":"rc"}\n'
)
NO_MEMBER = "a member is missing: * has all versions"
NO_OPERATOR = "an operator is missing before the version: = for it alone, >= for it and all later"
NO_PARTS = "versions of this scheme have no parts, which ~, ^ and .* ask for"
MORE = "\n\nFor more information, try '--help'.\n"
OPERATORS = "[possible values: <, <=, =, >=, >, lt, le, eq, ge, gt]"
STABILITIES = "[possible values: dev, alpha, beta, rc, stable]"
def none(place, reason, text, what="not a version"):
    """What a fault says of a text that is none, with a mark under a place that counts from 0."""
    return f"versions: {what}: {reason}\n  {text}\n  {' ' * place}^\n"


EMPTY_PART, BLANK, TOO_EARLY = "an empty part", "a blank", "an end too early"
CONTROL, NOT_ASCII, OTHER = "a control character", "a character past ASCII", "a character that can't stand there"
# Why the system refuses a file, by its number.
REFUSED = {number: f"{os.strerror(number)} (os error {number})" for number in (2, 20, 21, 28)}
# `newest` puts no lines before or after the others.
OF_INVALID = "[possible values: fail, skip]"
PLACES = "[possible values: major, minor, patch, release, pre, a number from 0]"
WITH_SCHEME = "error: the argument '--explain' cannot be used with '--scheme <NAME>'"
NO_COLUMN = "it is a number from 1 to 18446744073709551615, or a name"
WITH_SCHEME_COLUMN = "error: the argument '--scheme-column <COLUMN>' cannot be used with '--scheme <NAME>' or '--match <SET>'"


SEPARATOR = "'--field-separator <SEP>'"
OF_CSV = "with --csv it is one byte, but no quote and no line's end"


def tip(kind, meant):
    return f"\n\n  tip: a similar {kind} exists: '{meant}'"


# The commands with the options that decide what is allocated, and words, lines and files that they refuse.
VERSIONS = (
    Run("sort", "1.10\n1.9\n1.10rc1", "1.9\n1.10rc1\n1.10\n"),
    Run("sort -r -u -k 2 -t ,", "a,1.0\nb,1.10\nc,0:1.0\nd,1.9\n", "b,1.10\nd,1.9\na,1.0\n"),
    Run("sort -t ' /' -k 3", "a/sid 1.10 amd64\nb/sid 1.9 amd64\n", "b/sid 1.9 amd64\na/sid 1.10 amd64\n"),
    Run("sort --csv -k 2", 'a,"1.10"\r\n"b, ""c""\n",1.9\r\n', '"b, ""c""\n",1.9\r\na,"1.10"\r\n'),
    Run("newest --csv -t ';' -g 1 -k 2 --header", '"a\nb";c\n"x;y";1\n"x;y";"2"\n', '"a\nb";c\n"x;y";"2"\n'),
    Run("sort --tags", "v2.0.0-beta.1\nv1.10.0\nv1.9.0\n", "v1.9.0\nv1.10.0\nv2.0.0-beta.1\n"),
    Run("sort -z --prefix go", "go1.20.3\0go1.9\0", "go1.9\0go1.20.3\0"),
    Run("sort --invalid first", "1.1\nx y\n1.0\n", "x y\n1.0\n1.1\n"),
    Run("sort --invalid last", "1.1\nx y\n1.0\n", "1.0\n1.1\nx y\n"),
    Run("newest -n 2 -g 1 -k 2", "left 1.9\nup 2.0\nleft 1.10\nleft 1.8\n", "left 1.10\nleft 1.9\nup 2.0\n"),
    Run("newest -n 2 --match <2", "1.9\n1.11\n1.10\n2.0\n", "1.11\n1.10\n"),
    Run("newest --tags --min-stability stable", "v1.9.0\nv2.0.0-beta.1\nv1.10.0\n", "v1.10.0\n"),
    Run("sort --scheme deb", "1.0+b1\n1.0-0\n1.0\n1.0~rc1", "1.0~rc1\n1.0-0\n1.0\n1.0+b1\n"),
    Run("sort --scheme pypi -r -u -k 2", "a 1\nb 1.0.dev1\nc 1.0\nd 1.0.post1\n", "d 1.0.post1\na 1\nb 1.0.dev1\n"),
    Run("newest --scheme rpm -n 2 -g 1 -k 2", "a 1.0\nb 1\na 1.0^1\na 1.0~1\n", "a 1.0^1\na 1.0\nb 1\n"),
    Run("newest --scheme gem --prefix x-", "x-1.0.a\nx-1.0\nx-1\n", "x-1.0\n"),
    Run("sort --scheme-column 1 -k 2", "gem 1\ndeb 1\ngem 1.a\ndeb 1~\n", "gem 1.a\ngem 1\ndeb 1~\ndeb 1\n"),
    Run("newest --scheme-column 1 -k 2 -g 3", "rpm 1~ a\ngem 1.a b\nrpm 1 a\n", "rpm 1 a\ngem 1.a b\n"),
    Run("filter '>=1.2, <2'", "1.1\n1.2\nx y\n2.0\n", "1.2\n"),
    Run("filter --scheme deb '>= 1.0'", "1.0~rc1\n1.0-0\n1_0\n1:0\n", "1.0-0\n1:0\n"),
    Run("filter -v '>=1.2, <2'", "1.1\n1.2\nx y\n2.0\n", "1.1\n2.0\n"),
    Run("show 1:2.0-3", "", FIELDS),
    Run("show --json 1.2.0-rc.1", "", JSON),
    Run("key --crlf", "1.2.3\r\n", "000301310203013202030133020202\n"),
    Run("why '>=1.5, <2 || ^3' 1.4 1.6", "", "1.4 is left out by >=1.5 and by ^3\n1.6 matches\n"),
    Run("why '>2 <1' 1.4", "", "no version is in >2 <1\n1.4 is left out by >2\n"),
    Run("key --scheme semver 1.2.3-rc.1", "", "013101320133010372630002013101\n"),
    Run("why --scheme deb '>>1.0 || <<0.9' 1.0-0 1:0", "", "1.0-0 is left out by >>1.0 and by <<0.9\n1:0 matches\n"),
    Run("why --scheme gem '>1' -", "1.0.a\n1.0.1\n", "1.0.a is left out by >1\n1.0.1 matches\n"),
    Run("implies --scheme deb '>>1.0' '>=1.0-0'", "", "yes\n"),
    Run("meets --scheme rpm '<=1.2' '>=1.2-3'", "", "no\n", status=1),
    Run("implies ^1.2 '>=1, <3'", "", "yes\n"),
    Run("implies * ^1", "", "no\n", status=1),
    Run("meets ^1.2 '<1.1 || >=2'", "", "no\n", status=1),
    Run("next minor 1.2.5", "", "1.3.0\n"),
    Run("next minor --tags v1.2.5 tool-2.0", "", "v1.3.0\ntool-2.1\n"),
    Run("next release --tags v1.2.3-rc.1 tool-2.0", "", "v1.2.3\ntool-2.1\n"),
    Run("next pre --word rc --tags v1.2.3 1.2.3-beta.2", "", "v1.2.4-rc.1\n1.2.3-rc.1\n"),
    Run("sort --header", "name of it\n1.10\n1.9\n", "name of it\n1.9\n1.10\n"),
    Run("sort --header -t, -k version", "name,version\nup,1.10\nup,1.9\n", "name,version\nup,1.9\nup,1.10\n"),
    Run(
        "newest --header -k version -g name --scheme-column of",
        "name of version\nup gem 1.a\nup deb 1~\nup gem 1\n",
        "name of version\nup gem 1\nup deb 1~\n",
    ),
    Run("test 1.10 gt 1.9"),
    Run("test 1.10 ^1.2"),
    Run("test --scheme deb 9 lt 1:0"),
    Run("test --scheme semver 1.0.0-rc.1 '>=1.0.0 || <0.1.0'", status=1),
    Run("test 1.9 > 1.10", status=1),
    Run("test 2 ^1.2", status=1),
    Run("compare --scheme deb 1.0 1.0~rc1", "", ">\n"),
    Run("compare --explain 1.10 1.9", "", "1.10 > 1.9: the second number, 10 > 9\n"),
    Run("diff 1.2.3 1.2.3-rc.1", "", "tail\n"),
    Run("sort", "1.1\nx y\n1.0\n", status=1, fault=none(1, BLANK, "x y", "line 2 is not a version")),
    Run("sort", "1.2\t\n", status=1, fault=none(3, BLANK, "1.2\\t", "line 1 is not a version")),
    Run("show", "1.0\r\n", status=1, fault="versions: line 1 ends in a carriage return: --crlf\n"),
    Run("key 1..2", status=1, fault=none(2, EMPTY_PART, "1..2")),
    Run("key . 1.2.3 1..2", "", "000301310203013202030133020202\n", 1, none(0, EMPTY_PART, ".") + none(2, EMPTY_PART, "1..2")),
    Run("compare 1 .", status=1, fault=none(0, EMPTY_PART, ".")),
    Run("sort --scheme semver", "1.0.0\n1.0\n", status=1, fault=none(3, TOO_EARLY, "1.0", "line 2 is not a version")),
    Run("compare --scheme deb 1 1_0", status=1, fault=none(1, OTHER, "1_0")),
    Run("filter --scheme deb ^1.2", "1.2\n", status=1, fault=f"versions: not a set: ^1.2; at byte 2: {NO_PARTS}\n"),
    Run("compare --explain --scheme deb 1 2", status=2, fault=f"{WITH_SCHEME}{MORE}"),
    Run("sort --scheme-column 1 --scheme deb", status=2, fault=f"{WITH_SCHEME_COLUMN}{MORE}"),
    Run("sort --header -t, -k 'a\tb'", "a,b\n1,2\n", status=1, fault="versions: no column is named a\\tb\n"),
    Run("newest --header -g name -k version", "name\nx y\n", status=1, fault="versions: no column is named version\n"),
    Run("sort -k version", "version\n", status=2, fault=f"error: a column by its name needs --header{MORE}"),
    Run("sort -k 0", "1\n", status=2, fault=f"error: invalid value '0' for '--key <COLUMN>': {NO_COLUMN}{MORE}"),
    Run(
        "newest --header --group=18446744073709551616",
        status=2,
        fault=f"error: invalid value '18446744073709551616' for '--group <COLUMN>': {NO_COLUMN}{MORE}",
    ),
    Run("filter >=1.0,", "1.0\n", status=1, fault=f"versions: not a set: >=1.0,; at byte 7: {NO_MEMBER}\n"),
    Run("why >=1.0 v1.5.0", "", "v1.5.0 is left out by >=1.0\n", fault=OTHERWISE),
    Run("test 1 lt 'x y'", status=2, fault=none(1, BLANK, "x y")),
    Run("meets * 1.2", status=2, fault=f"versions: not a set: 1.2; at byte 1: {NO_OPERATOR}\n"),
    Run("next minor --word rc 1.2.3", status=2, fault=f"error: the argument '--word <W>' takes the place 'pre' alone{MORE}"),
    Run("next 3 1.2.3", status=1, fault="versions: no version comes next at that place: 1.2.3\n"),
    Run("sort -t é", status=2, fault=f"error: invalid value 'é' for {SEPARATOR}: it is ASCII, \\t or \\0{MORE}"),
    Run(
        "sort -t=",
        status=2,
        fault=f"error: invalid value '' for {SEPARATOR}: it is ASCII, \\t or \\0; an equals sign is written -t '='{MORE}",
    ),
    *(
        Run(f"sort --csv {words}", status=2, fault=f"error: invalid value '{word}' for {SEPARATOR}: {OF_CSV}{MORE}")
        for words, word in (("-t ', '", ", "), ("-t '\"'", '"'), ("-z -t '\\0'", "\\0"))
    ),
    Run(
        "sort --invalid-to others --invalid last",
        status=2,
        fault=f"error: the argument '--invalid-to <FILE>' takes '--invalid skip' alone{MORE}",
    ),
    Run(
        "test 1 gte 1",
        status=2,
        fault=f"error: invalid value 'gte' for '<OP>'\n  {OPERATORS}{tip('value', 'ge')}{MORE}",
    ),
)

# Runs that read or write files.
VERSIONS_WITH_FILES = (
    Run("sort -t, -k2 table -", "down,1.2", "down,1.2\nright,1.9\nup,1.10rc1\nleft,1.10\n"),
    Run(
        "sort --csv -k2 table open table",
        status=1,
        fault="versions: line 2 of open: its quotes never close\n",
        files={"open": 'a,1.1\n"b,1.2\n'},
    ),
    Run("diff --lists old new", "", "raised left 1.2 1.3\nlowered right 2.0 1.9\nremoved up 1.0\nadded down 0.1\n"),
    Run("diff --lists --scheme pypi old -", "left 1.2.0\nright 2.0rc1\nup 1\n", "lowered right 2.0 2.0rc1\n"),
    Run("sort --invalid-to others", "1.1\nx y\n1.0\n", "1.0\n1.1\n", written={"others": "x y\n"}),
    Run(
        "sort --invalid-to others",
        "1.1\nx y\n1.0\n",
        "1.0\n1.1\n",
        files={"others": "what was there\n"},
        written={"others": "x y\n"},
    ),
    Run("filter --min-stability stable list", "", "1.0\n", files={"list": "1.0\n1.1-beta\n"}),
    Run("sort missing", status=3, fault=f"versions: cannot be read: missing: {REFUSED[2]}\n"),
    Run("diff --lists old missing", status=3, fault=f"versions: cannot be read: missing: {REFUSED[2]}\n"),
    Run("sort --invalid-to full", "1.1\nx y\n1.0\n", status=3, fault=f"versions: cannot be written: full: {REFUSED[28]}\n"),
    Run("sort --invalid-to .", "1.0\n", status=3, fault=f"versions: cannot be written: .: {REFUSED[21]}\n"),
)

# Words of which one is nearly right. Where a similar one is looked for, letters are collected, and a list of them that
# is refused is tried again with room for fewer.
USAGE = "\n\nUsage: versions <COMMAND>"
USAGE_OF_REVERSE = "\n\nUsage: versions sort --reverse [FILE]..."
MISSPELT = (
    Run("sotr", status=2, fault=f"error: unrecognized subcommand 'sotr'{tip('subcommand', 'sort')}{USAGE}{MORE}"),
    Run("kye 1", status=2, fault=f"error: unrecognized subcommand 'kye'{tip('subcommand', 'key')}{USAGE}{MORE}"),
    Run(
        "sort --revers",
        status=2,
        fault=f"error: unexpected argument '--revers' found{tip('argument', '--reverse')}{USAGE_OF_REVERSE}{MORE}",
    ),
    Run(
        "sort --min-stability tc",
        status=2,
        fault=f"error: invalid value 'tc' for '--min-stability <LEVEL>'\n  {STABILITIES}{tip('value', 'rc')}{MORE}",
    ),
    Run(
        "sort --scheme dbe",
        status=2,
        fault=f"error: invalid value 'dbe' for '--scheme <NAME>'\n  {NAMES_OF_SCHEMES}{tip('value', 'deb')}{MORE}",
    ),
    Run(
        "newest --invalid skp",
        status=2,
        fault=f"error: invalid value 'skp' for '--invalid <WHAT>'\n  {OF_INVALID}{tip('value', 'skip')}{MORE}",
    ),
    Run(
        "next mino 1.2",
        status=2,
        fault=f"error: invalid value 'mino' for '<PLACE>'\n  {PLACES}{tip('value', 'minor')}{MORE}",
    ),
)

# What is shown of the program itself. The names in it are gathered one by one.
SHOWN = (
    Run("key --help", "", HELP_OF_KEY),
    Run("--help", "", HELP),
    Run("--version", "", "versions 0.1.0\n"),
)

# Runs of a program by how they take memory.
TABLES = (
    ("vers", "", VERS),
    ("vers", "without memory", VERS_WITHOUT_MEMORY),
    ("versions", "", VERSIONS),
    ("versions", "", VERSIONS_WITH_FILES),
    ("versions", "with retries", SHOWN),
    ("versions", "with retries", MISSPELT),
)

# The public calls of the programs' crates that may allocate, and a run that goes through each.
CALLS = {
    "vers_words::task_of": ("vers", "key 1.2.3"),
    "version_words::read_words": ("versions", "key 1..2"),
    "version_runs::Files::read": ("versions", "sort -t, -k2 table -"),
    "version_commands::serve": ("versions", "compare --explain 1.10 1.9"),
    "version_answers::quoted": ("versions", "sort"),
    "version_answers::add_show": ("versions", "show 1:2.0-3"),
    "version_answers::add_json": ("versions", "show --json 1.2.0-rc.1"),
    "version_answers::add_key_line": ("versions", "key --scheme semver 1.2.3-rc.1"),
    "version_answers::add_next": ("versions", "next minor 1.2.5"),
    "version_answers::add_head": ("versions", "why '>2 <1' 1.4"),
    "version_answers::add_why": ("versions", "why '>2 <1' 1.4"),
    "version_answers::Set::read": ("versions", "why '>2 <1' 1.4"),
    "version_answers::room_of": ("versions", "why '>2 <1' 1.4"),
    "version_answers::add_difference": ("versions", "diff 1.2.3 1.2.3-rc.1"),
    "version_answers::add_explained": ("versions", "compare --explain 1.10 1.9"),
    # What `read_words` calls, by the words that it reads or refuses.
    **{
        f"version_usage::{call}": ("versions", words)
        for call, words in (
            ("program", "key 1..2"),
            ("names_of", "sotr"),
            ("names_of_schemes", "sort --scheme dbe"),
            ("similar", "sotr"),
            ("with_tip", "sotr"),
            ("without_tip", "sort --revers"),
            ("words_of", "key 1..2"),
            ("separators_of", "sort -t, -k2 table -"),
            ("refuse_columns", "sort -k 0"),
            ("level_of", "sort --min-stability tc"),
            ("scheme_of", "sort --scheme dbe"),
            ("scheme_column_of", "sort --scheme-column 1 --scheme deb"),
            ("invalid_of", "sort --invalid-to others --invalid last"),
            ("wrong", "compare --explain --scheme deb 1 2"),
            ("wrong_column", "sort -k 0"),
            ("wrong_csv_separator", "sort --csv -t ', '"),
            ("wrong_invalid", "newest --invalid skp"),
            ("wrong_operator", "test 1 gte 1"),
            ("wrong_place", "next mino 1.2"),
            ("wrong_scheme", "sort --scheme dbe"),
            ("wrong_separators", "sort -t é"),
            ("wrong_stability", "sort --min-stability tc"),
        )
    },
}
