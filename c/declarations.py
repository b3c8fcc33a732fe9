#!/usr/bin/env python3
"""Reads c/versions.h, and writes what follows from its declarations:
  c/declarations.py FORM
FORM is one of these:
  calls       the names of the calls
  prototypes  those of the proved functions, for c/versions.c
  functions   the calls, which refuse null pointers and call the proved functions, for c/versions.c
  statuses    the texts of the statuses, for c/versions.c
  symbols     debian/libversions0.symbols
  rust        rust/src/declarations.rs
  each_scheme rust/src/each_scheme.rs
  python      python/versions/_schemes.py
  typescript  javascript/schemes.d.ts
  manual      the manual page versions(3), within c/versions.3.in
What isn't written as the rest of the header is an error.
"""
import re
import sys
from pathlib import Path
from typing import NamedTuple

HERE = Path(__file__).resolve().parent
FIRST = "0.1.0"  # the first version of the library that has a call, if its comment doesn't end with one: `Since 0.2.0.`
# The types of C, and those of Rust.
TYPES = {
    "const char *": "*const c_char", "char *": "*mut c_char", "const uint8_t *": "*const u8", "uint8_t *": "*mut u8",
    "const int64_t *": "*const i64", "int64_t *": "*mut i64", "uint64_t *": "*mut u64", "int32_t *": "*mut i32",
    "uint32_t *": "*mut u32", "size_t *": "*mut usize", "bool *": "*mut u8", "size_t": "usize", "uint32_t": "u32",
    "int": "c_int",
}
RETURNED = ("The statuses.", "The kinds.", "The stabilities, in their order.")  # the numbers that calls return
PARAMETER = f"({'|'.join(re.escape(kind if kind.endswith('*') else kind + ' ') for kind in TYPES)})(\\w+)"
CALL = re.compile(rf"(int |size_t |const char \*)(versions_\w+)\((void|{PARAMETER}(?:, {PARAMETER})*)\)")
ITEM = re.compile(
    r"\s*(?:#define (?P<number>VERSIONS_\w+) (?P<value>\d+) +/\* (?P<meaning>[^\n]*) \*/"
    r"|#(?:define VERSIONS_(?:H|VERSION\w*)\b|if|endif|include)[^\n]*|extern \"C\" \{|\}"
    r"|/\*(?P<comment>.*?)\*/|(?P<call>\w[^;{}#]*);)\s*",
    re.S,
)


class Call(NamedTuple):
    name: str
    result: str
    parameters: list  # the type and the name of each
    paragraphs: list

    def prototype(self, prefix=""):
        parameters = ", ".join(spaced(*parameter) for parameter in self.parameters) or "void"
        return f"{spaced(self.result, prefix + self.name)}({parameters})"

    def since(self):
        """The first version of the library that has the call."""
        found = re.fullmatch(r"Since (\d+\.\d+\.\d+)\.", self.paragraphs[-1])
        return found[1] if found else FIRST


class Header:
    """What is declared in a text that is written as versions.h."""

    def __init__(self, text):
        self.paragraphs = []  # of the comment at the head
        self.numbers = {}  # by what stands above some: the name, the value and the meaning of each
        self.calls = {}  # by their names
        above, heading, at = [], "", 0
        while at < len(text):
            item = ITEM.match(text, at)
            call = item and CALL.fullmatch(" ".join((item["call"] or "").split()))
            if not item or not self.fits(item, call, above, heading):
                raise ValueError(f"versions.h: this isn't as the rest of the header: {text[at:].strip()[:200]}")
            heading = item["number"] and (above[0] if above else heading)
            if heading:
                self.numbers.setdefault(heading, []).append((item["number"], item["value"], item["meaning"]))
            if call:
                parameters = [(kind.strip(), name) for kind, name in re.findall(PARAMETER, call[3])]
                self.calls[call[2]] = Call(call[2], call[1].strip(), parameters, above)
            above = paragraphs_of(item["comment"] or "")
            if not self.paragraphs:
                self.paragraphs, above = above, []
            at = item.end()

    def fits(self, item, call, above, heading):
        """Whether each call has a comment, and each run of numbers; what follows a comment isn't another."""
        if item["call"]:
            return call and above and call[2] not in self.calls
        return above or heading if item["number"] else not (item["comment"] and above)

    def proved(self):
        """The calls that crates/versions_c exports; the others return a text."""
        return [call for call in self.calls.values() if call.result != "const char *"]


def spaced(kind, name):
    return kind + name if kind.endswith("*") else f"{kind} {name}"


def paragraphs_of(comment):
    text = re.sub(r"^ \* ?", "", comment.strip(), flags=re.M).removeprefix("* ")
    return text.split("\n\n") if text else []


def calls(header):
    return sorted(header.calls)


def prototypes(header):
    return [f"{call.prototype('proved_')};" for call in header.proved()]


def functions(header):
    """The calls. A pointer before a length is to an array, and may be null where the length is 0; another may not be
    null. No array that is read has more bytes than one can have, and of one that is written no more count. A call that
    writes nothing returns its answer, which is no status, so it returns -VERSIONS_NULL and -VERSIONS_TOO_LONG.
    """
    made = []
    for call in header.proved():
        null, read, passed, sign = [], [], [], "-"
        pointers = [name for kind, name in call.parameters if kind.endswith("*")]
        plain = {}  # what is passed for the lengths of arrays, where no pointer is null
        for (kind, name), (next_kind, next_name) in zip(call.parameters, [*call.parameters[1:], ("", "")]):
            is_pointer, is_const = kind.endswith("*"), kind.startswith("const ")
            is_array = is_pointer and next_kind == "size_t"
            passed.append(f"{'from' if is_const else 'to'}({name})" if is_array else plain.get(name, name))
            if is_array:
                read += [(name, next_name)] if is_const else []
                plain[next_name] = next_name if is_const else f"within({next_name}, MOST({name}))"
            if is_pointer:
                null.append(f"lacks({name}, {next_name})" if is_array else f"{name} == NULL")
                sign = sign if is_const else ""
        names = [plain.get(name, name) for _, name in call.parameters]
        made += [call.prototype() + " {"]
        if names != passed:  # few calls have a null pointer, so the others take no test that they don't need
            usual = [*pointers, *(f"{length} <= MOST({array})" for array, length in read)]
            made += [f"  if ({' && '.join(usual)}) return proved_{call.name}({', '.join(names)});"]
        made += [f"  if ({' || '.join(null)}) return {sign}VERSIONS_NULL;"] if null else []
        long = " || ".join(f"{length} > MOST({array})" for array, length in read)
        made += [f"  if ({long}) return {sign}VERSIONS_TOO_LONG;"] if read else []
        made += [f"  return proved_{call.name}({', '.join(passed)});", "}"]
    return made


def statuses(header):
    """The text of a status is what the header says of it, up to a semicolon."""
    return [f'case {name}: return "{meaning.split(";")[0]}";' for name, _, meaning in header.numbers["The statuses."]]


def symbols(header):
    lines = [f" {call.name}@Base {call.since()}" for _, call in sorted(header.calls.items())]
    return ["libversions.so.0 libversions0 #MINVER#", *lines]


def rust(header):
    """The numbers and the calls, with a safe function for each call."""
    made = [
        "//! What `versions.h` declares, as `c/declarations.py rust` writes it. All unsafe code of the crate is here.", "//!",
        "//! Of each call of the library there is a safe function, without `versions_` in its name. It takes an array and its",
        "//! length as one slice or text, and returns what the call writes to single values, with its status.",
        "#![allow(dead_code)]", "", "use std::os::raw::{c_char, c_int};", "", "use crate::library::Called;",
    ]
    for heading, numbers in header.numbers.items():
        kind = "c_int" if heading in RETURNED else "u32"
        made += ["", *(f"pub const {name.removeprefix('VERSIONS_')}: {kind} = {value};" for name, value, _ in numbers)]
    made += ["", 'extern "C" {']
    for call in header.calls.values():
        parameters = ", ".join(f"{name}: {TYPES[kind]}" for kind, name in call.parameters)
        made.append(f"    fn {call.name}({parameters}) -> {TYPES[call.result]};")
    made += [
        "}", "", "// SAFETY of the calls below: each pointer to an array is passed with the length of that array, and each other",
        "// pointer is to one value. What is written overlaps with nothing, as it is borrowed mutably. The library refuses",
        "// offsets that leave their texts.",
    ]
    for call in header.proved():
        made += ["", *safe(call)]
    return made


class Scheme(NamedTuple):
    number: str
    name: str
    others: list  # what else people call it
    said: str


def schemes(header):
    """The schemes, each by the meaning of its number: its name, perhaps others in parentheses, and what it is."""
    (numbers,) = (numbers for heading, numbers in header.numbers.items() if heading.startswith("The schemes"))
    for number, _, meaning in numbers:
        name, others, said = re.fullmatch(r"(\w+)(?: \((.*?)\))?: (.*)", meaning).groups()
        yield Scheme(number.removeprefix("VERSIONS_"), name, others.split(", ") if others else [], said)


def each_scheme(header):
    """A macro of Rust with a row for each scheme."""
    made = [
        "//! The schemes that `versions.h` declares, as `c/declarations.py each_scheme` writes them.", "",
        "/// Passes to a macro of each scheme its type, its number, its name, and what it is.", "macro_rules! each_scheme {",
        "    ($then:ident) => {", "        $then! {",
    ]
    for number, name, _, said in schemes(header):
        made.append(f'            {name.capitalize()} {number} "{name}" "`{name}`: {said}."')
    return [*made, "        }", "    };", "}"]


def python(header):
    """The types of the names of schemes, for Python."""
    names, others = ([f'"{name}"' for name in names] for names in names_of(header))
    return [
        '"""The names of the schemes that `versions.h` declares, as `c/declarations.py python` writes them."""', "",
        "from typing import Literal", "", f"Scheme = Literal[{', '.join(names)}]", "",
        "# What names a scheme: also the names that people know its system by. The library takes each in any case.",
        "SchemeName = Literal[", "    Scheme,", *(f"    {other}," for other in others), "]",
    ]


def typescript(header):
    """The same for TypeScript."""
    names, others = ([f'"{name}"' for name in names] for names in names_of(header))
    return [
        "/* The names of the schemes that versions.h declares, as c/declarations.py typescript writes them. */", "",
        "/** An order of versions, with the texts that it reads: that of this project, or of another system. */",
        f"export type Scheme = {' | '.join(names)};",
        "/** What names a scheme: also the names that people know its system by. The library takes each in any case. */",
        "export type SchemeName =", "  | Scheme", *(f"  | {other}" for other in others[:-1]), f"  | {others[-1]};",
    ]


def names_of(header):
    """The names of the schemes, and then what else people call them."""
    each = list(schemes(header))
    return [scheme.name for scheme in each], [other for scheme in each for other in scheme.others]


def safe(call):
    """The safe function of a call. A `bool *` of C is a `u8`, which may get any byte without undefined behavior."""
    taken, passed, written = [], [], []
    kinds = [kind for kind, _ in call.parameters]
    for (kind, name), before, after in zip(call.parameters, ["", *kinds], [*kinds[1:], ""]):
        if kind == "size_t" and before.endswith("*"):
            continue
        if kind.endswith("*") and after == "size_t":
            constant, element = TYPES[kind].startswith("*const"), TYPES[kind].split()[1].replace("c_char", "u8")
            is_text = kind == "const char *"
            taken.append(f"{name}: {'&str' if is_text else f'&[{element}]' if constant else f'&mut [{element}]'}")
            pointer = f"{name}.as_ptr()" if constant else f"{name}.as_mut_ptr()"
            passed += [pointer + ".cast()" * ("char" in kind), f"{name}.len()"]
        elif kind.endswith("*"):
            written.append((name, TYPES[kind].split()[1]))
            passed.append(f"&mut {name}")
        else:
            taken.append(f"{name}: {TYPES[kind]}")
            passed.append(name)
    names, types = [name for name, _ in written], [kind for _, kind in written]
    one = (lambda words: words[0]) if len(written) == 1 else (lambda words: f"({', '.join(words)})")
    asked = f"unsafe {{ {call.name}({', '.join(passed)}) }}"
    yield "#[inline]"
    if not any(kind.endswith("*") and not kind.startswith("const ") for kind in kinds):
        yield from (f"pub fn {call.name[9:]}({', '.join(taken)}) -> c_int {{", f"    {asked}", "}")
        return
    yield f"pub fn {call.name[9:]}({', '.join(taken)}) -> Called<{one(types)}> {{"
    if written:
        yield f"    let {one([f'mut {name}' for name in names])} = {one(['0'] * len(names))};"
    yield f"    let status = {asked};"
    yield f'    Called {{ call: "{call.name}", status, value: {one(names)} }}'
    yield "}"


def manual(header):
    made = {"texts": [], "calls": [], "statuses": listed(header.numbers["The statuses."]), "numbers": []}
    for heading, numbers in list(header.numbers.items())[1:]:
        made["numbers"] += [".SS " + heading.rstrip("."), *listed(numbers)]
    for paragraph in header.paragraphs[1:]:
        title, text = re.fullmatch(r"(?:(\w+(?: \w+)?)\. )?(.*)", paragraph, re.S).groups()
        made["texts"] += [f".SS {title}" if title else ".PP", roff(text)]
    for call in header.calls.values():
        # Each parameter is one word, so that lines end between them.
        parameters = [rf"{spaced(kind, '')}\fI{name}\fB".replace(" ", r"\ ") for kind, name in call.parameters]
        made["calls"] += [".HP 4", rf"\fB{spaced(call.result, call.name)}({', '.join(parameters) or 'void'});\fR"]
        for paragraph in call.paragraphs:
            made["calls"] += [".IP", roff(paragraph, [name for _, name in call.parameters if "_" in name])]
    page = (HERE / "versions.3.in").read_text(encoding="ascii").splitlines()
    return sum((made[line.strip("@")] if line.startswith("@") else [line] for line in page), [])


def listed(numbers):
    return [f'.TP\n.BR {name} " ({value})"\n{roff(meaning)}' for name, value, meaning in numbers]


def roff(text, parameters=()):
    """A paragraph, with calls and numbers in bold, and in italics what is quoted, pointed to or a parameter."""
    for sign, escaped in ("\\", r"\e"), ("-", r"\-"), ("'", r"\(aq"), ("^", r"\(ha"), ("~", r"\(ti"):
        text = text.replace(sign, escaped)
    if text.startswith("    "):
        return "\n".join([".nf", *(line[4:] for line in text.splitlines()), ".fi"])
    text = re.sub(r"(\\-)?\bVERSIONS_\w+|\bversions_\w+", r"\\fB\g<0>\\fR", " ".join(text.split()))
    text = re.sub(r"^(?=\.)", r"\\&", text)  # else the line would be a request
    passed = "|".join([r"`[^`]+`", r"\*\w+", r"\b\w+\[[^]]+\]", *(rf"\b{name}\b" for name in parameters)])
    return re.sub(passed, lambda found: rf"\fI{found[0].strip('`')}\fR", text)


FORMS = {
    form.__name__: form
    for form in (calls, prototypes, functions, statuses, symbols, rust, each_scheme, python, typescript, manual)
}

if __name__ == "__main__":
    if len(sys.argv) != 2 or sys.argv[1] not in FORMS:
        sys.exit(__doc__)
    try:
        print(*FORMS[sys.argv[1]](Header((HERE / "versions.h").read_text(encoding="ascii"))), sep="\n")
    except ValueError as error:
        sys.exit(f"c/declarations.py: {error}")
