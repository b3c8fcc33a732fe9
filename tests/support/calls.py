"""Functions of C that stand in for the calls of versions.h."""
import sys
from pathlib import Path

sys.path.insert(0, str(Path(__file__).resolve().parent.parent.parent / "c"))
from declarations import Header  # noqa: E402


def stand_ins(header):
    """A source with the calls that return an int: each returns stand_in of its first text or bytes and their length, or
    of none where it has none.

    They are weak, so the file that has stand_in can have calls of its own in their place.
    """
    made = '#include "versions.h"\n#pragma GCC diagnostic ignored "-Wunused-parameter"\n'
    made += "int stand_in(const char *, size_t);\n"
    for call in Header(header).calls.values():
        if call.result == "int" and len(call.parameters) > 1:
            pairs = zip(call.parameters, call.parameters[1:])
            arrays = ((name, length) for (kind, name), (of, length) in pairs if "const" in kind and of == "size_t")
            text, length = next(arrays, ("NULL", "0"))
            made += f"__attribute__((weak)) {call.prototype()} {{ return stand_in((const char *){text}, {length}); }}\n"
    return made
