"""Version numbers, parsed, ordered and matched by a library that is proved.

>>> import versions
>>> versions.sorted(["1.10", "1.9", "1.10rc1"])
['1.9', '1.10rc1', '1.10']
>>> versions.Version("1.0") == versions.Version("0:1.0")
True
>>> "1.3.0" in versions.Requirement("^1.2.0"), "3" in versions.VersionSet(">=1.2, <2 || ^3")
(True, True)

The package has no state, and any thread may make any call. While the library works on more than 64 KiB of texts, other
threads of Python go on.
"""

from ._errors import InvalidRequirement, InvalidVersion, InvalidVersionSet
from ._library import (
    SCHEMES,
    __version__,
    compare,
    compare_total,
    in_tags,
    kind,
    kinds,
    match_all,
    newest,
    sort_key,
    sort_keys,
    stabilities,
)
from ._library import sorted as sorted
from ._requirement import Mismatch, Range, Reason, Requirement
from ._schemes import Scheme, SchemeName
from ._set import VersionSet
from ._version import Difference, DifferenceKind, Kind, Stability, Version

# Without `sorted`, which would hide Python's own from `from versions import *`.
__all__ = [
    "Difference",
    "DifferenceKind",
    "InvalidRequirement",
    "InvalidVersion",
    "InvalidVersionSet",
    "Kind",
    "Mismatch",
    "Range",
    "Reason",
    "Requirement",
    "SCHEMES",
    "Scheme",
    "SchemeName",
    "Stability",
    "Version",
    "VersionSet",
    "__version__",
    "compare",
    "compare_total",
    "in_tags",
    "kind",
    "kinds",
    "match_all",
    "newest",
    "sort_key",
    "sort_keys",
    "stabilities",
]

# They pickle and are shown under the name by which they are used.
for _name in (*__all__, "sorted"):
    if callable(globals()[_name]) and _name not in ("Kind", "Scheme", "SchemeName"):
        globals()[_name].__module__ = __name__
del _name
