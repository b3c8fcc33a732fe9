"""The names of the schemes that `versions.h` declares, as `c/declarations.py python` writes them."""

from typing import Literal

Scheme = Literal["mixed", "deb", "rpm", "pypi", "semver", "gem"]

# What names a scheme: also the names that people know its system by. The library takes each in any case.
SchemeName = Literal[
    Scheme,
    "debian",
    "ubuntu",
    "redhat",
    "fedora",
    "suse",
    "python",
    "pip",
    "pep440",
    "npm",
    "cargo",
    "crates.io",
    "rubygems",
    "ruby",
]
