#!/usr/bin/python3
"""Chooses versions of packages that fit together, by Debian's python3-resolvelib, in the order of any scheme:

    resolver.py SCHEME INDEX NAME SET [NAME SET ..]

INDEX is a file of JSON: the versions of each package, and what each needs, names with sets of versions. SET is a set of
versions of NAME. The highest version is tried first. What is chosen goes to standard output. Standard error has each
version that is left out, and which two requirements exclude each other. The status is 1 if no versions fit together,
and 2 if the words or the index are wrong.
"""
import json
import sys
from collections import namedtuple
from itertools import chain, combinations

import resolvelib
from versions import Version, VersionSet

# What resolvelib calls a candidate, and a requirement.
Package = namedtuple("Package", "name version needs")
Need = namedtuple("Need", "name versions")


class Index(resolvelib.AbstractProvider):
    """The packages that there are, with versions of one scheme."""

    def __init__(self, packages, scheme):
        self.scheme, self.packages = scheme, {}
        for name, versions in packages.items():
            made = (Package(name, Version(it, scheme=scheme), self.needs(versions[it].items())) for it in versions)
            self.packages[name] = sorted(made, key=lambda package: package.version, reverse=True)

    def needs(self, pairs):
        return tuple(Need(name, VersionSet(text, scheme=self.scheme)) for name, text in pairs)

    def that_meet(self, name, needs):
        """The packages of a name that meet all of these needs, the highest first."""
        return [it for it in self.packages.get(name, ()) if all(it.version in need.versions for need in needs)]

    def why(self, causes):
        """Which one of these needs nothing meets, or else which two exclude each other."""
        for few in chain(combinations(causes, 1), combinations(causes, 2)):
            names = {cause.requirement.name for cause in few}
            if len(names) == 1 and not self.that_meet(*names, [cause.requirement for cause in few]):
                said = " and ".join(f"{shown(need)} of {shown(parent)}" for need, parent in few)
                return f"{said} exclude each other" if len(few) == 2 else f"there is no {said}"
        return "all that is left out above"

    def identify(self, requirement_or_candidate):
        return requirement_or_candidate.name

    def get_preference(self, identifier, resolutions, candidates, information, backtrack_causes):
        return sum(1 for _ in candidates[identifier])  # what has the fewest candidates comes first

    def find_matches(self, identifier, requirements, incompatibilities):
        left_out = {*incompatibilities[identifier]}
        return [it for it in self.that_meet(identifier, [*requirements[identifier]]) if it not in left_out]

    def is_satisfied_by(self, requirement, candidate):
        return candidate.version in requirement.versions

    def get_dependencies(self, candidate):
        return candidate.needs


class Teller(resolvelib.BaseReporter):
    """Tells why a version is left out."""

    def __init__(self, index):
        self.index = index

    def rejecting_candidate(self, criterion, candidate):
        print(f"{shown(candidate)} is left out: {self.index.why(criterion.information)}", file=sys.stderr)


def shown(it):
    return f"{it[0]} {it[1]}" if it else "what is asked for"


def resolve(scheme, path, *asked):
    with open(path, encoding="utf-8") as file:
        index = Index(json.load(file), scheme)
    needs = index.needs(zip(asked[::2], asked[1::2]))
    try:
        chosen = resolvelib.Resolver(index, Teller(index)).resolve(needs, max_rounds=10_000).mapping
    except resolvelib.ResolutionImpossible as impossible:
        print(f"no versions fit together: {index.why(impossible.causes)}", file=sys.stderr)
        return 1
    print(*sorted(map(shown, chosen.values())), sep="\n")
    return 0


if __name__ == "__main__":
    if len(sys.argv) < 5 or len(sys.argv) % 2 == 0:
        print(__doc__, file=sys.stderr)
        sys.exit(2)
    try:
        sys.exit(resolve(*sys.argv[1:]))
    except (OSError, ValueError, resolvelib.ResolutionTooDeep) as wrong:
        print(f"resolver.py: {wrong}", file=sys.stderr)
        sys.exit(2)
