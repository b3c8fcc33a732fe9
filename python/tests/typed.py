"""What a type checker is to find right: `mypy --strict` reads it beside the installed package, and nothing runs it."""

from __future__ import annotations

from typing import Optional, Union

import versions
from versions import Difference, DifferenceKind, Mismatch, Reason, Stability
from versions import InvalidRequirement, InvalidVersion, InvalidVersionSet, Kind, Requirement, Scheme, SchemeName
from versions import Version, VersionSet

version = Version("1.2.3")
kind: Kind = version.kind
kinds: list[Optional[Kind]] = versions.kinds(["1.2", None])
key: bytes = version.key
keys: list[Optional[bytes]] = versions.sort_keys(text for text in ("1.2", "1.3"))
place: Optional[int] = version.nth(0)
newest: Version = max([version, Version("1.3")])
in_order: list[Version] = sorted({version, newest}, reverse=True)
texts: list[str] = sorted(["1.2"], key=versions.sort_key)
order: int = versions.compare("1.2", "1.3") + versions.compare_total("1.2", "1.3")
wanted = Requirement("^1.2.3")
kept: list[Version] = wanted.filter(in_order)
named: list[str] = wanted.filter(texts)
asked: bool = wanted.matches(version) or wanted.matches("1.2") or version in wanted
answers: list[Optional[bool]] = versions.match_all(wanted, ["1.2", version, None])
parts: list[Optional[int]] = [version.epoch, version.major, version.minor, version.patch]
prerelease: Optional[bool] = version.is_prerelease
stability: Stability = version.stability
is_less: bool = stability < Stability.RC
stabilities: list[Optional[Stability]] = versions.stabilities(["1.2", version, None])
from_tag: Version = Version.from_tag("v1.2", prefix=None)
in_tags: list[Optional[str]] = versions.in_tags(["v1.2", version, None])
difference: Difference = version.difference("1.3")
differs: tuple[DifferenceKind, Optional[int]] = version.difference(newest)
why_not: Optional[Mismatch] = wanted.why_not("1.2") or wanted.why_not(version)
told: tuple[str, str, int, int, Reason] = why_not or ("1.4", ">=1.5", 0, 5, Reason.BELOW)
conflict: Optional[tuple[str, str]] = wanted.conflict
following: Version = version.next(1)
release: Version = version.next_release()
candidate: Version = release.next_pre("rc").next_pre().next_pre(word=None)
newest_text: Optional[str] = versions.newest(["1.2", None], ">=1", Stability.RC, tags=True)
newest_beta: Optional[str] = versions.newest(["1.2"], stability="beta")
stability_of_name: Stability = Stability("rc")
newest_version: Optional[Version] = versions.newest([version, newest], requirement=wanted)
mixed: list[Union[str, Version]] = ["1.2", version]
newest_of_both: Union[str, Version, None] = versions.newest(mixed)
sorted_texts: list[str] = versions.sorted(text for text in texts)
sorted_versions: list[Version] = versions.sorted([version, newest])
of_both: list[Union[str, Version]] = versions.sorted(["1.2", version])
last_texts: list[str] = versions.sorted(texts, invalid="last", reverse=True)
with_missing: list[Optional[str]] = versions.sorted(["1.2", None], invalid="last")
with_all: list[Union[str, Version, None]] = versions.sorted(["1.2", version, None], invalid="last")
rows: list[tuple[int, str]] = versions.sorted([(1, "1.2")], key=lambda row: row[1], reverse=True)
rows_last: list[tuple[Optional[str]]] = versions.sorted([("1.2",), (None,)], key=lambda row: row[0], invalid="last")
in_set: VersionSet = VersionSet("^1.2") & ~VersionSet("=1.3") | VersionSet.of(version) | VersionSet.of("1.2")
of_set: VersionSet = VersionSet(in_set) - VersionSet.all("deb") ^ VersionSet.empty()
of_sets: VersionSet = VersionSet.union([in_set]) | VersionSet.union(iter([in_set]), scheme="deb")
in_sets: bool = "1.2" in in_set or version in in_set or in_set <= ~in_set or in_set.isdisjoint(in_set) or bool(in_set)
has_all: list[Optional[bool]] = in_set.has_all(["1.2", version, None]) + versions.match_all(in_set, ["1.2"])
kept_versions: list[Version] = in_set.filter(in_order)
kept_texts: list[str] = in_set.filter(["1.2", None])
intervals: tuple[tuple[bytes, Optional[bytes]], ...] = in_set.intervals
newest_row: Optional[tuple[int, Optional[str]]] = versions.newest([(1, "1.2"), (2, None)], key=lambda row: row[1])
newest_row_of_deb: Optional[int] = versions.newest([1, 2], ">1", key=str, scheme="deb")
newest_in_set: Optional[str] = versions.newest(["1.2", None], in_set, tags=True)
no_set = InvalidVersionSet("1")
why_no_set: tuple[str, int, str] = (no_set.text, no_set.start, no_set.reason)
sets: dict[VersionSet, str] = {in_set: str(in_set)}
of_versions: Optional[Kind] = versions.kind(version)
key_of_version: bytes = versions.sort_key(version)
order_of_versions: int = versions.compare(version, "1.3") + versions.compare_total("1.2", version)
again: Version = Version(version)
text: str = InvalidVersion("1..2").text + InvalidRequirement("1").text + versions.__version__
why_none: tuple[Optional[int], Optional[str]] = (InvalidVersion("1..2").place, InvalidVersion("1..2").reason)
errors: list[type[ValueError]] = [InvalidVersion, InvalidRequirement, InvalidVersionSet]
schemes: tuple[Scheme, ...] = versions.SCHEMES
of_deb: Version = Version("1.0", scheme="deb")
scheme: Scheme = of_deb.scheme
scheme = VersionSet("*", scheme=schemes[0]).scheme or InvalidVersion("1-", scheme).scheme
of_people: list[SchemeName] = ["debian", "npm", "crates.io", scheme]
of_debian: Version = Version(of_deb, scheme="debian") or Version(of_deb, scheme=of_people[0])
key_of_deb: bytes = versions.sort_key(of_deb, scheme="deb")
keys_of_deb: list[Optional[bytes]] = versions.sort_keys(["1.0", None], scheme="deb")
order_of_deb: int = versions.compare(of_deb, "1.0", scheme="deb")
newest_of_deb: Optional[str] = versions.newest(["1.0", None], ">=1", scheme="deb")
sorted_of_deb: list[str] = versions.sorted(["1.0"], scheme="deb")
rows_of_deb: list[tuple[int, str]] = versions.sorted([(1, "1")], key=lambda row: row[1], invalid="last", scheme="deb")
set_of_deb: VersionSet = VersionSet.of(of_deb, scheme="deb") | VersionSet(">=1", scheme="deb")


class Series:
    """As one of pandas."""

    index: list[int] = []
    iloc: list[str] = []
    name: str = ""


# Any, but no list.
column: Series = in_set.has_all(Series())
columns: list[Series] = [versions.kinds(Series()), versions.sort_keys(Series(), scheme="deb")]
columns += [versions.match_all("*", Series()), versions.stabilities(Series()), versions.in_tags(Series())]


class Mine(Version):
    pass


mine: Mine = Mine("1.2")
mine_following: Mine = mine.next(0)
mine_candidate: Mine = mine.next_release().next_pre("rc")
mine_of_tag: Mine = Mine.from_tag("v1.2")
below: bool = mine < version


class MySet(VersionSet):
    pass


my_set: MySet = MySet.of("1.2")
my_sets: list[MySet] = [MySet.all(), MySet.empty("deb"), MySet(in_set)]

# What is wrong at run time is an error of the type checker, too: each comment is one that it must need.
version < "1.2"  # type: ignore[operator]
"1.2" >= version  # type: ignore[operator]
versions.kind(None)  # type: ignore[arg-type]
Version(1.2)  # type: ignore[arg-type]
versions.sorted(["1.2", None])  # type: ignore[type-var]
versions.sorted([("1.2",)])  # type: ignore[type-var]
versions.sorted([1], key=lambda row: row)  # type: ignore[arg-type,return-value]
versions.match_all(version, [])  # type: ignore[call-overload]
versions.kinds([1.2])  # type: ignore[list-item]
wanted.why_not(1.2)  # type: ignore[arg-type]
version.difference(1.2)  # type: ignore[arg-type]
versions.newest([1.2])  # type: ignore[type-var]
versions.newest([1], key=lambda row: row)  # type: ignore[arg-type,return-value]
versions.newest(["1.2"], stability="betta")  # type: ignore[call-overload]
versions.newest(["1.2"], stability=True)  # type: ignore[call-overload]
version.key = b""  # type: ignore[misc]
VersionSet(version)  # type: ignore[arg-type]
VersionSet.of(1.2)  # type: ignore[arg-type]
Version("1.0", "deb")  # type: ignore[misc]
versions.compare("1", "2", scheme=2)  # type: ignore[arg-type]
versions.compare("1", "2", scheme="debain")  # type: ignore[arg-type]
Version("1", scheme="Deb")  # type: ignore[arg-type]
version.next("1")  # type: ignore[arg-type]
VersionSet.union(["*"])  # type: ignore[list-item]
in_set - "1.2"  # type: ignore[operator]
in_set ^ wanted  # type: ignore[operator]
versions.compare_total("1", "2", scheme="deb")  # type: ignore[call-arg]
InvalidRequirement("1", "deb")  # type: ignore[call-arg]
in_set & wanted  # type: ignore[operator]
in_set | "1.2"  # type: ignore[operator]
in_set <= {"1.2"}  # type: ignore[operator]
in_set.isdisjoint(["1.2"])  # type: ignore[arg-type]
1.2 in in_set  # type: ignore[operator]
in_set.has_all([1.2])  # type: ignore[list-item]
in_set.intervals = ()  # type: ignore[misc]
my_set = my_set & in_set  # type: ignore[assignment]
