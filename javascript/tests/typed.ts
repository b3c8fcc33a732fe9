// What the types of the package let through, and what they refuse. It is compiled and never run.
import {
  type Difference, type Interval, type Kind, type Mismatch, type Range, type Scheme, type SchemeName, type Stability,
  InvalidRequirement, InvalidVersion, InvalidVersionSet, Requirement, SCHEMES, STABILITIES, Version, VersionSet, compare, compareTotal,
  inTags, kind, kinds, major, matchAll, maxSatisfying, minSatisfying, newest, satisfies, sort, sortKey, sortKeys,
  stabilities, valid,
} from "./index.js";

const version: Version = new Version("1.2.3");
const again: Version = new Version(version);
const wanted = new Requirement(">=1.2,<2");
const of: Kind = version.kind;
const key: Uint8Array = version.key;
const number: number | null = version.epoch;
const field: string | null = version.preRelease;
const sign: -1 | 0 | 1 = compare(version, "1.2");
const is: boolean = version < again && version > again && wanted.has(version) && satisfies("1", "*");
const found: Difference = version.difference("1.3");
const why: Mismatch | null = wanted.whyNot(version);
const range: Range = wanted.range;
const stable: Stability = STABILITIES[0] ?? version.stability;
const tag: Version = Version.fromTag("v1.2", null);
const all: (Kind | null)[] = kinds(new Set(["1.2", null, undefined, version]));
const keys: (Uint8Array | null)[] = sortKeys(["1"]);
const answers: (boolean | null)[] = matchAll(wanted, ["1"]);
const texts: (string | null)[] = inTags(["v1"]);
const rated: (Stability | null)[] = stabilities([version]);
const sorted: string[] = sort(["1.2"]);
const values: Version[] = sort([version], { reverse: true });
const last: (string | null)[] = sort(["1.2", null], { invalid: "last" });
const rows: { v: string }[] = sort([{ v: "1" }], { key: (row) => row.v });
const filtered: Version[] = wanted.filter([version, null]);
const best: string | null = newest(["1"], { requirement: wanted, stability: null, tags: true });
const most: string | null = maxSatisfying(["1"], null) ?? minSatisfying(["1"], wanted) ?? valid(null);
const error: RangeError = new InvalidRequirement("x");
const text: string = new InvalidVersion("x").text;
const flaw: [number | null, string | null] = [new InvalidVersion("x-").place, new InvalidVersion("x-").reason];
const scheme: Scheme = SCHEMES[0] ?? version.scheme;
const names: SchemeName[] = ["debian", "npm", "crates.io", scheme];
const deb: Version = new Version("1.0~rc1", { scheme: names[0] ?? "deb" });
const set: VersionSet = new VersionSet(">=1.2, <2 || ^3");
const other: VersionSet = VersionSet.of("1.0", { scheme: "deb" }).and(new VersionSet(set)).or(set).not();
const hasIt: boolean = set.has("1.2") && set.matches(deb) && set.isPartOf(other) && set.meets(other) && set.equals(other);
const intervals: Interval[] = other.isEmpty ? [] : other.intervals;
const low: Uint8Array | undefined = intervals[0]?.[0];
const high: Uint8Array | null | undefined = intervals[0]?.[1];
const had: (boolean | null)[] = set.hasAll(["1", null]).concat(matchAll(set, [deb]));
const kept: Version[] = set.filter([version, null]);
const inSet: boolean = satisfies("1", set);
const wrong: { start: number; reason: string; scheme: Scheme } = new InvalidVersionSet("x", "deb");
const bySchemes: [number, Uint8Array, string[], string | null] = [
  compare("1", "2", { scheme: "deb" }), sortKey("1", { scheme }), sort(["1"], { scheme: "rpm", invalid: "last" }),
  newest(["1"], { scheme: "debian", requirement: "<2" }) ?? newest(["1"], { requirement: set, tags: true }),
];

// @ts-expect-error: a number is no text.
kind(1.2);
// @ts-expect-error: a requirement is no version.
sortKey(wanted);
// @ts-expect-error: one text is not many items that tie to it.
sort([1, 2]);
// @ts-expect-error: missing values only come last.
sort(["1", null]);
// @ts-expect-error: rows need a key.
sort([{ v: "1" }]);
// @ts-expect-error: by `<` a version is compared with a version alone, and with a text by compare.
export const below: boolean = version < "1.0";
// @ts-expect-error: the same of a text before it.
export const above: boolean = "1.0" < version;
// @ts-expect-error: `==` compares objects.
export const same: boolean = version == "1.0";
// @ts-expect-error: there is no such option.
sort(["1"], { loose: true });
// @ts-expect-error: a comparison is no option.
sort(["1"], compare);
// @ts-expect-error: there is no such stability.
newest(["1"], { stability: "final" });
// @ts-expect-error: it can't be changed.
version.kind = "ideal";
// @ts-expect-error: it may be null.
major("1").toFixed();

// @ts-expect-error: there is no such scheme.
compare("1", "2", { scheme: "debain" });
// @ts-expect-error: a scheme is an option.
sortKeys(["1"], "deb");
// @ts-expect-error: a set is computed with a set, and not with its text.
set.and("*");
// @ts-expect-error: a requirement is no set.
new VersionSet(wanted);
// @ts-expect-error: it can't be changed.
set.scheme = "deb";
// @ts-expect-error: compareTotal is of mixed alone.
compareTotal("1", "2", { scheme: "mixed" });

export { all, answers, best, error, field, filtered, found, is, key, keys, last, most, names, number, of, range, rated, rows };
export { bySchemes, had, hasIt, high, inSet, kept, low, sign, sorted, stable, tag, text, texts, values, why, wrong };
