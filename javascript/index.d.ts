/**
 * Version numbers, parsed, ordered and matched by a library that is proved.
 *
 * A text is a string; a `Version` stands for its text in every call, and a `Requirement` for its own. Anything else is
 * a TypeError, as is an option of another name or type. A text with a lone surrogate is not a version, and a member with
 * one is not a requirement and not in a set.
 *
 * A call is of one scheme, mixed unless its options name another: its texts are read in that, and a `Version` or a
 * `VersionSet` of another scheme is a TypeError.
 */

import type { Scheme, SchemeName } from "./schemes.js";

export type { Scheme, SchemeName };
/** strict, as SemVer 2.0 describes it, general, or messy */
export type Kind = "ideal" | "general" | "complex";
/** How stable a version is, by the words in it: by habit, not by SemVer 2.0. */
export type Stability = "dev" | "alpha" | "beta" | "rc" | "stable";
export type Text = string | Version;
/** What stands for no text: the calls for many texts answer null for it, as for a text that is not a version. */
export type Missing = null | undefined;
export type Texts = Iterable<Text | Missing>;

/** The version of this package. */
export const version: string;
/** The stabilities, from the least stable on. */
export const STABILITIES: readonly Stability[];
/** The names of all schemes. */
export const SCHEMES: readonly Scheme[];

export interface SchemeOptions {
  /** The scheme of the call, mixed where it isn't given. RangeError for a name of none. */
  scheme?: SchemeName;
}

/** A text is not a version of the scheme, or a tag has none. */
export class InvalidVersion extends RangeError {
  constructor(text: string, scheme?: Scheme, message?: string);
  readonly text: string;
  readonly scheme: Scheme;
  /** How far it could become a version, a place as strings count places; null of a tag, and of a version. */
  readonly place: number | null;
  /** What stands at that place, or how the text ends there, without a full stop; null as the place is. */
  readonly reason: string | null;
}

/** A text is neither a requirement nor a list of them. Its members are the pieces between the commas. */
export class InvalidRequirement extends RangeError {
  constructor(text: string);
  readonly text: string;
  /** The first wrong member. */
  readonly member: string;
  /** The place in the text where it begins, as strings count places. */
  readonly start: number;
}

/** A text is not a set of versions of the scheme. */
export class InvalidVersionSet extends RangeError {
  constructor(text: string, scheme?: Scheme);
  readonly text: string;
  readonly scheme: Scheme;
  /** The place where its first wrong piece begins, as strings count places; the end where something is missing there. */
  readonly start: number;
  /** Why that piece is wrong, and what to write: a sentence without a full stop. */
  readonly reason: string;
}

/**
 * A version of any kind, which can't be changed. It keeps its key and its kind.
 *
 * `a < b` and `a > b` go by precedence, the one order of all versions; beside a text they mean nothing, so take `compare`.
 * `==` compares objects, so take `equals`.
 *
 * A version of another scheme than mixed has a text, a key and its scheme, and compares with versions of its own. Its
 * kind, numbers, fields, stability, difference and what comes next are a TypeError, and so are `<` and `>`, which can't
 * see the scheme of the other side.
 */
export class Version {
  /** InvalidVersion for a text that is not a version of the scheme. Of a `Version` of it, it takes the text. */
  constructor(text: Text, options?: SchemeOptions);

  /**
   * The version in a tag of git, or in another name of a release: 1.2.3 in v1.2.3. With a prefix, the tag has to begin
   * with it, and the version follows it. InvalidVersion where there is none, which says whether the prefix is there.
   */
  static fromTag(tag: Text, prefix?: string | null): Version;
  /** As the function `compare`. */
  static compare(a: Text, b: Text, options?: SchemeOptions): -1 | 0 | 1;

  readonly scheme: Scheme;
  readonly kind: Kind;
  /** The sort key, a copy. Keys compare as bytes as their versions do by precedence. */
  readonly key: Uint8Array;
  readonly isIdeal: boolean;
  readonly isGeneral: boolean;
  readonly isComplex: boolean;
  /** Whether it is strict and has a pre-release. The text of another version doesn't say whether it is one. */
  readonly isPrerelease: boolean;
  readonly stability: Stability;
  /** `nth(0)` */
  readonly major: number | null;
  /** `nth(1)` */
  readonly minor: number | null;
  /** `nth(2)` */
  readonly patch: number | null;
  /** The number before the colon, or null. A larger one than Number.MAX_SAFE_INTEGER gives that number. */
  readonly epoch: number | null;
  /** What follows the hyphen of a strict version, or null. */
  readonly preRelease: string | null;
  /** What follows the hyphen of a general version, or null. */
  readonly release: string | null;
  /** What follows the plus of a strict or general version, or null. */
  readonly metadata: string | null;

  /** The number at a place from 0 on, or null where the version has none there. */
  nth(n: number): number | null;
  /** The version that comes next at a place from 0 on: 1.3.0 after 1.2.3 at place 1. RangeError where there is none. */
  next(place: number): Version;
  /** The version that comes next at the last place: 1.2.3 after 1.2.3-rc.1. RangeError where there is none. */
  nextRelease(): Version;
  /**
   * The least version after it with its major and minor numbers whose pre-release is a word and one number from 1 on:
   * 1.2.4-rc.1 after 1.2.3 for rc. Without a word, or with an empty one, that of its own pre-release: 1.2.3-rc.2 after
   * 1.2.3-rc.1. RangeError where there is none, as of a version that isn't strict.
   */
  nextPre(word?: string | null): Version;
  /** Where it first differs from another version. */
  difference(other: Text): Difference;
  /** -1, 0 or 1, by the order of its scheme. InvalidVersion for a text that is not a version of it. */
  compare(other: Text): -1 | 0 | 1;
  /** Whether the two compare equal: 1.0 equals 0:1.0. InvalidVersion for a text that is not a version of its scheme. */
  equals(other: Text): boolean;
  /** The text as it was written. */
  toString(): string;
  toJSON(): string;
  /** The key as a string where two versions of mixed are compared by `<`, and otherwise the text. */
  [Symbol.toPrimitive](hint: string): string;
}

/** Where two versions differ first. `part` is the number of the part, from 0 on, where they differ in one. */
export class Difference {
  private constructor();
  readonly kind: "none" | "tie" | "epoch" | "part" | "tail";
  readonly part: number | null;
  /** A sentence. */
  toString(): string;
}

/** Why a requirement doesn't match a version. `member` is its first member that doesn't, from `start` up to `end`. */
export class Mismatch {
  private constructor();
  readonly version: string;
  readonly member: string;
  readonly start: number;
  readonly end: number;
  /** The first of these that is so: another kind, below or above what it asks for, or other parts or fields. */
  readonly reason: "kind" | "below" | "above" | "parts";
  /** A sentence. */
  toString(): string;
}

/**
 * The range of keys that a requirement asks for. What it matches has one of the kinds, and a key from `low` on and,
 * unless `high` is null, below `high`. If the range is exact, it matches every such version; otherwise ask it.
 */
export interface Range {
  readonly low: Uint8Array;
  readonly high: Uint8Array | null;
  readonly kinds: Kind[];
  readonly exact: boolean;
}

/** A requirement, as ^1.2.3, or a list of them with commas between, which matches what each member matches. */
export class Requirement {
  /** InvalidRequirement for a text that is not a requirement. */
  constructor(text: string | Requirement);

  readonly low: Uint8Array;
  readonly high: Uint8Array | null;
  readonly range: Range;
  /** Two members that exclude each other, so that nothing matches, or null. */
  readonly conflict: [string, string] | null;

  /** Whether it matches a version. InvalidVersion for a text that is not a version. */
  matches(version: Text): boolean;
  /** The same, but false for a text that is not a version. */
  has(version: Text): boolean;
  /** The items that it matches, in their order. */
  filter<Item extends Text>(versions: Iterable<Item | Missing>): Item[];
  /** Why it doesn't match a version, or null where it does. */
  whyNot(version: Text): Mismatch | null;
  toString(): string;
  toJSON(): string;
}

/** An interval of keys: those from the first on and below the second, or all from the first on where that is null. */
export type Interval = [low: Uint8Array, high: Uint8Array | null];

/**
 * A set of versions, as `>=1.2, <2 || ^3`, which can't be changed. It is read once, and goes by the order of its scheme
 * alone: of versions that compare equal all are in it, or none. A set is of keys, so one that has a key may have no
 * version, as `>1.2, <1.2-0`. What another set is computed with is of the same scheme, or a TypeError.
 */
export class VersionSet {
  /** InvalidVersionSet for a text that is not a set of the scheme. Of a `VersionSet` of it, it makes the same set. */
  constructor(text: string | VersionSet, options?: SchemeOptions);

  /** The set of what ties with a version, which may be any. InvalidVersion for a text that is not a version. */
  static of(version: Text, options?: SchemeOptions): VersionSet;

  readonly scheme: Scheme;
  /** Whether it has no key, and so no version. */
  readonly isEmpty: boolean;
  /** What it has, as intervals of keys, which rise. The keys are copies. */
  readonly intervals: Interval[];

  /** Whether it has a version. InvalidVersion for a text that is not a version of its scheme. */
  matches(version: Text): boolean;
  /** The same, but false for a text that is not a version. */
  has(version: Text): boolean;
  /** Whether it has the version of each text, or null for a text that is not a version. */
  hasAll(texts: Texts): (boolean | null)[];
  /** The items that it has, in their order. */
  filter<Item extends Text>(versions: Iterable<Item | Missing>): Item[];
  /** What both have. */
  and(other: VersionSet): VersionSet;
  /** What one of them has, or both. */
  or(other: VersionSet): VersionSet;
  /** All else. */
  not(): VersionSet;
  /** Whether another set has each of its keys, and so each of its versions. */
  isPartOf(other: VersionSet): boolean;
  /** Whether a key is in both. If not, no version is. */
  meets(other: VersionSet): boolean;
  /** Whether two have the same keys, however they were made. */
  equals(other: VersionSet): boolean;
  /** The text as it was written. A set made by a call has none, and shows its intervals, which are no text of a set. */
  toString(): string;
  toJSON(): string;
}

/** The kind of a text, or null where it is not a version. */
export function kind(text: Text): Kind | null;
/** The sort key of a version: to store, to index and to sort by, as bytes. Keys of two schemes don't compare. */
export function sortKey(text: Text, options?: SchemeOptions): Uint8Array;
/** -1, 0 or 1, by precedence, or by the order of another scheme. */
export function compare(a: Text, b: Text, options?: SchemeOptions): -1 | 0 | 1;
/** By precedence, but it breaks ties: 0 only for the same version, up to the metadata of strict ones. */
export function compareTotal(a: Text, b: Text): -1 | 0 | 1;

export function kinds(texts: Texts): (Kind | null)[];
export function sortKeys(texts: Texts, options?: SchemeOptions): (Uint8Array | null)[];
export function stabilities(texts: Texts): (Stability | null)[];
/** The version in each tag, as `Version.fromTag` finds it. */
export function inTags(texts: Texts): (string | null)[];
/** Whether each matches. Of a `VersionSet` it is `hasAll`. */
export function matchAll(requirement: string | Requirement | VersionSet, texts: Texts): (boolean | null)[];

export interface NewestOptions extends SchemeOptions {
  /** What the version has to match: of another scheme than mixed a `VersionSet`, or the text of one. */
  requirement?: string | Requirement | VersionSet | null;
  /** How stable the version has to be at least; in mixed alone, else a RangeError. */
  stability?: Stability | null;
  /** Whether the version of a text is the one in it as in a tag; in mixed alone, else a RangeError. */
  tags?: boolean;
}
/** The newest item that is asked for, the first of those that tie, or null. */
export function newest<Item extends Text>(texts: Iterable<Item | Missing>, options?: NewestOptions): Item | null;

export interface SortOptions<Item, Key> extends SchemeOptions {
  /** The text or `Version` by which an item is sorted. */
  key?: ((item: Item) => Key) | null;
  /** Those that tie keep their order in reverse too. */
  reverse?: boolean;
  /** "last" puts texts that are not versions and missing values last, in their order. Otherwise they throw. */
  invalid?: "throw" | "last";
}
/**
 * A new array in the order of `compareTotal`, or of another scheme, where what ties keeps its order. InvalidVersion
 * with the first text that is not a version.
 */
export function sort<Item extends Text>(texts: Iterable<Item>, options?: SortOptions<Item, Text>): Item[];
export function sort<Item extends Text | Missing>(
  texts: Iterable<Item>,
  options: SortOptions<Item, Text | Missing> & { invalid: "last" },
): Item[];
export function sort<Item>(
  items: Iterable<Item>,
  options: SortOptions<Item, Text | Missing> & { key: (item: Item) => Text | Missing },
): Item[];

// Names of npm's package semver. The requirements are those of `Requirement`, and not the ranges of npm: ^1.2 doesn't
// match 1.2.5.
export function gt(a: Text, b: Text, options?: SchemeOptions): boolean;
export function gte(a: Text, b: Text, options?: SchemeOptions): boolean;
export function lt(a: Text, b: Text, options?: SchemeOptions): boolean;
export function lte(a: Text, b: Text, options?: SchemeOptions): boolean;
export function eq(a: Text, b: Text, options?: SchemeOptions): boolean;
export function neq(a: Text, b: Text, options?: SchemeOptions): boolean;
export function rcompare(a: Text, b: Text, options?: SchemeOptions): -1 | 0 | 1;
/** `sort` in reverse. */
export function rsort<Item extends Text>(texts: Iterable<Item>, options?: SortOptions<Item, Text>): Item[];
export function major(text: Text): number | null;
export function minor(text: Text): number | null;
export function patch(text: Text): number | null;
/** The text, or null where it is not a version. */
export function valid(text: Text | Missing): string | null;
/** The text, or null where it is not a requirement. */
export function validRange(text: string | Requirement | Missing): string | null;
/**
 * Whether the requirement matches, or the set has it. InvalidRequirement for a text that is not a requirement, as 1.x.
 * False for a text that is not a version, and where one of the two is missing.
 */
export function satisfies(text: Text | Missing, requirement: string | Requirement | VersionSet | Missing): boolean;
/** The newest item that matches, or null, also where the requirement is missing. InvalidRequirement as above. */
export function maxSatisfying<Item extends Text>(
  texts: Iterable<Item | Missing>,
  requirement: string | Requirement | VersionSet | Missing,
): Item | null;
/** The oldest item that matches, or null, also where the requirement is missing. InvalidRequirement as above. */
export function minSatisfying<Item extends Text>(
  texts: Iterable<Item | Missing>,
  requirement: string | Requirement | VersionSet | Missing,
): Item | null;
