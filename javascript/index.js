/*
 * Version numbers, parsed, ordered and matched by a library that is proved. index.d.ts describes each call.
 *
 * Every answer is one of the module's calls, which c/versions.h describes, or a comparison of keys as bytes. Nothing
 * here knows a rule of versions, of requirements or of sets.
 */
import {
  FIRST,
  SLOTS,
  START,
  after,
  big,
  binary,
  bytes,
  bytesOf,
  call,
  placeOf,
  put,
  reserve,
  slot,
  wordPair,
  words,
} from "./library.js";

export const version = "0.1.0";

// The numbers of the library, by their places here.
const KINDS = [null, "ideal", "general", "complex"];
const DIFFERENCES = ["none", "tie", "epoch", "part", "tail"];
const REASONS = [null, "kind", "below", "above", "parts"];
export const STABILITIES = Object.freeze(["dev", "alpha", "beta", "rc", "stable"]);

const OK = 0;
const NO_VERSION_B = 3;
const NO_REQUIREMENTS = 5;
const NO_NUMBER = 6;
const NO_ROOM = 7;
const ALL_MATCH = 15;
const MIXED = 1;
const [PRE_RELEASE, RELEASE, METADATA] = [2, 3, 4];
const [HAS_HIGH, IS_EXACT] = [8, 16];
const FROM = BigInt(FIRST);
// A version has no lone surrogate, but what stands before it in a tag could.
const LONE_SURROGATE = /\p{Surrogate}/u;

// The names of the schemes, whose numbers go from MIXED on without a gap.
export const SCHEMES = Object.freeze(schemeNames());

function schemeNames() {
  const most = 16;
  reserve(FIRST + most);
  const names = [];
  while (call.versions_scheme_name(MIXED + names.length, FROM, big(most), SLOTS[0]) === OK) {
    names.push(binary(FIRST, FIRST + slot(0)));
  }
  return names;
}

const nameOfScheme = (scheme) => SCHEMES[scheme - MIXED];

// The number of the scheme that has a name, which the library reads.
function numberOfScheme(name) {
  if (name === undefined) return MIXED;
  if (call.versions_scheme(FROM, big(write(asText(name))), SLOTS[0]) === OK) return words[START / 4];
  throw new RangeError(`a scheme is one of ${SCHEMES.join(", ")}, and this is ${JSON.stringify(name)}`);
}

const ofScheme = (name) => (name === "mixed" ? "" : ` of ${name}`);

// How far a text could become a version, counted in its units, and why no further; null of both where it is one.
const NO_WRONG = { place: null, reason: null };
function wrongVersion(text, scheme) {
  const its = wrongIn(text, numberOfScheme(scheme), call.versions_wrong, call.versions_wrong_text);
  return its === null ? NO_WRONG : { place: its[0], reason: its[1] };
}
const saidOf = ({ place, reason }) => (reason === null ? "" : `; at ${place}: ${reason}`);

// With a message it is about more than the text, and what is wrong with that isn't asked for: it may be passed too.
export class InvalidVersion extends RangeError {
  constructor(text, scheme = "mixed", message = null, wrong = message === null ? wrongVersion(text, scheme) : NO_WRONG) {
    super((message ?? `not a version${ofScheme(scheme)}: ${JSON.stringify(text)}`) + saidOf(wrong));
    Object.assign(this, { text, scheme, ...wrong });
  }
}

export class InvalidRequirement extends RangeError {
  constructor(text) {
    const [start, end] = wrongMember(text);
    const member = text.slice(start, end);
    const wrong = member === text ? "" : `; its member ${JSON.stringify(member)} at ${start} is wrong`;
    super(`not a requirement: ${JSON.stringify(text)}${wrong}; a list looks like '>=1.2,<2'`);
    Object.assign(this, { text, member, start });
  }
}

export class InvalidVersionSet extends RangeError {
  constructor(text, scheme = "mixed") {
    const its = wrongIn(text, numberOfScheme(scheme), call.versions_set_wrong, call.versions_set_wrong_text);
    const [start, reason] = its ?? [0, ""];
    const wrong = reason === "" ? "" : `; at ${start}: ${reason}`;
    super(`not a set of versions${ofScheme(scheme)}: ${JSON.stringify(text)}${wrong}`);
    Object.assign(this, { text, scheme, start, reason });
  }
}
InvalidVersion.prototype.name = "InvalidVersion";
InvalidRequirement.prototype.name = "InvalidRequirement";
InvalidVersionSet.prototype.name = "InvalidVersionSet";

const nameOf = (value) => (value === null ? "null" : typeof value);

function asText(value, what = "this") {
  if (typeof value !== "string") throw new TypeError(`a text is a string, and ${what} is of type ${nameOf(value)}`);
  return value;
}

// What only the classes below can look at: the text of a Version or a Requirement, the form of a VersionSet, if it is
// one, and the key of a version. Where a scheme is passed, a value of another is a TypeError.
let versionText, requirementText, formOf, keyOf;
const isObject = (value) => typeof value === "object" && value !== null;

// The text of a string or a Version of a scheme, and of a string or a Requirement.
const textOf = (value, scheme = MIXED) =>
  typeof value === "string" ? value : (versionText(value, scheme) ?? asText(value));
const listOf = (value) => (typeof value === "string" ? value : (requirementText(value) ?? asText(value)));

// Refuses a value of another scheme than the one that is wanted.
function checkScheme(wanted, its) {
  if (wanted === its) return;
  throw new TypeError(`versions of ${nameOfScheme(wanted)} are wanted, and this is of ${nameOfScheme(its)}`);
}

/*
 * Calls about one text or two.
 */

// Writes a text, with room for more after it, and returns its length in bytes. As in each call, each unit of the text
// needs at most three bytes.
function write(text, more = 0) {
  reserve(FIRST + 3 * text.length + more);
  return put(text, FIRST) - FIRST;
}

// Writes two texts, one after the other, with room for more after them, and sets their lengths.
let one = 0;
let two = 0;
function writeTwo(a, b, more = 0) {
  reserve(FIRST + 3 * (a.length + b.length) + more);
  one = put(a, FIRST) - FIRST;
  two = put(b, FIRST + one) - FIRST - one;
}

function refuseTwo(status, a, b, scheme = MIXED) {
  throw new InvalidVersion(status === NO_VERSION_B ? b : a, nameOfScheme(scheme));
}

// The places in a text, counted in its units, of what two slots hold as places of its bytes.
const placesOf = (text, from = 0) => [placeOf(text, slot(from)), placeOf(text, slot(from + 1))];
const between = (text, from = 0) => text.slice(...placesOf(text, from));

function wrongMember(text) {
  const length = write(text);
  const status = call.versions_wrong_member(FROM, big(length), SLOTS[0], SLOTS[1]);
  return status === OK ? placesOf(text) : [0, text.length];
}

// Where a text is wrong, counted in its units, and why, by two calls; null where it is not.
function wrongIn(text, scheme, askPlace, askReason) {
  const most = 100;
  const length = write(text, most);
  const passed = [scheme, FROM, big(length)];
  if (askPlace(...passed, SLOTS[0], SLOTS[1]) !== OK) return null;
  const start = placeOf(text, slot(0));
  askReason(...passed, after(length), big(most), SLOTS[0]);
  return [start, binary(FIRST + length, FIRST + length + slot(0))];
}

// How many bytes are enough for the key of any text of a length in a scheme.
function roomForKey(length, scheme) {
  call.versions_key_bound(scheme, big(length), SLOTS[0]);
  return slot(0);
}

// The key of a version of a scheme, as a text of its bytes.
function keyIn(text, scheme) {
  const length = write(text);
  const room = roomForKey(length, scheme);
  const key = FIRST + length;
  reserve(key + room);
  const status = call.versions_key(scheme, FROM, big(length), after(length), big(room), SLOTS[0]);
  if (status !== OK) throw new InvalidVersion(text, nameOfScheme(scheme));
  return binary(key, key + slot(0));
}

// The kind and the key of a version of mixed, the key as a text of its bytes.
function parse(text) {
  const length = write(text, 9 * text.length + 8);
  const key = FIRST + length;
  const status = call.versions_parse(FROM, big(length), SLOTS[0], after(length), big(3 * length + 5), SLOTS[1]);
  if (status !== OK) throw new InvalidVersion(text);
  return [KINDS[bytes[START]], binary(key, key + slot(1))];
}

function asPlace(value) {
  if (typeof value !== "number") throw new TypeError(`a place is a number, and this is of type ${nameOf(value)}`);
  if (!Number.isSafeInteger(value) || value < 0) {
    throw new RangeError(`a place is an integer from 0 on, and not ${value}`);
  }
  return big(value);
}

function field(text, number) {
  const length = write(text);
  return call.versions_field(FROM, big(length), number, SLOTS[0], SLOTS[1]) === OK ? between(text) : null;
}

function isPrerelease(text) {
  call.versions_is_prerelease(FROM, big(write(text)), SLOTS[0]);
  return bytes[START] === 1;
}

const stabilityOf = (text) => STABILITIES[call.versions_stability(FROM, big(write(text))) - 1];

function epochOf(text) {
  // A larger epoch than any number here has a call's status of its own, and the largest number.
  const status = call.versions_epoch(FROM, big(write(text)), SLOTS[0]);
  return status === NO_NUMBER ? null : Math.min(slot(0), Number.MAX_SAFE_INTEGER);
}

export const kind = (text) => KINDS[call.versions_kind(FROM, big(write(textOf(text))))];

export function sortKey(text, options) {
  const scheme = schemeOf(options);
  return bytesOf(keyIn(textOf(text, scheme), scheme));
}

export function compare(a, b, options) {
  return compareIn(schemeOf(options), a, b);
}

function compareIn(scheme, a, b) {
  const its = textOf(a, scheme);
  const other = textOf(b, scheme);
  writeTwo(its, other);
  const status = call.versions_compare(scheme, FROM, big(one), after(one), big(two), SLOTS[0]);
  if (status !== OK) refuseTwo(status, its, other, scheme);
  return words[START / 4] | 0;
}

export function compareTotal(a, b) {
  const its = textOf(a);
  const other = textOf(b);
  writeTwo(its, other);
  const status = call.versions_compare_total(FROM, big(one), after(one), big(two), SLOTS[0]);
  if (status !== OK) refuseTwo(status, its, other);
  return words[START / 4] | 0;
}

/*
 * Calls about many texts.
 */

const isMissing = (value) => value === undefined || value === null || Number.isNaN(value);

// The items of an iterable, in a list that no other code knows.
function itemsOf(texts) {
  if (typeof texts === "string" || typeof texts?.[Symbol.iterator] !== "function") {
    throw new TypeError(`texts are an array or another iterable, and this is of type ${nameOf(texts)}`);
  }
  return Array.from(texts);
}

// The text of the item at a place of a list, or of its key.
const textAt = (place, item, scheme, what = "item") =>
  typeof item === "string" ? item : (versionText(item, scheme) ?? asText(item, `${what} ${place}`));

// The texts of items. A missing value has the empty text, which is not a version of any scheme either.
const textsOf = (items, scheme = MIXED, what = "item") =>
  items.map((item, place) => (isMissing(item) ? "" : textAt(place, item, scheme, what)));

// The same of tags, but the empty text for a tag with a lone surrogate: such a text has no version.
const tagsOf = (items) => textsOf(items).map((tag) => (LONE_SURROGATE.test(tag) ? "" : tag));

/*
 * Writes texts and their offsets, and returns where they end, and the words that a call takes for them. Between the
 * offsets and the texts there is room for `each` bytes for each text and 8 more, at `results`. Then there is room for
 * `more` bytes after the texts.
 */
function writeAll(texts, each, more = 0) {
  const count = texts.length;
  const results = FIRST + 8 * (count + 1);
  const from = results + 8 * Math.ceil((each * count) / 8 + 1);
  let units = 0;
  for (let place = 0; place < count; place++) units += texts[place].length;
  reserve(from + 3 * units + more);
  let end = from;
  words[FIRST / 4] = words[FIRST / 4 + 1] = 0;
  for (let place = 0, at = FIRST / 4 + 2; place < count; place++, at += 2) {
    end = put(texts[place], end);
    words[at] = end - from;
    words[at + 1] = 0;
  }
  return { count, results, end, size: end - from, passed: [BigInt(from), BigInt(end - from), FROM, BigInt(count + 1)] };
}

// A list of what a function answers for each place.
function forEach(count, answer) {
  const answers = new Array(count);
  for (let place = 0; place < count; place++) answers[place] = answer(place);
  return answers;
}

// What a call writes for each text, one byte each, by a list of what the bytes mean.
function answers(name, texts, meanings) {
  const { count, results, passed } = writeAll(textsOf(itemsOf(texts)), 1);
  call[name](...passed, BigInt(results), BigInt(count));
  return forEach(count, (place) => meanings[bytes[results + place]]);
}

export const kinds = (texts) => answers("versions_kinds", texts, KINDS);

export const stabilities = (texts) => answers("versions_stabilities", texts, [null, ...STABILITIES]);

const OF_MATCHES = [false, true, null];

export function matchAll(requirement, texts) {
  const form = formOf(requirement);
  if (form !== undefined) return hasAll(form, texts);
  const list = listOf(requirement);
  const { count, results, end, passed } = writeAll(textsOf(itemsOf(texts)), 1, 3 * list.length);
  const length = put(list, end) - end;
  const status = call.versions_match_all(BigInt(end), big(length), ...passed, BigInt(results), BigInt(count));
  if (status !== OK) throw new InvalidRequirement(list);
  return forEach(count, (place) => OF_MATCHES[bytes[results + place]]);
}

// Whether each text is in the set that has a form.
function hasAll({ scheme, bytes: form }, texts) {
  const all = writeAll(textsOf(itemsOf(texts), scheme), 1, form.length);
  const { count, results, end, passed } = all;
  bytes.set(form, end);
  call.versions_set_has_all(BigInt(end), big(form.length), ...passed, BigInt(results), BigInt(count));
  return forEach(count, (place) => OF_MATCHES[bytes[results + place]]);
}

export function inTags(texts) {
  const tags = tagsOf(itemsOf(texts));
  const { count, results, passed } = writeAll(tags, 8);
  call.versions_in_tags(...passed, BigInt(results), BigInt(count));
  return forEach(count, (place) => {
    const start = wordPair(results + 8 * place);
    if (start === wordPair(FIRST + 8 * (place + 1))) return null;
    return tags[place].slice(placeOf(tags[place], start - wordPair(FIRST + 8 * place)));
  });
}

// Makes room for the keys in a scheme of texts that are written, and returns how much is always enough: the sum of what
// is for each, which is linear.
function roomForKeys({ count, size, end }, scheme) {
  const least = roomForKey(0, scheme);
  const room = roomForKey(size, scheme) - least + count * least;
  reserve(end + room);
  return BigInt(room);
}

export function sortKeys(texts, options) {
  const scheme = schemeOf(options);
  const all = writeAll(textsOf(itemsOf(texts), scheme), 8);
  const { count, results, end, passed } = all;
  const written = [...passed, BigInt(end), roomForKeys(all, scheme), BigInt(results), BigInt(count + 1)];
  call.versions_keys(scheme, ...written);
  return forEach(count, (place) => {
    const from = wordPair(results + 8 * place);
    const to = wordPair(results + 8 * (place + 1));
    return from === to ? null : bytes.slice(end + from, end + to);
  });
}

// The places of texts in sorted order, and how many of them are versions: the others come last.
function placesInOrder(texts, scheme) {
  const all = writeAll(texts, 16);
  const { count, results, end, passed } = all;
  const sorted = results + 8 * (count + 1);
  const written = [...passed, BigInt(end), roomForKeys(all, scheme), BigInt(results), BigInt(count + 1)];
  written.push(BigInt(sorted), BigInt(count));
  call.versions_sort(scheme, ...written);
  const places = forEach(count, (at) => words[sorted / 4 + 2 * at]);
  const hasKey = (place) => wordPair(results + 8 * place) !== wordPair(results + 8 * (place + 1));
  let good = count;
  while (good > 0 && !hasKey(places[good - 1])) good--;
  return [places, good];
}

/*
 * The options of a call, each read once, by the names that it knows. Those have the types that their values may be of,
 * as `nameOf` has them; what is undefined isn't given.
 */
function optionsOf(given, known) {
  if (!isObject(given)) throw new TypeError(`options are an object, and this is of type ${nameOf(given)}`);
  const other = Object.keys(given).find((name) => !Object.hasOwn(known, name));
  if (other !== undefined) {
    throw new TypeError(`there is no option ${JSON.stringify(other)}, but ${Object.keys(known).join(", ")}`);
  }
  const options = {};
  for (const [name, types] of Object.entries(known)) {
    const value = given[name];
    if (value !== undefined && !types.includes(nameOf(value))) {
      throw new TypeError(`the option ${name} is of type ${types.join(" or ")}, and this is of type ${nameOf(value)}`);
    }
    options[name] = value;
  }
  return options;
}

const OF_SCHEME = { scheme: ["string"] };
const OF_SORT = { key: ["function", "null"], reverse: ["boolean"], invalid: ["string"], ...OF_SCHEME };
const OF_NEWEST = {
  requirement: ["string", "object", "null"], stability: ["string", "null"], tags: ["boolean"], ...OF_SCHEME,
};

// The number of the scheme that the options of a call name.
const schemeOf = (options) =>
  options === undefined ? MIXED : numberOfScheme(optionsOf(options, OF_SCHEME).scheme);

export function sort(texts, options = {}) {
  const { key = null, reverse = false, invalid = "throw", scheme: name } = optionsOf(options, OF_SORT);
  const scheme = numberOfScheme(name);
  if (invalid !== "throw" && invalid !== "last") {
    throw new RangeError(`invalid is 'throw' or 'last', and this is ${JSON.stringify(invalid)}`);
  }
  const items = itemsOf(texts);
  const what = key === null ? "item" : "the key of item";
  const keys = key === null ? items : items.map((item) => key(item));
  const its =
    invalid === "last" ? textsOf(keys, scheme, what) : keys.map((item, place) => textAt(place, item, scheme, what));
  // In reverse, the items are sorted from the last to the first, and then taken from the last to the first: so those
  // that tie keep their order.
  if (reverse) {
    items.reverse();
    its.reverse();
  }
  const [places, good] = placesInOrder(its, scheme);
  if (good < places.length && invalid === "throw") {
    const last = places.length - 1;
    const place = places[reverse ? last : good];
    const text = its[place];
    const where = `${what} ${reverse ? last - place : place}`;
    const of = nameOfScheme(scheme);
    const said = `${where} is not a version${ofScheme(of)}: ${JSON.stringify(text)}`;
    throw new InvalidVersion(text, of, said, wrongVersion(text, of));
  }
  const versions = places.slice(0, good);
  const others = places.slice(good);
  if (reverse) {
    versions.reverse();
    others.reverse();
  }
  return versions.concat(others).map((place) => items[place]);
}

export function newest(texts, options = {}) {
  const { requirement = null, stability = null, tags = false, scheme: name } = optionsOf(options, OF_NEWEST);
  const scheme = numberOfScheme(name);
  const least = STABILITIES.indexOf(stability) + 1;
  if (least === 0 && stability !== null) throw new RangeError(`no stability: ${JSON.stringify(stability)}`);
  if (scheme !== MIXED) {
    if (least > 0 || tags) {
      throw new RangeError(`stability and tags are for the scheme mixed alone, and this is ${nameOfScheme(scheme)}`);
    }
    return newestIn(scheme, texts, requirement ?? "*");
  }
  const form = formOf(requirement, MIXED);
  if (form === undefined) return newestInMixed(itemsOf(texts), listOf(requirement ?? "*"), least, tags);
  const items = itemsOf(texts);
  const has = hasAll(form, tags ? inTags(items) : items);
  return newestInMixed(items.filter((_, place) => has[place]), "*", least, tags);
}

// The newest item in a set of another scheme, or in the set that a text is.
function newestIn(scheme, texts, set) {
  const wanted = typeof set === "string" ? new VersionSet(set, { scheme: nameOfScheme(scheme) }) : set;
  if (formOf(wanted, scheme) === undefined) {
    throw new TypeError(`a set of versions is a string or a VersionSet, and this is of type ${nameOf(set)}`);
  }
  return foremost(wanted.filter(texts), (one, other) => compareIn(scheme, other, one));
}

// The first of the items that no other comes before, or null.
const foremost = (items, order) =>
  items.reduce((least, item) => (least !== null && order(least, item) <= 0 ? least : item), null);

function newestInMixed(items, list, least, tags) {
  const its = tags ? tagsOf(items) : textsOf(items);
  const { end, passed } = writeAll(its, 0, 3 * list.length);
  const length = put(list, end) - end;
  const status = call.versions_newest(...passed, BigInt(end), big(length), least, tags ? 1 : 0, SLOTS[0]);
  if (status === NO_REQUIREMENTS) throw new InvalidRequirement(list);
  return status === OK ? items[slot(0)] : null;
}

/*
 * Values.
 */

export class Difference {
  constructor(kind, part) {
    this.kind = kind;
    this.part = part;
    Object.freeze(this);
  }

  toString() {
    return {
      none: "they differ at most after the plus, which doesn't count",
      tie: "they compare equal, and are not the same version",
      epoch: "they differ first in the epoch",
      part: `they differ first in part ${this.part}`,
      tail: "they differ first in what follows the parts",
    }[this.kind];
  }
}

export class Mismatch {
  constructor(version, member, start, end, reason) {
    Object.assign(this, { version, member, start, end, reason });
    Object.freeze(this);
  }

  toString() {
    writeTwo(this.member, this.version);
    const end = one + two;
    const ask = (room) => call.versions_why_text(FROM, big(one), after(one), big(two), after(end), big(room), SLOTS[0]);
    // Without room the library says how long the sentence is.
    if (ask(0) !== NO_ROOM) return "";
    const length = slot(0);
    reserve(FIRST + end + length);
    ask(length);
    return binary(FIRST + end, FIRST + end + length);
  }
}

// Why there is no version in a tag.
function noVersionIn(tag, prefix) {
  const its = `the tag ${JSON.stringify(tag)}`;
  if (prefix === null) return `${its} has no version`;
  const front = JSON.stringify(prefix);
  return tag.startsWith(prefix) ? `${its} has no version after ${front}` : `${its} doesn't begin with ${front}`;
}

// What the library answered about a version, each when it was first asked for; undefined is what wasn't yet.
class Answers {
  isPrerelease;
  stability;
  major;
  minor;
  patch;
  epoch;
  preRelease;
  release;
  metadata;
}

// How node shows a value.
const SHOWN = Symbol.for("nodejs.util.inspect.custom");
const shownScheme = (scheme) => (scheme === MIXED ? "" : `, { scheme: ${JSON.stringify(nameOfScheme(scheme))} }`);

export class Version {
  #text;
  #scheme;
  #kind;
  #key;
  #answers;

  constructor(text, options) {
    this.#scheme = schemeOf(options);
    this.#text = textOf(text, this.#scheme);
    if (typeof text !== "string") [this.#kind, this.#key] = [text.#kind, text.#key];
    else if (this.#scheme === MIXED) [this.#kind, this.#key] = parse(text);
    else this.#key = keyIn(text, this.#scheme);
  }

  static {
    versionText = (value, scheme) => (isObject(value) && #text in value ? value.#in(scheme).#text : undefined);
    keyOf = (value, scheme) =>
      isObject(value) && #text in value ? value.#in(scheme).#key : keyIn(asText(value), scheme);
  }

  #in(scheme) {
    checkScheme(scheme, this.#scheme);
    return this;
  }

  // What is known of versions of mixed alone.
  #ofMixed(value) {
    if (this.#scheme === MIXED) return value;
    throw new TypeError(`versions of ${nameOfScheme(this.#scheme)} have no kind, parts, fields or stability`);
  }

  static fromTag(tag, prefix = null) {
    const its = textOf(tag);
    const front = prefix === null ? "" : asText(prefix);
    const isLone = LONE_SURROGATE.test(its) || LONE_SURROGATE.test(front);
    writeTwo(front, its);
    const status =
      prefix === null
        ? call.versions_in_tag(FROM, big(two), SLOTS[0])
        : call.versions_after_prefix(FROM, big(one), after(one), big(two), SLOTS[0]);
    if (isLone || status !== OK) throw new InvalidVersion(its, "mixed", noVersionIn(its, prefix));
    return new this(its.slice(placeOf(its, slot(0))));
  }

  static compare(a, b, options) {
    return compare(a, b, options);
  }

  get scheme() {
    return nameOfScheme(this.#scheme);
  }

  get kind() {
    return this.#ofMixed(this.#kind);
  }

  get key() {
    return bytesOf(this.#key);
  }

  get isIdeal() {
    return this.#ofMixed(this.#kind) === "ideal";
  }

  get isGeneral() {
    return this.#ofMixed(this.#kind) === "general";
  }

  get isComplex() {
    return this.#ofMixed(this.#kind) === "complex";
  }

  get isPrerelease() {
    const answers = (this.#answers ??= new Answers());
    return (answers.isPrerelease ??= isPrerelease(this.#ofMixed(this.#text)));
  }

  get stability() {
    const answers = (this.#answers ??= new Answers());
    return (answers.stability ??= stabilityOf(this.#ofMixed(this.#text)));
  }

  get major() {
    const answers = (this.#answers ??= new Answers());
    return answers.major === undefined ? (answers.major = this.nth(0)) : answers.major;
  }

  get minor() {
    const answers = (this.#answers ??= new Answers());
    return answers.minor === undefined ? (answers.minor = this.nth(1)) : answers.minor;
  }

  get patch() {
    const answers = (this.#answers ??= new Answers());
    return answers.patch === undefined ? (answers.patch = this.nth(2)) : answers.patch;
  }

  get epoch() {
    const answers = (this.#answers ??= new Answers());
    return answers.epoch === undefined ? (answers.epoch = epochOf(this.#ofMixed(this.#text))) : answers.epoch;
  }

  get preRelease() {
    const answers = (this.#answers ??= new Answers());
    return answers.preRelease === undefined
      ? (answers.preRelease = field(this.#ofMixed(this.#text), PRE_RELEASE))
      : answers.preRelease;
  }

  get release() {
    const answers = (this.#answers ??= new Answers());
    return answers.release === undefined
      ? (answers.release = field(this.#ofMixed(this.#text), RELEASE))
      : answers.release;
  }

  get metadata() {
    const answers = (this.#answers ??= new Answers());
    return answers.metadata === undefined
      ? (answers.metadata = field(this.#ofMixed(this.#text), METADATA))
      : answers.metadata;
  }

  nth(n) {
    const status = call.versions_nth(FROM, big(write(this.#ofMixed(this.#text))), asPlace(n), SLOTS[0]);
    return status === OK ? words[START / 4] : null;
  }

  next(place) {
    const at = asPlace(place);
    // What comes next has at most one digit more.
    const room = 3 * this.#text.length + 8;
    const length = write(this.#ofMixed(this.#text), room);
    const status = call.versions_next(FROM, big(length), at, after(length), big(room), SLOTS[0]);
    if (status !== OK) throw new RangeError(`${this.#text} has no next version at place ${place}`);
    return this.#written(length);
  }

  nextRelease() {
    const room = 3 * this.#text.length + 8;
    const length = write(this.#ofMixed(this.#text), room);
    const status = call.versions_next_release(FROM, big(length), after(length), big(room), SLOTS[0]);
    if (status !== OK) throw new RangeError(`${this.#text} has no next release`);
    return this.#written(length);
  }

  nextPre(word = null) {
    const its = word === null ? "" : asText(word, "the word");
    // The word, a dot and a number follow three numbers, of which one may have one digit more.
    const room = 3 * (this.#text.length + its.length) + 16;
    writeTwo(this.#ofMixed(this.#text), its, room);
    const both = one + two;
    const status = call.versions_next_pre(FROM, big(one), after(one), big(two), after(both), big(room), SLOTS[0]);
    if (status !== OK) {
      throw new RangeError(`${this.#text} has no next pre-release${its && ` of ${its}`}`);
    }
    return this.#written(both);
  }

  // The version whose text a call has written after so many bytes.
  #written(length) {
    return new this.constructor(binary(FIRST + length, FIRST + length + slot(0)));
  }

  difference(other) {
    const its = textOf(other);
    writeTwo(this.#ofMixed(this.#text), its);
    const status = call.versions_difference(FROM, big(one), after(one), big(two), SLOTS[0], SLOTS[1]);
    if (status !== OK) refuseTwo(status, this.#text, its);
    const kind = DIFFERENCES[words[START / 4]];
    return new Difference(kind, kind === "part" ? slot(1) : null);
  }

  compare(other) {
    const key = keyOf(other, this.#scheme);
    return this.#key < key ? -1 : this.#key > key ? 1 : 0;
  }

  equals(other) {
    return this.#key === keyOf(other, this.#scheme);
  }

  toString() {
    return this.#text;
  }

  toJSON() {
    return this.#text;
  }

  // So that < and > go by the keys, and all else by the text. What is on their other side can't be seen from here, so
  // they are for mixed alone: keys of two schemes say nothing of each other.
  [Symbol.toPrimitive](hint) {
    if (hint !== "number") return this.#text;
    if (this.#scheme === MIXED) return this.#key;
    const of = nameOfScheme(this.#scheme);
    throw new TypeError(`versions of ${of} are compared by compare: < and > don't see the other's scheme`);
  }

  [SHOWN]() {
    return `Version(${JSON.stringify(this.#text)}${shownScheme(this.#scheme)})`;
  }
}

export class Requirement {
  #text;
  #range;

  constructor(text) {
    const its = listOf(text);
    if (call.versions_wrong_member(FROM, big(write(its)), SLOTS[0], SLOTS[1]) === OK) throw new InvalidRequirement(its);
    this.#text = its;
  }

  static {
    requirementText = (value) => (isObject(value) && #text in value ? value.#text : undefined);
  }

  matches(version) {
    const its = textOf(version);
    writeTwo(this.#text, its);
    const status = call.versions_matches(FROM, big(one), after(one), big(two), SLOTS[0]);
    if (status !== OK) throw new InvalidVersion(its);
    return bytes[START] === 1;
  }

  has(version) {
    writeTwo(this.#text, textOf(version));
    const status = call.versions_matches(FROM, big(one), after(one), big(two), SLOTS[0]);
    return status === OK && bytes[START] === 1;
  }

  filter(versions) {
    const items = itemsOf(versions);
    const matches = matchAll(this, items);
    return items.filter((_, place) => matches[place] === true);
  }

  whyNot(version) {
    const its = textOf(version);
    writeTwo(this.#text, its);
    const status = call.versions_why_not(FROM, big(one), after(one), big(two), SLOTS[0], SLOTS[1], SLOTS[2]);
    if (status === ALL_MATCH) return null;
    if (status !== OK) throw new InvalidVersion(its);
    const [start, end] = placesOf(this.#text);
    return new Mismatch(its, this.#text.slice(start, end), start, end, REASONS[words[START / 4 + 4]]);
  }

  get conflict() {
    const status = call.versions_conflict(FROM, big(write(this.#text)), ...SLOTS.slice(0, 4));
    return status === OK ? [between(this.#text), between(this.#text, 2)] : null;
  }

  // The low bound, the high one and the flags, the bounds as texts of their bytes.
  #bounds() {
    if (this.#range === undefined) {
      const length = write(this.#text, 18 * this.#text.length + 16);
      const room = 3 * length + 5;
      const low = FIRST + length;
      const high = low + room;
      call.versions_range(
        FROM, big(length), after(length), big(room), SLOTS[0], after(length + room), big(room), SLOTS[1], SLOTS[2],
      );
      this.#range = [binary(low, low + slot(0)), binary(high, high + slot(1)), words[START / 4 + 4]];
    }
    return this.#range;
  }

  get low() {
    return bytesOf(this.#bounds()[0]);
  }

  get high() {
    const [, high, flags] = this.#bounds();
    return flags & HAS_HIGH ? bytesOf(high) : null;
  }

  get range() {
    const flags = this.#bounds()[2];
    const kinds = KINDS.filter((kind, number) => kind !== null && flags & (1 << (number - 1)));
    return { low: this.low, high: this.high, kinds, exact: (flags & IS_EXACT) !== 0 };
  }

  toString() {
    return this.#text;
  }

  toJSON() {
    return this.#text;
  }

  [SHOWN]() {
    return `Requirement(${JSON.stringify(this.#text)})`;
  }
}

/*
 * Sets of versions. Each is read once, and then asked by its form.
 */

// What a set is: its form, and the text that was read as it, or the version that it is of.
class Form {
  constructor(bytes, scheme, { text = null, version = null } = {}) {
    Object.assign(this, { bytes, scheme, text, version });
  }
}

function formOfText(text, scheme) {
  const length = write(text);
  const passed = [scheme, FROM, big(length)];
  call.versions_set_bound(...passed, SLOTS[0]);
  const room = slot(0);
  const form = FIRST + length;
  reserve(form + room);
  const status = call.versions_set(...passed, after(length), big(room), SLOTS[0]);
  if (status !== OK) throw new InvalidVersionSet(text, nameOfScheme(scheme));
  return new Form(bytes.slice(form, form + slot(0)), scheme, { text });
}

// The form of the set of what ties with a version.
function formOfVersion(version, scheme) {
  const length = write(version);
  const passed = [scheme, FROM, big(length), after(length)];
  // Without room the library says how long the form is.
  if (call.versions_set_of_version(...passed, 0n, SLOTS[0]) !== NO_ROOM) {
    throw new InvalidVersion(version, nameOfScheme(scheme));
  }
  const room = slot(0);
  const form = FIRST + length;
  reserve(form + room);
  call.versions_set_of_version(...passed, big(room), SLOTS[0]);
  return new Form(bytes.slice(form, form + room), scheme, { version });
}

// Writes a form, with room for more after it, and returns its length.
function writeForm({ bytes: form }, more = 0) {
  reserve(FIRST + form.length + more);
  bytes.set(form, FIRST);
  return form.length;
}

// Writes two forms, one after the other, with as much room after them, and returns what a call takes for them.
function writeForms(one, other) {
  const size = other.bytes.length;
  const length = writeForm(one, 2 * size + one.bytes.length);
  bytes.set(other.bytes, FIRST + length);
  return [FROM, big(length), after(length), big(size)];
}

// What a call makes of two sets.
function merged(name, one, other) {
  const room = one.bytes.length + other.bytes.length;
  call[name](...writeForms(one, other), after(room), big(room), SLOTS[0]);
  return new VersionSet(new Form(bytes.slice(FIRST + room, FIRST + room + slot(0)), one.scheme));
}

// What a call answers about two sets.
function asked(name, one, other) {
  call[name](...writeForms(one, other), SLOTS[0]);
  return bytes[START] === 1;
}

const hexOf = (key) => Array.from(key, (byte) => byte.toString(16).padStart(2, "0")).join("");

export class VersionSet {
  #form;

  // A form is passed by the calls of this file alone.
  constructor(text, options) {
    if (text instanceof Form) {
      this.#form = text;
    } else {
      const scheme = schemeOf(options);
      this.#form = formOf(text, scheme) ?? formOfText(asText(text), scheme);
    }
  }

  static {
    formOf = (value, scheme) => {
      if (!isObject(value) || !(#form in value)) return undefined;
      if (scheme !== undefined) checkScheme(scheme, value.#form.scheme);
      return value.#form;
    };
  }

  static of(version, options) {
    const scheme = schemeOf(options);
    return new this(formOfVersion(textOf(version, scheme), scheme));
  }

  // The form of another set of its scheme.
  #formOf(other) {
    const form = formOf(other, this.#form.scheme);
    if (form !== undefined) return form;
    throw new TypeError(`a set of versions is a VersionSet, and this is of type ${nameOf(other)}`);
  }

  get scheme() {
    return nameOfScheme(this.#form.scheme);
  }

  // Asks whether a version is in the set: the status of the call, which has written its answer.
  #ask(version) {
    const { length } = this.#form.bytes;
    writeForm(this.#form, 3 * version.length);
    const end = put(version, FIRST + length);
    return call.versions_set_has(FROM, big(length), after(length), big(end - FIRST - length), SLOTS[0]);
  }

  matches(version) {
    const its = textOf(version, this.#form.scheme);
    if (this.#ask(its) !== OK) throw new InvalidVersion(its, nameOfScheme(this.#form.scheme));
    return bytes[START] === 1;
  }

  has(version) {
    return this.#ask(textOf(version, this.#form.scheme)) === OK && bytes[START] === 1;
  }

  hasAll(texts) {
    return hasAll(this.#form, texts);
  }

  filter(versions) {
    const items = itemsOf(versions);
    const has = hasAll(this.#form, items);
    return items.filter((_, place) => has[place] === true);
  }

  and(other) {
    return merged("versions_set_and", this.#form, this.#formOf(other));
  }

  or(other) {
    return merged("versions_set_or", this.#form, this.#formOf(other));
  }

  not() {
    const more = 17;
    const length = writeForm(this.#form, this.#form.bytes.length + more);
    call.versions_set_not(FROM, big(length), after(length), big(length + more), SLOTS[0]);
    return new VersionSet(new Form(bytes.slice(FIRST + length, FIRST + length + slot(0)), this.#form.scheme));
  }

  isPartOf(other) {
    return asked("versions_set_part_of", this.#form, this.#formOf(other));
  }

  meets(other) {
    return asked("versions_set_meets", this.#form, this.#formOf(other));
  }

  equals(other) {
    const form = this.#formOf(other).bytes;
    return form.length === this.#form.bytes.length && form.every((byte, place) => byte === this.#form.bytes[place]);
  }

  get isEmpty() {
    return call.versions_set_interval(FROM, big(writeForm(this.#form)), 0n, ...SLOTS.slice(0, 4)) !== OK;
  }

  get intervals() {
    const form = this.#form.bytes;
    const length = big(writeForm(this.#form));
    const intervals = [];
    while (call.versions_set_interval(FROM, length, big(intervals.length), ...SLOTS.slice(0, 4)) === OK) {
      const high = form.slice(slot(2), slot(3));
      intervals.push([form.slice(slot(0), slot(1)), high.length === 0 ? null : high]);
    }
    return intervals;
  }

  toString() {
    if (this.#form.text !== null) return this.#form.text;
    const shown = this.intervals.map(([low, high]) => `[${hexOf(low)}, ${high === null ? "" : hexOf(high)})`);
    return shown.join(" || ") || "nothing";
  }

  toJSON() {
    return String(this);
  }

  [SHOWN]() {
    const { text, version, scheme } = this.#form;
    const of = shownScheme(scheme);
    if (text !== null) return `VersionSet(${JSON.stringify(text)}${of})`;
    return version === null ? `<VersionSet: ${this}${of}>` : `VersionSet.of(${JSON.stringify(version)}${of})`;
  }
}

/*
 * Names of npm's package semver. The requirements are those of this package, and not the ranges of npm.
 */

export const gt = (a, b, options) => compare(a, b, options) > 0;
export const gte = (a, b, options) => compare(a, b, options) >= 0;
export const lt = (a, b, options) => compare(a, b, options) < 0;
export const lte = (a, b, options) => compare(a, b, options) <= 0;
export const eq = (a, b, options) => compare(a, b, options) === 0;
export const neq = (a, b, options) => compare(a, b, options) !== 0;
export const rcompare = (a, b, options) => compare(b, a, options);
export const rsort = (texts, options = {}) => sort(texts, { ...optionsOf(options, OF_SORT), reverse: true });
export const major = (text) => new Version(text).major;
export const minor = (text) => new Version(text).minor;
export const patch = (text) => new Version(text).patch;

// The requirement that a text is, and null for a missing value. A set stays itself, and answers as one.
function wantedOf(text) {
  if (isMissing(text)) return null;
  return formOf(text) === undefined ? new Requirement(text) : text;
}

// The number of the scheme of such a requirement or set.
const schemeOfWanted = (wanted) => formOf(wanted)?.scheme ?? MIXED;

export const valid = (text) => (isMissing(text) || kind(text) === null ? null : textOf(text));

export function validRange(text) {
  try {
    return wantedOf(text)?.toString() ?? null;
  } catch (error) {
    if (error instanceof InvalidRequirement) return null;
    throw error;
  }
}

export function satisfies(text, requirement) {
  const wanted = wantedOf(requirement);
  return !isMissing(text) && (wanted?.has(text) ?? false);
}

export function maxSatisfying(texts, requirement) {
  const wanted = wantedOf(requirement);
  const scheme = nameOfScheme(schemeOfWanted(wanted));
  return wanted === null ? null : newest(texts, { requirement: wanted, scheme });
}

export function minSatisfying(texts, requirement) {
  const wanted = wantedOf(requirement);
  const scheme = schemeOfWanted(wanted);
  return foremost(wanted?.filter(texts) ?? [], (one, other) => compareIn(scheme, one, other));
}
