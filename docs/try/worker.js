/*
 * What asks the library, beside the page, so that the page stays live: the list in order, what matches, the rows in
 * sight, and two versions side by side. No rule of versions, requirements or sets is here.
 *
 * A message is a question, { id, name, words }, and { id, value } is its answer. A newer question on the list makes an
 * older one end with null.
 */
import * as versions from "../../javascript/out/index.js";
import { hex, partsOf, rowsOf } from "./key.js";

const STEP = 20_000; // texts that are asked at once
const WRONG = 5_000; // lines that are no versions whose numbers are answered
const [KEY_IN_ROW, BOUND] = [64, 40]; // bytes of a key that a row shows, and of a bound

let text = "";
let newest = 0; // the number of the newest question on the list
let sorted = { asked: null }; // the list in order, as it was last asked for
let now = sorted; // the same, with what matches

/* Says how far it came, and lets newer messages in. Whether there is none that replaces this one. */
async function goesOn(number, doing, done, of) {
  postMessage({ doing, done, of });
  await new Promise((then) => setTimeout(then));
  return number === newest;
}

/* What a call answers for each text, in steps, or null where a newer question came. */
async function eachOf(number, doing, texts, ask) {
  const answers = [];
  for (let from = 0; from < texts.length; from += STEP) {
    if (from > 0 && !(await goesOn(number, doing, from, texts.length))) return null;
    for (const answer of ask(texts.slice(from, from + STEP))) answers.push(answer);
  }
  return answers;
}

/* The first place up to a count where something holds that holds from there on. */
function firstPlace(count, holds) {
  let [low, high] = [0, count];
  while (low < high) {
    const middle = (low + high) >>> 1;
    if (holds(middle)) high = middle;
    else low = middle + 1;
  }
  return low;
}

/* Whether bytes come before others, as memcmp has it, a prefix first. */
function isBefore(a, b) {
  const differ = a.findIndex((byte, place) => byte !== b[place]);
  return differ === -1 ? a.length < b.length : a[differ] < b[differ];
}

/* The lines that aren't empty, in order; those that are no versions come last, in the order of the list. */
async function sortList(number, { scheme, tags }) {
  const lines = [];
  const numbers = [];
  text.split("\n").forEach((line, place) => {
    if (line === "") return;
    lines.push(line);
    numbers.push(place + 1);
  });
  const inTags = await eachOf(number, "Looking for tags in", lines, versions.inTags);
  if (inTags === null) return null;
  const like = inTags.flatMap((its, place) => (its !== null && its !== lines[place] ? [place] : []));
  const found = tags ? inTags : lines;
  if (lines.length > STEP && !(await goesOn(number, "Sorting", 0, 0))) return null;
  const places = versions.sort(lines.keys(), { key: (place) => found[place], invalid: "last", scheme });
  const isNone = (at) => versions.sortKeys([found[places[at]]], { scheme })[0] === null;
  const count = firstPlace(places.length, isNone);
  const texts = places.slice(0, count).map((place) => found[place]);
  const example = like.length === 0 ? null : [lines[like[0]], inTags[like[0]]];
  return { lines, numbers, places, count, texts, like: { count: like.length, example } };
}

/* What a text is read as, or the error that says why it is none: both null where nothing is typed. */
function read(its, make, Invalid) {
  if (its === "") return [null, null];
  try {
    return [make(its), null];
  } catch (error) {
    if (!(error instanceof Invalid)) throw error;
    return [null, error];
  }
}

/* How far a line could become a version, and why no further; null of both where versions are those in tags. */
function flawOf(line, scheme, tags) {
  const { place, reason } = tags ? { place: null, reason: null } : new versions.InvalidVersion(line, scheme);
  return { place, reason };
}

/* Which versions a requirement or a set has: how many, and which of them is the newest. */
async function hasOf(number, doing, it, { texts }, options) {
  if (it === null) return { has: [], hits: null, newest: null };
  const has = await eachOf(number, doing, texts, (some) => versions.matchAll(it, some));
  if (has === null) return null;
  const hits = texts.filter((_, place) => has[place]);
  return { has, hits: hits.length, newest: versions.newest(hits, options) };
}

/* Where the range of a requirement lies in the list, and its bounds. */
function rangeOf(requirement, { texts }) {
  const { low, high, kinds, exact } = requirement.range;
  const placeOf = (bound) => firstPlace(texts.length, (place) => !isBefore(versions.sortKey(texts[place]), bound));
  const places = [placeOf(low), high === null ? texts.length : placeOf(high)];
  return { places, low: hex(low, BOUND), high: high && hex(high, BOUND), kinds, exact };
}

/* Answers for the whole list: what the page shows of it besides its rows. */
async function list({ list: typed, scheme, tags, wanted, set }) {
  const number = ++newest;
  if (typed !== undefined) text = typed;
  const asked = JSON.stringify([scheme, tags]);
  if (sorted.asked !== asked || sorted.text !== text) {
    const made = await sortList(number, { scheme, tags });
    if (made === null) return null;
    sorted = { ...made, asked, text, order: number };
  }
  const ofMixed = scheme === "mixed" ? wanted : "";
  const [requirement, wrong] = read(ofMixed, (its) => new versions.Requirement(its), versions.InvalidRequirement);
  const makeSet = (its) => new versions.VersionSet(its, { scheme });
  const [itsSet, noSet] = read(set, makeSet, versions.InvalidVersionSet);
  const matching = await hasOf(number, "Matching", requirement, sorted, {});
  if (matching === null) return null;
  const within = await hasOf(number, "Asking the set for", itsSet, sorted, { scheme });
  if (within === null || number !== newest) return null;
  now = { ...sorted, scheme, requirement, matches: matching.has, isIn: within.has };
  const { lines, numbers, places, count, like } = sorted;
  const none = places.slice(count, count + WRONG);
  return {
    order: sorted.order,
    count,
    others: lines.length - count,
    none: none.map((place) => ({ line: numbers[place], text: lines[place], ...flawOf(lines[place], scheme, tags) })),
    like,
    wanted: requirement && {
      hits: matching.hits, newest: matching.newest, conflict: requirement.conflict, range: rangeOf(requirement, sorted),
    },
    wrong: wrong && { text: wrong.text, member: wrong.member, start: wrong.start },
    set: itsSet && { hits: within.hits, newest: within.newest },
    noSet: noSet && { text: noSet.text, start: noSet.start, reason: noSet.reason },
  };
}

function rowAt(place, withKey) {
  const { lines, numbers, places, count, texts, scheme, requirement, matches, isIn } = now;
  const its = { text: lines[places[place]], line: numbers[places[place]], version: null };
  if (place >= count) return its;
  const version = texts[place];
  its.version = version;
  const isTie = place > 0 && versions.compare(texts[place - 1], version, { scheme }) === 0;
  its.tie = !isTie ? "" : lines[places[place - 1]] === its.text ? "same" : "equal";
  if (scheme === "mixed") {
    [its.kind] = versions.kinds([version]);
    [its.stability] = versions.stabilities([version]);
  }
  its.matches = matches[place];
  if (its.matches === false) {
    const { member, reason } = requirement.whyNot(version);
    its.why = { member, reason };
  }
  its.isIn = isIn[place];
  if (withKey) {
    const key = versions.sortKey(version, { scheme });
    its.key = scheme === "mixed" ? partsOf(key, KEY_IN_ROW) : [{ name: "whole", says: "", hex: hex(key, KEY_IN_ROW) }];
  }
  return its;
}

/* The rows from one place up to another. */
const rows = (from, to, withKey) =>
  Array.from({ length: to - from }, (_, place) => rowAt(from + place, withKey));

/* The lines that are versions, in order. */
const inOrder = () => now.places.slice(0, now.count).map((place) => `${now.lines[place]}\n`).join("");

/* Two versions side by side: which comes first, where they differ, and what is there. */
function pair(texts, scheme, wanted) {
  const keys = versions.sortKeys(texts, { scheme });
  if (keys.includes(null)) return { none: keys.map((key) => key === null) };
  const same = texts[0] === texts[1];
  const order = versions.compare(...texts, { scheme });
  if (scheme !== "mixed") return { order, same, keys: keys.map((key) => hex(key)) };
  const [one, other] = texts.map((its) => new versions.Version(its));
  const { kind, part } = one.difference(other);
  const [requirement] = read(wanted, (its) => new versions.Requirement(its), versions.InvalidRequirement);
  const whyNot = requirement === null ? [] : texts.map((its) => requirement.whyNot(its)).filter((why) => why !== null);
  return { order, same, kind, part, rows: rowsOf([one, other], part), whyNot: whyNot.map(String) };
}

const CALLS = { schemes: () => versions.SCHEMES, list, rows, inOrder, pair };

onmessage = async ({ data: { id, name, words } }) => {
  try {
    postMessage({ id, value: await CALLS[name](...words) });
  } catch (error) {
    postMessage({ id, fault: error.message });
  }
};
