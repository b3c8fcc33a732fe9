// Calls on many texts. The tables are those of python/tests.
import assert from "node:assert/strict";
import { test } from "node:test";
import { chooser, refusesType, refusesVersion, versions } from "./support.js";

const { Requirement, Version, inTags, kinds, matchAll, newest, sort, sortKey, sortKeys, stabilities } = versions;

const USUAL = ["1.2.3", "1..2", "1:2.0rc1-3", "", null, "20.0026.1_0-2+0.93", "\ud800", "1.0", "0:1.0", "é", "1.2.3\0"];
const KINDS = ["ideal", null, "general", null, null, "complex", null, "general", "general", null, null];
// Of `>=1.2,<1:0`, by docs/REQUIREMENTS.md.
const WANTED = [true, null, false, null, null, true, null, false, false, null, null];
const CALLS = [kinds, sortKeys, stabilities, inTags, (texts) => matchAll("*", texts)];

test("lists", () => {
  for (const texts of [USUAL, new Set(USUAL), USUAL.values(), (function* () { yield* USUAL; })()]) {
    assert.deepEqual(kinds(texts), KINDS);
  }
  const keys = USUAL.map((text, place) => (KINDS[place] === null ? null : sortKey(text)));
  assert.deepEqual(sortKeys(USUAL), keys);
  for (const list of [">=1.2,<1:0", new Requirement(">=1.2,<1:0")]) assert.deepEqual(matchAll(list, USUAL), WANTED);
  for (const missing of [null, undefined, NaN]) {
    for (const call of CALLS) assert.equal(call(["1", missing])[1], null);
  }
  // A hole is a missing value.
  assert.deepEqual(kinds([, "1"]), [null, "general"]);
});

test("no texts", () => {
  for (const call of [...CALLS, sort, (texts) => new Requirement("*").filter(texts)]) {
    for (const empty of [[], new Set(), [].values()]) assert.deepEqual(call(empty), []);
  }
  assert.deepEqual(kinds(["", ""]), [null, null]);
});

test("what are no texts", () => {
  for (const call of [...CALLS, sort, newest, (texts) => new Requirement("*").filter(texts)]) {
    for (const other of ["1.2", 5, null, undefined, {}, new Version("1")]) {
      refusesType(() => call(other), other === null ? "null" : typeof other);
    }
    for (const other of [5, 1.2, {}, ["1"], new Requirement("*")]) {
      refusesType(() => call(["1.2", other, 7]), typeof other, "item 1");
    }
    assert.throws(() => call((function* () { yield "1.2"; throw new Error("mine"); })()), /mine/);
    // The calls go on as before.
    assert.deepEqual(kinds(USUAL), KINDS);
  }
});

test("texts that change while they are read, and calls within calls", () => {
  const texts = Array(10).fill("1.2");
  const shrinking = function* () {
    for (let place = 0; place < texts.length; place++) {
      if (texts.length > 5) texts.pop();
      new Version("9".repeat(1000)).compare("9");
      yield texts[place];
    }
  };
  assert.deepEqual(kinds(shrinking()), Array(5).fill("general"));
  const items = [3, 20, 1];
  assert.deepEqual(sort(items, { key: (item) => { sort(["2", "1"]); return String(item); } }), [1, 3, 20]);
  const odd = new Proxy(["1", "2"], { get: (of, name) => (name === "0" ? (of.pop(), "1") : of[name]) });
  assert.deepEqual(sort(odd), ["1"]);
});

test("a hundred thousand", () => {
  const count = 100_000;
  const numbers = (n) => [n % 7, n % 1000, n];
  const texts = Array.from({ length: count }, (_, n) => (n % 10 ? numbers(n).join(".") : "1..2"));
  const [of, matches, keys] = [kinds(texts), matchAll(">=3", texts), sortKeys(texts)];
  for (let n = 0; n < count; n++) {
    assert.ok(of[n] === (n % 10 ? "ideal" : null) && matches[n] === (n % 10 ? n % 7 >= 3 : null), texts[n]);
    if (n % 97 === 0) assert.deepEqual(keys[n], n % 10 ? sortKey(texts[n]) : null);
  }
  const places = Array.from(texts.keys()).filter((n) => n % 10);
  places.sort((a, b) => a % 7 - b % 7 || a % 1000 - b % 1000 || a - b);
  const sorted = sort(texts, { invalid: "last" });
  for (let n = 0; n < count; n++) assert.ok(sorted[n] === (texts[places[n]] ?? "1..2"), `place ${n}`);
  assert.equal(newest(texts), texts[places.at(-1)]);
  assert.equal(newest(texts.map((text) => `v${text}`), { tags: true }), `v${texts[places.at(-1)]}`);
});

test("sort", () => {
  assert.deepEqual(sort(["1.10", "1.9", "1.10rc1"]), ["1.9", "1.10rc1", "1.10"]);
  const texts = ["2", "10", "1"];
  assert.deepEqual(sort(texts), ["1", "2", "10"]);
  assert.deepEqual(texts, ["2", "10", "1"]);
  const items = [new Version("1"), "1", new Version("1")];
  for (const reverse of [false, true]) sort(items, { reverse }).forEach((item, place) => assert.equal(item, items[place]));
  // As a stable sort; the ties are by docs/ORDER.md.
  const tied = ["1.0.0+b", "2", "1.0.0+a", "0.9.0", "1.0.0+c", "2"];
  assert.deepEqual(sort(tied, { reverse: true }), ["2", "2", "1.0.0+b", "1.0.0+a", "1.0.0+c", "0.9.0"]);
  assert.deepEqual(sort(["1.2", "0:1.2", "1.3"], { reverse: true }), ["1.3", "0:1.2", "1.2"]);
  for (const texts of [["1", "1..2", "x y"], ["1..2"], ["2", "1", "1..2"]]) {
    const message = `item ${texts.indexOf("1..2")} is not a version: "1..2"`;
    for (const reverse of [false, true]) refusesVersion(() => sort(texts, { reverse }), "1..2", message);
  }
  for (const text of ["", "\ud800"]) {
    refusesVersion(() => sort(["1", text]), text, `item 1 is not a version: ${JSON.stringify(text)}`);
  }
  for (const reverse of [false, true]) refusesType(() => sort(["1", null, "2"], { reverse }), "null", "item 1");
  for (const wrong of ["first", ""]) assert.throws(() => sort(["1"], { invalid: wrong }), RangeError);
});

test("options", () => {
  const typeOf = (value) => (value === null ? "null" : typeof value);
  const values = [null, true, 1, NaN, 5n, "1", () => "1", Symbol("1"), {}, ["*"], new Version("1")];
  for (const call of [sort, versions.rsort, newest]) {
    for (const value of values.filter((value) => typeof value !== "object" || value === null)) {
      refusesType(() => call([], value), typeOf(value));
    }
    const known = call === newest ? "requirement, stability, tags, scheme" : "key, reverse, invalid, scheme";
    for (const name of ["Reverse", "loose", "toString", "__proto__", "0", ""]) {
      const message = `there is no option ${JSON.stringify(name)}, but ${known}`;
      for (const value of [true, undefined]) assert.throws(() => call([], { [name]: value }), { name: "TypeError", message });
    }
  }
  // The types of an option, and values of it.
  for (const [call, name, types, good] of [
    [sort, "key", ["function", "null"], [undefined, null, String]],
    [sort, "reverse", ["boolean"], [undefined, false, true]],
    [sort, "invalid", ["string"], [undefined, "throw", "last"]],
    [newest, "requirement", ["string", "null"], [undefined, null, "*", new Requirement("*")]],
    [newest, "stability", ["string", "null"], [undefined, null, "dev"]],
    [newest, "tags", ["boolean"], [undefined, false, true]],
  ]) {
    for (const value of good) assert.equal(call(["1"], { [name]: value })[0], "1");
    for (const value of values.filter((value) => !types.includes(typeOf(value)))) {
      refusesType(() => call([], { [name]: value }), typeOf(value));
    }
  }
  // Each is read once, wherever it is from.
  let asked = 0;
  const options = Object.create({ get reverse() { return asked++ === 0; } });
  assert.deepEqual([sort(["1", "2"], options), asked], [["2", "1"], 1]);
});

test("what is not a version comes last", () => {
  const last = ["x y", null, "", NaN, "\ud800", undefined, "x y"];
  const items = ["x y", "2", null, "", "1", NaN, "\ud800", undefined, "x y", "3"];
  assert.deepEqual(sort(items, { invalid: "last" }), ["1", "2", "3", ...last]);
  assert.deepEqual(sort(items, { invalid: "last", reverse: true }), ["3", "2", "1", ...last]);
  for (const reverse of [false, true]) assert.deepEqual(sort(last, { invalid: "last", reverse }), last);
  for (const other of [5, {}, new Requirement("*")]) refusesType(() => sort(["1", other], { invalid: "last" }), typeof other, "item 1");
});

test("sort by a key", () => {
  const rows = ["1.10", new Version("1.9"), "0:1.9", "1.9", "1.10rc1"].map((v) => ({ v }));
  const key = (row) => row.v;
  assert.deepEqual(sort(rows, { key }), [1, 3, 2, 4, 0].map((n) => rows[n]));
  assert.deepEqual(sort(rows, { key, reverse: true }), [0, 4, 2, 1, 3].map((n) => rows[n]));
  const bad = ["x y", "1", null, "2", ""].map((v) => ({ v }));
  assert.deepEqual(sort(bad, { key, invalid: "last" }), [1, 3, 0, 2, 4].map((n) => bad[n]));
  assert.deepEqual(sort(bad, { key, invalid: "last", reverse: true }), [3, 1, 0, 2, 4].map((n) => bad[n]));
  for (const reverse of [false, true]) {
    refusesVersion(() => sort([bad[1], bad[0], bad[4]], { key, reverse }), "x y", 'the key of item 1 is not a version: "x y"');
    refusesType(() => sort([bad[1], { v: 5 }, {}], { key, reverse }), "number", "the key of item 1");
    refusesType(() => sort([null, {}, { v: 5 }], { key: (row) => row?.v, reverse, invalid: "last" }), "number", "the key of item 2");
  }
  const called = [];
  sort(["3", "1", "2"], { key: (item) => (called.push(item), item), reverse: true });
  assert.deepEqual(called, ["3", "1", "2"]);
  assert.throws(() => sort(["1"], { key: () => { throw new Error("mine"); } }), /mine/);
});

test("sort by a model", () => {
  // In increasing order by docs/ORDER.md; those of one text tie.
  const order = ["0.9.0", "1.0.0 1.0.0+a 1.0.0+b", ..."1.2 1.2+a 1.2+b 0:1.2 01.2 1.002 1.2.0-rc.1 1:0.1".split(" ")];
  const ranks = new Map(order.flatMap((tied, rank) => tied.split(" ").map((text) => [text, rank])));
  const texts = [...ranks.keys(), "x y", "", null];
  const below = chooser(2);
  for (let run = 0; run < 2000; run++) {
    const items = Array.from({ length: below(12) }, (_, n) => [n, texts[below(texts.length)]]);
    const isGood = ([, text]) => ranks.has(text);
    const rank = ([, text]) => ranks.get(text);
    for (const reverse of [false, true]) {
      const wanted = items.filter(isGood).sort((a, b) => (rank(a) - rank(b)) * (reverse ? -1 : 1));
      wanted.push(...items.filter((item) => !isGood(item)));
      assert.deepEqual(sort(items, { key: (item) => item[1], reverse, invalid: "last" }), wanted);
    }
  }
});

test("filter", () => {
  // Of an exact range and of one that is not, by docs/REQUIREMENTS.md.
  const texts = ["1.2", "1.2.3", "5.0", "1.5", "1.2.4"];
  const items = texts.flatMap((text) => [new Version(text), text]);
  items.splice(3, 0, null, "1..2", NaN, undefined);
  for (const [list, matched] of [["^1.2.3", ["1.2.3", "1.2.4"]], ["~1.2", ["1.2", "1.5"]], ["*", texts]]) {
    const wanted = items.filter((item) => item && matched.includes(String(item)));
    const found = new Requirement(list).filter(items.values());
    assert.equal(found.length, wanted.length);
    found.forEach((item, place) => assert.equal(item, wanted[place]));
  }
});

test("newest", () => {
  const tags = ["v1.9.0", "v1.10.0", "v2.0.0-beta.1", "latest", "v2.0.0", "v2.1.0-rc.1"];
  assert.equal(newest(tags, { tags: true }), "v2.1.0-rc.1");
  assert.equal(newest(tags, { tags: true, stability: "stable" }), "v2.0.0");
  assert.equal(newest(tags, { requirement: "<2", stability: "stable", tags: true }), "v1.10.0");
  assert.equal(newest(tags, { requirement: new Requirement(">=3"), tags: true }), null);
  // As texts and not as tags, by docs/ORDER.md.
  assert.equal(newest(["v2.0.0", "v2.0.0-beta.1", "v1.9.0"]), "v2.0.0-beta.1");
  assert.equal(newest(["go1.2", "go1.3"], { tags: true }), null);
  assert.equal(newest(["1.10-SNAPSHOT", "1.9b1"], { stability: "beta" }), "1.9b1");
  assert.equal(newest(["1.10", "1.9"], { requirement: null, stability: null, tags: false }), "1.10");
  for (const texts of [[], [null], ["x y", ""], [NaN], ["\ud800", "1..2"], ["\ud8001.2"]]) {
    for (const more of [{}, { tags: true }, { requirement: "*" }, { stability: "dev" }]) assert.equal(newest(texts, more), null);
  }
  // The first of those that tie, by docs/ORDER.md.
  const tied = ["1.2", "01.2", "0:1.2", "1.2+x", "1.002"];
  for (let n = 0; n < tied.length; n++) {
    const turned = [...tied.slice(n), ...tied.slice(0, n)].map((text, place) => (place % 2 ? new Version(text) : text));
    assert.equal(newest(["1.1", null, ...turned, "x y", "1.2rc1"]), turned[0]);
  }
  const items = ["1.2", "1.2.3", "0:1.2", "1.5", "1.2.9", "2.0"];
  const wanted = { "^1.2.3": "1.2.9", "~1.2": "1.5", "=1.2": "1.2", "=0:1.2": "0:1.2", "<1.5": "1.2.9", "*": "2.0" };
  for (const [requirement, text] of Object.entries(wanted)) {
    assert.equal(newest(items, { requirement }), text);
    assert.equal(String(newest(items.map((each) => new Version(each)).reverse(), { requirement })), text);
  }
  for (const stability of ["", "Beta"]) assert.throws(() => newest([], { stability }), RangeError);
  for (const requirement of [5, new Version("1"), ["*"]]) assert.throws(() => newest([], { requirement }), TypeError);
});
