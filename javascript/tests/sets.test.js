// VersionSet: what a set has, what is made of sets, and which texts are none. Beside docs/SETS.md the tables are those of
// python/tests.
import assert from "node:assert/strict";
import { inspect } from "node:util";
import { readFileSync } from "node:fs";
import { test } from "node:test";
import { pathToFileURL } from "node:url";
import { folder, refusesSet, refusesType, refusesVersion, versions } from "./support.js";

// The very module that the package has loaded.
const library = await import(pathToFileURL(`${folder}/library.js`));

const { InvalidVersionSet, Requirement, Version, VersionSet, matchAll, maxSatisfying, minSatisfying } = versions;
const { newest, sortKey } = versions;

const PAGE = readFileSync(new URL("../../docs/SETS.md", import.meta.url), "utf8");
// The cells of a table of the page, by its heading.
function rowsOf(heading) {
  const [, table] = PAGE.split(`| ${heading} |\n`);
  const rows = table.split("\n\n")[0].split("\n").slice(1);
  return rows.map((row) => row.split(/(?<!\\)\|/).slice(1, -1).map((cell) => cell.trim().replaceAll("\\|", "|")));
}
const spans = (cell) => [...cell.matchAll(/`(.*?)`/g)].map((found) => found[1]);

const ROWS = [
  ...rowsOf("set | has | has not").map(([text, has, lacks]) => [text.slice(1, -1), spans(has), spans(lacks)]),
  ...[
    ["~=1.2", "1.2 1.5", "2 1.1"], ["~>1.2", "1.2 1.5", "2 1.1"], ["^0.0.3", "0.0.3 0.0.3.1", "0.0.2 0.0.4 0.1"],
    ["^0.0", "0.0 0.0.7", "0.1"], ["^1:0.2", "1:0.2 1:0.2.1", "0.2 2:0.2 1:0.3"],
    ["==1.2.*", "1.2 1.2-1 1.2.0-rc.1 1.2.x", "1.2rc1 1.20"], ["!=1.2.*", "1.2rc1 1.20", "1.2 1.2-1 1.2.0-rc.1 1.2.x"],
    ["=1.2", "1.2 0:1.2 01.2 1.2+x", "1.2-1 1.2.0 1.3"], ["<=1.2", "1.2 0:1.2 1.1", "1.2.0 1.2.1"],
    [">1.2", "1.2.0 1.2.1", "1.2 0:1.2 1.1"], ["*", "0 1.2 1:2_3 latest", "1"], [" \t>= 1.2\t,<\t2 ", "1.2 1.9", "2 1.1"],
    [">=1||<0.5,*", "1 0.4", "0.5"], [">1 <1", "", "0 1 2"],
  ].map(([text, has, lacks]) => [text, has.split(" ").filter(Boolean), text === "*" ? [] : lacks.split(" ")]),
];

// Texts that are no sets, the units before the first wrong piece, and the beginning of the reason.
const OPERATOR = "an operator is missing before the version: = for it alone, >= for it and all later";
const MEMBER = "a member is missing: * has all versions";
const NOT_VERSION = "what follows the operator is not a version";
const WRONG = [
  ...rowsOf("text | at | what is said").map(([text, at, reason]) => [text.slice(1, -1), Number(at), reason]),
  ["", 0, MEMBER], [" \t", 2, MEMBER], [",*", 0, MEMBER], ["*,,*", 2, MEMBER], ["* ||", 4, MEMBER], ["||", 0, MEMBER],
  ["=1..2", 1, NOT_VERSION], ["=1\0", 1, NOT_VERSION], ["*, =\u00e9", 4, NOT_VERSION], ["\u00e9\u00e9, 2", 0, OPERATOR],
  ["*\u00a0*", 0, OPERATOR], ["*\n", 0, OPERATOR], ["*, \u00e9 *", 3, OPERATOR],
  // Beyond 16 bits, which are two units and four bytes, and halves of these, which are one unit and three bytes.
  ["\ud800", 0, OPERATOR], ["* \u{1f600}\ud83d", 2, OPERATOR], [">=1.2, ^1\udcff", 8, NOT_VERSION],
  ["=\u{1f600}", 1, NOT_VERSION], ["*, =\ude00\ud83d, 1", 4, NOT_VERSION],
];
const NO_VERSIONS = ["", "1..2", "1.2.3 ", ".", "1\0", "1.2.3-ä", "\ud800", "1.2.3\udcff", "x y"];
const [ALL, NOTHING] = [new VersionSet("*"), new VersionSet(">1 <1")];
const hexOf = (key) => Buffer.from(key).toString("hex");

class MySet extends VersionSet {}
class MyVersion extends Version {
  toString() {
    return "9.9";
  }
}

test("what a set has", () => {
  assert.equal(ROWS.length, 23);
  for (const [text, has, lacks] of ROWS) {
    const set = new VersionSet(text);
    for (const [given, answer] of [[has, true], [lacks, false]]) {
      for (const version of given) {
        for (const one of [version, new Version(version), new MyVersion(version)]) {
          assert.deepEqual([set.has(one), set.matches(one), set.not().has(one)], [answer, answer, !answer], `${text} ${version}`);
        }
      }
      assert.deepEqual(set.hasAll(given), given.map(() => answer));
      assert.deepEqual(set.filter(given), answer ? given : []);
    }
  }
});

test("what is no set", () => {
  assert.equal(WRONG.length, 29);
  for (const [text, start, reason] of WRONG) refusesSet(() => new VersionSet(text), text, start, reason);
  // After many units before it, written by another way than a short text.
  for (const front of ["=1 || ".repeat(100), "=1\t||".repeat(1000)]) {
    refusesSet(() => new VersionSet(`${front}=\u{1f600}`), `${front}=\u{1f600}`, front.length + 1, NOT_VERSION);
    refusesSet(() => new VersionSet(`${front}=\u{1f600} 2`), `${front}=\u{1f600} 2`, front.length + 1, NOT_VERSION);
  }
  // Made by hand, of a text that is a set.
  const error = new InvalidVersionSet("*");
  assert.deepEqual([error.start, error.reason, error.message], [0, "", 'not a set of versions: "*"']);
  assert.throws(() => new InvalidVersionSet("*", "dpkg"), RangeError);
});

test("a place counts units, wherever the library says it is", () => {
  const { call } = library;
  const kept = call.versions_set_wrong;
  call.versions_set_wrong = (...passed) => {
    const status = kept(...passed);
    library.words[library.START / 4] = 9; // the bytes before the comma
    return status;
  };
  try {
    const error = new InvalidVersionSet("\u00e9\u{1f600}\ud800, 2");
    assert.deepEqual([error.start, error.reason], [4, OPERATOR]);
  } finally {
    call.versions_set_wrong = kept;
  }
});

test("what is no text, and what is no version", () => {
  for (const other of [null, undefined, 1.2, 5n, true, ["*"], { toString: () => "*" }, new Requirement("*"), Symbol("*")]) {
    const type = other === null ? "null" : typeof other;
    for (const call of [(it) => new VersionSet(it), (it) => VersionSet.of(it), (it) => ALL.has(it), (it) => ALL.matches(it)]) {
      refusesType(() => call(other), type);
    }
    if (typeof other !== "number" && other !== null && other !== undefined) {
      for (const call of [(it) => ALL.filter(["1", it]), (it) => ALL.hasAll(["1", it])]) refusesType(() => call(other), type, "item 1");
    }
    for (const name of ["and", "or", "isPartOf", "meets", "equals"]) refusesType(() => ALL[name](other), type);
  }
  refusesType(() => new VersionSet(new Version("1")), "object");
  for (const name of ["and", "or", "isPartOf", "meets", "equals"]) {
    for (const other of ["*", new Version("1"), VersionSet, Object.create(VersionSet.prototype)]) {
      refusesType(() => ALL[name](other), typeof other);
    }
  }
  for (const call of ["filter", "hasAll"]) for (const one of ["1.2", "", 5, {}]) refusesType(() => ALL[call](one), typeof one);
  assert.throws(() => VersionSet("*"), TypeError);
  assert.throws(() => VersionSet.prototype.has.call({}, "1"), TypeError);
  for (const set of [ALL, NOTHING]) {
    for (const text of NO_VERSIONS) {
      refusesVersion(() => set.matches(text), text);
      refusesVersion(() => VersionSet.of(text), text);
      assert.equal(set.has(text), false);
    }
  }
});

test("the set of one version, which may be any", () => {
  for (const text of ["1.2", "0:1.2", "latest", "v1.2", "1.x", "1_2", "1.2.3-rc.1+x", `${"1.".repeat(5000)}1`]) {
    for (const set of [VersionSet.of(text), VersionSet.of(new Version(text)), MySet.of(text)]) {
      assert.ok(set.has(text) && !set.has(`9${text}`));
      assert.deepEqual(set.intervals.map(([low]) => low), [sortKey(text)]);
    }
  }
  assert.ok(VersionSet.of("1.2").equals(new VersionSet("=0:1.2")));
  assert.deepEqual([VersionSet.of("1").constructor, MySet.of("1").constructor], [VersionSet, MySet]);
});

test("many texts", () => {
  const set = new VersionSet("^1.2 || =3");
  const texts = ["1.5", null, "2", "1..2", NaN, new Version("3"), new MyVersion("3.0"), "\ud800", "0:3", undefined];
  const wanted = [true, null, false, null, null, true, false, null, true, null];
  for (const given of [texts, new Set(texts), texts.values()]) assert.deepEqual(set.hasAll(given), wanted);
  assert.deepEqual([matchAll(set, texts), matchAll(new MySet("=3"), ["3"])], [wanted, [true]]);
  assert.deepEqual([set.hasAll([]), set.filter([]), NOTHING.hasAll(["1", ""])], [[], [], [false, null]]);
  const kept = set.filter(texts);
  [0, 5, 8].forEach((place, at) => assert.equal(kept[at], texts[place]));
  assert.equal(kept.length, 3);
  assert.throws(() => set.filter((function* () { yield "1.2"; throw new Error("mine"); })()), /mine/);
});

test("equal sets", () => {
  for (const alike of [
    ["^1.2", ">=1.2 =1.*", "=1.* >=1.2 || ^1.2, =1.*, !=1.1", "~1.2", ">=0:1.2+x =0:1.*"],
    ["*", "<1 || >=1", "!=1 || =1", "* || <1", ">=1 || <2"],
    [">1 <1", "<1 >1", "=1 =2", "!=1 =1", "=1.* =2.*"],
    ["=1.2", "==1.2", "=0:1.2", "=01.2", ">=1.2 <=1.2"],
  ]) {
    const sets = alike.map((text) => new VersionSet(text));
    for (const one of sets) for (const other of sets) assert.ok(one.equals(other) && one.isPartOf(other));
    assert.deepEqual(sets.map(String), alike);
  }
  const others = ["^1.2", "^1.3", "^1.2 || =3", "^1.2.0", "=1.2", ">1 <1", "*"].map((text) => new VersionSet(text));
  others.forEach((one, place) => others.forEach((other, at) => assert.equal(one.equals(other), place === at)));
  assert.ok(new MySet("^1.2").equals(new VersionSet("^1.2")));
});

test("what is computed", () => {
  const [low, high] = ["1.2", "2"].map((text) => hexOf(sortKey(text)));
  for (const [set, shown] of [
    [new VersionSet(">=1.2").and(new VersionSet("<2")), `[${low}, ${high})`],
    [new VersionSet(">=1.2, <2").not(), `[, ${low}) || [${high}, )`],
    [new VersionSet("<1.2").or(new VersionSet(">=2")), `[, ${low}) || [${high}, )`],
    [NOTHING.or(new VersionSet(">=2")), `[${high}, )`], [NOTHING.not(), "[, )"], [ALL.not(), "nothing"],
    [new MySet("<2").and(new MySet(">=1.2")), `[${low}, ${high})`],
  ]) {
    assert.deepEqual([String(set), inspect(set), JSON.stringify([set])], [shown, `<VersionSet: ${shown}>`, JSON.stringify([shown])]);
    assert.deepEqual([set.constructor, set.isEmpty], [VersionSet, shown === "nothing"]);
    assert.throws(() => new VersionSet(shown), InvalidVersionSet);
    assert.ok(new VersionSet(set).equals(set) && String(new VersionSet(set)) === shown);
  }
  const [one, other] = [new VersionSet("~1.2.3"), new VersionSet("^1.2")];
  assert.deepEqual([one.isPartOf(other), other.isPartOf(one)], [true, false]);
  assert.deepEqual([">=2", ">1", "=2"].map((text) => new VersionSet("<2").meets(new VersionSet(text))), [false, true, false]);
  // A set is of keys: no version lies there.
  assert.ok(new VersionSet(">1.2, <1.2-0").meets(new VersionSet(">1.2, <1.2-0")));
});

test("how a set is shown, and that it never changes", () => {
  const made = [[new VersionSet(" ^1.2||* "), " ^1.2||* ", 'VersionSet(" ^1.2||* ")'],
    [VersionSet.of("0:1.2"), `[${hexOf(sortKey("1.2"))}, ${hexOf(sortKey("1.2"))}00)`, 'VersionSet.of("0:1.2")'],
    [new VersionSet(new VersionSet("=1")), "=1", 'VersionSet("=1")']];
  for (const [set, text, shown] of made) {
    assert.deepEqual([String(set), `${set}`, set.toJSON(), inspect(set)], [text, text, text, shown]);
    assert.deepEqual(Object.keys(set), []);
    for (const name of ["scheme", "isEmpty", "intervals"]) assert.throws(() => { set[name] = 1; }, TypeError);
    for (const [low] of set.intervals) low.fill(255);
    assert.equal(String(set), text);
    assert.ok(set.has("1.2") !== set.not().has("1.2"));
  }
});

test("the newest and the oldest in a set", () => {
  const tags = ["v1.9.0", "v1.10.0", "v2.0.0-beta.1", "latest", "v2.0.0", "v2.1.0-rc.1", null];
  const set = new VersionSet("^1.2 || >2");
  assert.equal(newest(tags, { requirement: set, tags: true }), "v2.1.0-rc.1");
  assert.equal(newest(tags, { requirement: set, tags: true, stability: "stable" }), "v2.0.0");
  assert.equal(newest(tags, { requirement: new VersionSet("<2"), tags: true, stability: "stable" }), "v1.10.0");
  assert.equal(newest(tags, { requirement: NOTHING, tags: true }), null);
  assert.equal(newest(["go1.2", "\ud800-v1.2"], { requirement: ALL, tags: true }), null);
  // Of those that tie the first, as the item that it is.
  const items = [new Version("1.2"), "0:1.2", new Version("1.1"), "3", "x y"];
  assert.equal(newest(items, { requirement: new VersionSet("<3") }), items[0]);
  assert.equal(newest(items.toReversed?.() ?? [...items].reverse(), { requirement: new VersionSet("<3") }), "0:1.2");
  assert.deepEqual([maxSatisfying(items, new VersionSet("<3")), minSatisfying(items, new VersionSet(">1.1"))], [items[0], items[0]]);
  assert.deepEqual([maxSatisfying(items, NOTHING), minSatisfying(items, NOTHING)], [null, null]);
});

test("long sets and texts", () => {
  const long = `${"1.".repeat(500_000)}1`;
  const set = new VersionSet(`<${long}`);
  assert.deepEqual([set.has(long), set.has("1"), set.not().has(long), VersionSet.of(long).has(`0:${long}`)], [false, true, true, true]);
  const many = Array.from({ length: 20_000 }, (_, n) => `=${(n * 7919) % 20_000}`);
  const either = new VersionSet(many.join("||"));
  assert.equal(either.intervals.length, 20_000);
  assert.ok(either.has("19999") && !either.has("20000") && either.isPartOf(either.or(set)) && either.not().not().equals(either));
  assert.ok(new VersionSet(many.join(",")).isEmpty);
  const blanks = " \t".repeat(500_000);
  assert.ok(new VersionSet(`${blanks}>=1${blanks}`).equals(new VersionSet(">=1")));
  refusesSet(() => new VersionSet(blanks), blanks, blanks.length, MEMBER);
});
