// `scheme`: the orders of other systems, in the calls, of Version and of VersionSet. The rows of each scheme are those of
// tests/support/schemes.py.
import assert from "node:assert/strict";
import { inspect } from "node:util";
import { readFileSync } from "node:fs";
import { test } from "node:test";
import {
  chooser, compareBytes, folder, refusesScheme, refusesSet, refusesType, refusesVersion, rowsOf, versions,
} from "./support.js";

const {
  InvalidVersion, InvalidVersionSet, Requirement, SCHEMES, Version, VersionSet, compare, compareTotal, eq, gt, gte,
  inTags, kind, kinds, lt, lte, matchAll, maxSatisfying, minSatisfying, neq, newest, rcompare, rsort, satisfies, sort,
  sortKey, sortKeys, stabilities,
} = versions;

const DEB = { scheme: "deb" };
const deb = (text) => new Version(text, DEB);
const debs = (text) => new VersionSet(text, DEB);

// In increasing order by Debian Policy, 5.6.12. Those of one row are equal.
const ROWS = [
  "1.0~~", "1.0~~a", "1.0~", "1.0~rc1", "1.0 1.0-0 0:1.0 01.0", "1.0-1", "1.0a", "1.0+", "1.9", "1.10", "9", "1:0",
].map((row) => row.split(" "));
const RANKS = new Map(ROWS.flatMap((tied, rank) => tied.map((text) => [text, rank])));
const TEXTS = [...RANKS.keys()];
// No versions by the same, and what is no text of Unicode.
const NONE = ["a1", "1-", "a:1", "", "1_0", "1 0", "1\0", "1.é", "\ud800", "1.0\udcff", "1\u{1f600}"];

class MyVersion extends Version {
  get scheme() {
    return "mixed";
  }

  toString() {
    return "9.9";
  }
}

// Each call that takes a scheme, of texts that are versions in all of them.
const CALLS = {
  compare: (options) => compare("1.0.0", "1.0.0", options),
  "Version.compare": (options) => Version.compare("1.0.0", "1.0.1", options),
  sortKey: (options) => sortKey("1.0.0", options),
  sortKeys: (options) => sortKeys(["1.0.0", null], options),
  sort: (options) => sort(["1.0.1", "1.0.0"], options),
  rsort: (options) => rsort(["1.0.1", "1.0.0"], options),
  rcompare: (options) => rcompare("1.0.0", "1.0.1", options),
  gt: (options) => [gt, gte, lt, lte, eq, neq].map((call) => call("1.0.0", "1.0.1", options)),
  newest: (options) => newest(["1.0.1", "1.0.0"], options),
  Version: (options) => new Version("1.0.0", options),
  VersionSet: (options) => new VersionSet(">=1.0.0", options),
  "VersionSet.of": (options) => VersionSet.of("1.0.0", options),
};
const shown = (value) => inspect(value);

// Each scheme, and what else it is called.
const NAMES = new Map(rowsOf("scheme").map(([scheme, , ...others]) => [scheme, others]));

test("the names of all schemes", () => {
  assert.ok(Object.isFrozen(SCHEMES));
  assert.deepEqual(SCHEMES, [...NAMES.keys()]);
  const [, union] = readFileSync(`${folder}/schemes.d.ts`, "utf8").match(/^export type Scheme = (.*);$/m);
  assert.deepEqual(union.split(" | "), SCHEMES.map((name) => JSON.stringify(name)));
  for (const [name, call] of Object.entries(CALLS)) {
    for (const scheme of SCHEMES) {
      const answer = call({ scheme });
      if (typeof answer === "object" && "scheme" in answer) assert.equal(answer.scheme, scheme, name);
      assert.equal(shown(call(Object.create({ scheme }))), shown(answer), name);
    }
    for (const options of [undefined, {}, { scheme: undefined }]) {
      assert.equal(shown(call(options)), shown(call({ scheme: "mixed" })), name);
    }
  }
});

test("the names of people, in any case", () => {
  const [, union] = readFileSync(`${folder}/schemes.d.ts`, "utf8").match(/^export type SchemeName =\n {2}\| Scheme\n(.*?);$/ms);
  const all = [...NAMES.values()].flat();
  assert.ok(all.length > 12);
  assert.deepEqual([...union.matchAll(/"(.*?)"/g)].map((found) => found[1]), all);
  for (const [scheme, names] of NAMES) {
    for (const its of [scheme, ...names]) {
      for (const written of [its, its.toUpperCase(), its[0].toUpperCase() + its.slice(1)]) {
        for (const [name, call] of Object.entries(CALLS)) {
          const answer = call({ scheme: written });
          assert.equal(shown(answer), shown(call({ scheme })), `${name} ${written}`);
          if (typeof answer === "object" && "scheme" in answer) assert.equal(answer.scheme, scheme, name);
        }
      }
    }
  }
  assert.throws(() => newest(["1"], { scheme: "Debian", tags: true }), { message: /for the scheme mixed alone, and this is deb$/ });
});

test("what is no scheme", () => {
  for (const call of Object.values(CALLS)) {
    for (const wrong of ["dpkg", "debia", "deb ", "deb\0", "", "\ud800", "é", "toString", "0", "d".repeat(1_000_000)]) {
      const message = `a scheme is one of ${SCHEMES.join(", ")}, and this is ${JSON.stringify(wrong)}`;
      assert.throws(() => call({ scheme: wrong }), { name: "RangeError", message });
    }
    for (const wrong of [null, 2, 2n, true, ["deb"], deb("1"), () => "deb", Symbol("deb")]) {
      refusesType(() => call({ scheme: wrong }), wrong === null ? "null" : typeof wrong);
    }
    for (const wrong of [null, "deb", 2, true, Symbol("deb")]) {
      refusesType(() => call(wrong), wrong === null ? "null" : typeof wrong);
    }
    for (const wrong of [{ Scheme: "deb" }, { scheme: "deb", loose: true }]) {
      assert.throws(() => call(wrong), { name: "TypeError", message: /^there is no option / });
    }
  }
  // A place in a list is no option.
  refusesType(() => ["1"].map(sortKey), "number");
});

test("order and keys", () => {
  for (const [a, i] of RANKS) {
    for (const [b, j] of RANKS) {
      const order = Math.sign(i - j);
      for (const [x, y] of [[a, b], [deb(a), b], [a, new MyVersion(b, DEB)], [deb(a), deb(b)]]) {
        assert.deepEqual([compare(x, y, DEB), Version.compare(x, y, DEB), rcompare(y, x, DEB)], [order, order, order], `${a} ${b}`);
        const said = [gt, gte, lt, lte, eq, neq].map((call) => call(x, y, DEB));
        assert.deepEqual(said, [i > j, i >= j, i < j, i <= j, i === j, i !== j]);
        if (typeof x !== "string") assert.deepEqual([x.compare(y), x.equals(y)], [order, i === j], `${a} ${b}`);
      }
      assert.equal(Math.sign(compareBytes(sortKey(a, DEB), sortKey(deb(b), DEB))), order);
    }
  }
  const keys = TEXTS.map((text) => sortKey(text, DEB));
  assert.deepEqual(TEXTS.map((text) => deb(text).key), keys);
  const texts = [...TEXTS, ...NONE, null, NaN, undefined, ...TEXTS.map(deb)];
  const none = Array(NONE.length + 3).fill(null);
  for (const given of [texts, texts.values(), new Set(texts)]) assert.deepEqual(sortKeys(given, DEB), [...keys, ...none, ...keys]);
  assert.deepEqual(sortKeys([], DEB), []);
  // Mixed is another order, in which `sort` breaks the ties of `compare`.
  assert.deepEqual(["mixed", "deb"].map((scheme) => compare("1.0", "1.0-0", { scheme })), [-1, 0]);
  assert.deepEqual(["mixed", "deb"].map((scheme) => sort(["0:1.2", "1.2"], { scheme })), [["1.2", "0:1.2"], ["0:1.2", "1.2"]]);
});

test("why a text is no version", () => {
  const rows = rowsOf("flaw").map(([scheme, text, place, reason]) => [scheme, text, Number(place), reason]);
  for (const [scheme, front] of rowsOf("front")) {
    rows.push([scheme, `${front}${"1.".repeat(1e6)} `, front.length + 2e6, "a blank"]);
    for (const half of ["\ud800", "\u{1f600}"]) rows.push([scheme, half, 0, "a character past ASCII"]);
  }
  for (const [scheme, text, place, reason] of rows) {
    const made = new InvalidVersion(text, scheme);
    assert.deepEqual([made.place, made.reason], [place, reason], JSON.stringify(text.slice(0, 20)));
    refusesVersion(() => new Version(text, { scheme }), text, undefined, scheme);
    refusesVersion(() => sortKey(text, { scheme }), text, made.message.slice(0, -`; at ${place}: ${reason}`.length), scheme);
  }
  // One made by hand may be of a version, or have its own message; a name of no scheme is refused.
  for (const its of [new InvalidVersion("1.0"), new InvalidVersion("1..2", "deb", "said")]) {
    assert.deepEqual([its.place, its.reason], [null, null]);
  }
  assert.equal(new InvalidVersion("1.0").message, 'not a version: "1.0"');
  assert.throws(() => new InvalidVersion("1..2", "dpkg"), RangeError);
});

test("what is no version of deb", () => {
  for (const text of NONE) {
    for (const call of [
      () => sortKey(text, DEB), () => compare(text, "1_1", DEB), () => compare("1", text, DEB), () => deb(text),
      () => VersionSet.of(text, DEB), () => debs("*").matches(text), () => deb("1").compare(text), () => deb("1").equals(text),
    ]) {
      refusesVersion(call, text, undefined, "deb");
    }
    for (const reverse of [false, true]) {
      const message = `item 1 is not a version of deb: ${JSON.stringify(text)}`;
      refusesVersion(() => sort(["1", text, "a"], { reverse, ...DEB }), text, message, "deb");
    }
    assert.deepEqual([debs("*").has(text), satisfies(text, debs("*"))], [false, false]);
  }
});

test("a value of another scheme", () => {
  const [a, b, my] = [new Version("1.0"), deb("1.0"), new MyVersion("1.0", DEB)];
  const [requirement, strict, set] = [new Requirement(">=1.0"), new Requirement("=1.0"), new VersionSet("*")];
  for (const version of [b, my]) {
    for (const call of [
      () => new Version(version), () => kind(version), () => sortKey(version), () => compare(a, version),
      () => compare(version, "1..2"), () => compareTotal(version, a), () => compareTotal(a, version), () => kinds([a, version]),
      () => sortKeys([version]), () => stabilities([version]), () => inTags([version]), () => matchAll("*", [version]),
      () => sort([a, version]), () => sort([a, version], { invalid: "last", reverse: true }),
      () => sort([version], { key: (item) => item }), () => newest([version]), () => newest([a, version], { tags: true }),
      () => newest([version], { requirement: set }), () => newest([version], { requirement: set, tags: true }),
      () => newest([a], { requirement: debs("*") }), () => Version.fromTag(version), () => a.difference(version),
      () => a.compare(version), () => a.equals(version), () => requirement.matches(version), () => strict.has(version),
      () => requirement.filter([version]), () => strict.whyNot(version), () => VersionSet.of(version), () => set.has(version),
      () => set.matches(version), () => set.filter([a, version]), () => set.hasAll([version]), () => matchAll(set, [version]),
      () => new VersionSet(debs("*")), () => satisfies(version, "*"), () => satisfies(version, set), () => versions.gt(a, version),
      () => maxSatisfying([version], "*"), () => minSatisfying([version], set), () => versions.major(version),
      () => versions.valid(version),
    ]) {
      refusesScheme(call, "mixed", "deb");
    }
  }
  for (const call of [
    () => deb(a), () => sortKey(a, DEB), () => compare(a, b, DEB), () => compare("1", a, DEB), () => b.compare(a), () => b.equals(a),
    () => sortKeys([a], DEB), () => sort([b, a], { invalid: "last", ...DEB }), () => rsort([b, a], DEB), () => newest([b, a], DEB),
    () => newest([b], { requirement: set, ...DEB }), () => VersionSet.of(a, DEB), () => debs("*").has(a), () => debs("*").matches(a),
    () => debs("*").filter([a]), () => debs("*").hasAll([a]), () => debs(set), () => matchAll(debs("*"), [a]),
    () => satisfies(a, debs("*")), () => maxSatisfying([a], debs("*")), () => minSatisfying([a], debs("*")),
  ]) {
    refusesScheme(call, "deb", "mixed");
  }
  for (const name of ["and", "or", "isPartOf", "meets", "equals"]) {
    for (const text of ["*", ">1 <1"]) {
      refusesScheme(() => new VersionSet(text)[name](debs(text)), "mixed", "deb");
      refusesScheme(() => debs(text)[name](new VersionSet(text)), "deb", "mixed");
      refusesScheme(() => debs(text)[name](new VersionSet(text, { scheme: "rpm" })), "deb", "rpm");
    }
  }
  // < and > see one side alone, so they are for versions of mixed.
  const message = "versions of deb are compared by compare: < and > don't see the other's scheme";
  for (const call of [() => a < b, () => b > a, () => b <= my, () => b >= "1.0", () => "1.0" < b, () => b < deb("2")]) {
    assert.throws(call, { name: "TypeError", message });
  }
});

test("what versions of mixed alone have", () => {
  const message = "versions of deb have no kind, parts, fields or stability";
  const names = ["kind", "isIdeal", "isGeneral", "isComplex", "isPrerelease", "stability", "major", "minor", "patch", "epoch",
    "preRelease", "release", "metadata"];
  for (const version of [deb("1:1.0~rc1-1"), deb("1.2.3"), new MyVersion("1.2.3", DEB)]) {
    const calls = names.map((name) => () => version[name]);
    calls.push(() => version.nth(0), () => version.next(0), () => version.difference("1.0"));
    calls.push(() => version.nextRelease(), () => version.nextPre(), () => version.nextPre("rc"));
    // Asked twice, since a field is kept.
    for (const call of [...calls, ...calls]) assert.throws(call, { name: "TypeError", message });
  }
  for (const name of names) assert.notEqual(new Version("1.2.3", { scheme: "mixed" })[name], undefined);
  // Where no order is said, it is that of mixed.
  assert.equal(compareTotal("1.0", "1.0-0", DEB), -1);
});

test("how versions and sets are shown", () => {
  for (const version of [deb("0:1.0-1"), deb(deb("0:1.0-1")), new Version(new MyVersion("0:1.0-1", DEB), DEB)]) {
    const told = [String(version), `${version}`, JSON.stringify(version), inspect(version), version.scheme];
    assert.deepEqual(told, ["0:1.0-1", "0:1.0-1", '"0:1.0-1"', 'Version("0:1.0-1", { scheme: "deb" })', "deb"]);
    assert.throws(() => { version.scheme = "mixed"; }, TypeError);
    assert.deepEqual(Object.keys(version), []);
  }
  assert.equal(inspect(debs(">=1.0")), 'VersionSet(">=1.0", { scheme: "deb" })');
  assert.equal(inspect(VersionSet.of(deb("1.0-1"), DEB)), 'VersionSet.of("1.0-1", { scheme: "deb" })');
  assert.equal(inspect(debs("*").not()), '<VersionSet: nothing, { scheme: "deb" }>');
});

test("sort", () => {
  const below = chooser(7);
  const texts = [...TEXTS, ...NONE, null];
  const rank = ({ text }) => RANKS.get(text);
  for (let run = 0; run < 500; run++) {
    const rows = Array.from({ length: below(12) }, (_, n) => ({ n, text: texts[below(texts.length)] }));
    const good = rows.filter(({ text }) => RANKS.has(text));
    const others = rows.filter(({ text }) => !RANKS.has(text));
    for (const reverse of [false, true]) {
      const wanted = [...good].sort((a, b) => (rank(a) - rank(b)) * (reverse ? -1 : 1));
      const options = { key: ({ text }) => text, reverse, ...DEB };
      assert.deepEqual(sort(rows, { ...options, invalid: "last" }), [...wanted, ...others]);
      assert.deepEqual(sort(good, options), wanted);
      if (reverse) assert.deepEqual(rsort(good, options), wanted);
      const items = good.map(({ text }) => (below(2) ? deb(text) : text));
      const sorted = sort(items, { reverse, ...DEB });
      wanted.forEach((row, place) => assert.equal(sorted[place], items[good.indexOf(row)]));
    }
  }
});

test("newest", () => {
  const texts = ["1.0~rc1", "a9", "1.10", null, "1.9", NaN, "9-", "\ud800"];
  assert.deepEqual([newest(texts, DEB), newest(["9", ...texts].values(), DEB)], ["1.10", "9"]);
  for (const empty of [[], [null], NONE, new Set()]) assert.equal(newest(empty, DEB), null);
  const tied = [deb("1.0-0"), "0:1.0", new MyVersion("1.0", DEB), "01.0"];
  for (let n = 0; n < tied.length; n++) {
    const turned = [...tied.slice(n), ...tied.slice(0, n)];
    assert.equal(newest([...turned, "1.0~"], DEB), turned[0]);
    assert.equal(minSatisfying(["2", ...turned], debs("*")), turned[0]);
  }
  for (const [wanted, found] of [
    ["<1.10", "1.9"], ["<1.9 || =1.9-0", "1.9"], [">1.10", null], ["<1.0", "1.0~rc1"], ["<<1.9", "1.0~rc1"],
  ]) {
    for (const requirement of [wanted, debs(wanted), debs(wanted).not().not()]) {
      assert.equal(newest(texts, { requirement, ...DEB }), found, wanted);
    }
    assert.equal(maxSatisfying(texts, debs(wanted)), found);
  }
  assert.equal(minSatisfying(texts, debs(">1.0")), "1.9");
  for (const [text, start] of [["1.9", 0], ["<1-", 1], ["", 0], ["^1", 1]]) {
    assert.throws(() => newest([], { requirement: text, ...DEB }), (error) => {
      assert.ok(error instanceof InvalidVersionSet);
      assert.deepEqual([error.text, error.start, error.scheme], [text, start, "deb"]);
      return true;
    });
  }
  refusesType(() => newest([], { requirement: new Requirement("*"), ...DEB }), "object");
  refusesType(() => newest([], { requirement: ["*"], ...DEB }), "object");
  const message = "stability and tags are for the scheme mixed alone, and this is deb";
  for (const more of [{ stability: "rc" }, { tags: true }, { stability: "dev", tags: true }]) {
    assert.throws(() => newest(texts, { ...more, ...DEB }), { name: "RangeError", message });
  }
  assert.equal(newest(texts, { requirement: null, stability: null, tags: false, ...DEB }), "1.10");
});

test("sets of deb", () => {
  for (const [text, has, lacks] of [
    ["*", "1.0~~ 1.0 1:0", ""], ["=1.0", "1.0 1.0-0 0:1.0 01.0", "1.0~ 1.0a 1.0-1 1.0+"], ["==1.0-0", "1.0 1.0-0", "1.0-1"],
    ["!=1.0", "1.0~ 1.0-1", "1.0 1.0-0"], [">=1.0~rc1, <1.0", "1.0~rc1", "1.0~ 1.0 1.0-0 1.0-1"],
    [">1.0 <=1.0+", "1.0-1 1.0a 1.0+", "1.0 1.0-0 1.9"], ["<1.0 || >=1.10", "1.0~rc1 1.10 9 1:0", "1.0 1.9"],
    [">1:0 <9", "", "1.0 9 1:0"], ["<<1.0 || >> 1.10", "1.0~rc1 9 1:0", "1.0 1.0-0 1.10"],
  ]) {
    const set = debs(text);
    for (const [given, answer] of [[has, true], [lacks, false]]) {
      const texts = given.split(" ").filter(Boolean);
      for (const version of texts) {
        assert.deepEqual([set.has(version), set.has(deb(version)), set.not().has(version)], [answer, answer, !answer], `${text} ${version}`);
      }
      assert.deepEqual(set.hasAll(texts.map(deb)), texts.map(() => answer));
      assert.deepEqual(set.filter(texts), answer ? texts : []);
    }
  }
  assert.deepEqual(debs("*").hasAll(["1", ...NONE, null]), [true, ...Array(NONE.length + 1).fill(null)]);
  const [low, high] = [debs("<1.0"), debs(">=1.0-0")];
  assert.ok(low.or(high).equals(debs("*")) && low.and(high).equals(debs("<1 >1")) && low.not().equals(high));
  assert.deepEqual([low.meets(high), low.meets(debs(">0")), low.isPartOf(debs("<=1.0")), low.isPartOf(high)], [false, true, true, false]);
  assert.deepEqual([low.and(high), low.or(high), low.not()].map((set) => set.scheme), ["deb", "deb", "deb"]);
  assert.deepEqual([low.intervals, high.intervals], [[[new Uint8Array(), deb("1.0").key]], [[deb("1.0").key, null]]]);
  const ofParts = rowsOf("no-set").filter(([, , , why]) => why.includes("have no parts"));
  assert.equal(ofParts.length, SCHEMES.length - 1);
  for (const [scheme, , , noParts] of ofParts) {
    for (const text of ["~1.2.3", "^1.2.3", "~=1.2.3", "~>1.2.3", "=1.2.3.*", "!=1.2.3.*"]) {
      refusesSet(() => new VersionSet(text, { scheme }), text, text.indexOf("1"), noParts, scheme);
    }
  }
  for (const [text, start] of [["=\u{1f600}", 1], ["=1 || =\ud800", 7]]) {
    refusesSet(() => debs(text), text, start, "what follows the operator is not a version", "deb");
  }
});

test("the rows of each scheme", () => {
  for (const [scheme, ...words] of rowsOf("chain")) {
    for (let place = 1; place < words.length; place += 2) {
      const [a, sign, b] = words.slice(place - 1);
      const order = sign === "<" ? -1 : 0;
      assert.deepEqual([compare(a, b, { scheme }), rcompare(a, b, { scheme })], [order, 0 - order], `${scheme} ${a} ${b}`);
      assert.equal(compareBytes(sortKey(a, { scheme }), sortKey(b, { scheme })), order, `${scheme} ${a} ${b}`);
    }
  }
  for (const [scheme, ...rising] of rowsOf("rising")) {
    assert.deepEqual(sort([...rising].reverse(), { scheme }), rising);
  }
  for (const [scheme, before, one, other] of rowsOf("level")) {
    assert.equal(newest([before, one, other], { scheme }), one);
    assert.equal(newest([other, before, one], { scheme }), other);
  }
  for (const [scheme, text] of rowsOf("none")) refusesVersion(() => new Version(text, { scheme }), text, undefined, scheme);
  for (const [scheme, text, version, has] of rowsOf("set")) {
    const set = new VersionSet(text, { scheme });
    assert.deepEqual([set.has(version), set.matches(version)], [has === "1", has === "1"], `${scheme} ${text} ${version}`);
  }
  for (const [scheme, text, place, why] of rowsOf("no-set")) {
    refusesSet(() => new VersionSet(text, { scheme }), text, Number(place), why, scheme);
  }
});

test("long texts", () => {
  for (const text of [`${"1.".repeat(200_000)}1`, "9".repeat(600_000), `1${"~".repeat(200_000)}`, `1${"a1".repeat(100_000)}`]) {
    const key = sortKey(text, DEB);
    assert.deepEqual([deb(text).key, ...sortKeys([text, `${text}-`], DEB)], [key, key, null]);
    assert.equal(compare(text, `${text}-0`, DEB), 0);
    assert.deepEqual(sort([`${text}a`, text], DEB), [text, `${text}a`]);
    assert.equal(newest([text, `${text}a`], DEB), `${text}a`);
    assert.ok(debs(`>=${text} <${text}a`).has(text));
  }
  for (const scheme of SCHEMES) {
    for (const length of [1, 19, 240, 255, 256, 257, 512, 5000]) {
      const text = `${"1".repeat(length)}.0.0`;
      assert.deepEqual(sortKeys([text, "1.0.0"], { scheme }), [sortKey(text, { scheme }), sortKey("1.0.0", { scheme })]);
    }
  }
  const texts = Array.from({ length: 100_000 }, (_, n) => (n % 10 ? `${n % 7}.${n % 1000}~${n}` : "a1"));
  const keys = sortKeys(texts, DEB);
  for (let n = 0; n < texts.length; n += 97) assert.deepEqual(keys[n], n % 10 ? sortKey(texts[n], DEB) : null);
  assert.equal(newest(texts, DEB), sort(texts, { invalid: "last", ...DEB })[89_999]);
});
