// What people ask of versions: the tables of python/tests/test_tasks.py, and those of docs/TASKS.md, row by row.
import assert from "node:assert/strict";
import { readFileSync } from "node:fs";
import { test } from "node:test";
import { refusesTag, versions } from "./support.js";

const { Requirement, STABILITIES, Version, inTags, stabilities } = versions;
const PAGE = readFileSync(new URL("../../docs/TASKS.md", import.meta.url), "utf8");

// The rows of the table with these titles: of each cell the texts in code.
function rows(...titles) {
  const [, table] = PAGE.split(`| ${titles.join(" | ")} |\n`);
  const lines = table.split("\n").slice(1);
  return lines.slice(0, lines.findIndex((line) => !line.startsWith("|"))).map((line) =>
    line.split("|").slice(1, -1).map((cell) => [...cell.matchAll(/`([^`]+)`/g)].map((found) => found[1])));
}

// What a call returns, as a page writes it: nothing where it throws a RangeError.
function answer(call) {
  try {
    return [String(call())];
  } catch (error) {
    assert.ok(error instanceof RangeError, error);
    return [];
  }
}

test("tags", () => {
  let count = 0;
  for (const [tags, version] of rows("tag", "version")) {
    for (const tag of tags) {
      assert.deepEqual(answer(() => Version.fromTag(tag)), version, tag);
      count++;
    }
  }
  assert.equal(count, 25);
  for (const [[prefix], [tag], version] of rows("prefix", "tag", "version")) {
    assert.deepEqual(answer(() => Version.fromTag(tag, prefix)), version);
  }
});

test("more tags", () => {
  const wanted = {
    "版本1.2": "1.2", "é1.2": "1.2", "é-v1.2": "1.2", "\0v1.2": "1.2", "a b\n1.2": "1.2", "😀1.2": "1.2",
    "😀é版-v1.2": "1.2",
  };
  for (const tag of ["", ".1", "-", "-v", "x-1.2 ", "1.2\0", "v1.2é", "版本", "\ud800", "\ud8001.2", "v1.2\udcff", "\udcff-v1.2"]) {
    wanted[tag] = null;
  }
  for (const [tag, text] of Object.entries(wanted)) {
    if (text === null) refusesTag(tag, undefined, "has no version");
    else assert.equal(String(Version.fromTag(tag, null)), text);
  }
  assert.deepEqual(inTags(Object.keys(wanted)), Object.values(wanted));
  assert.deepEqual(inTags([new Version("v1.2"), null]), ["1.2", null]);
  for (const [tag, prefix, text] of [
    ["go1.20.3", "go", "1.20.3"], ["go-v1.2", "go-", "1.2"], ["2ping-4.5", "2ping-", "4.5"], ["v1.2", "", "1.2"],
    ["1.2", "", "1.2"], ["vv1.2", "v", "1.2"], ["x1.0V2", "x1.0", "2"], ["版本v1.2", "版本", "1.2"], ["a\x001.2", "a\0", "1.2"],
    ["😀v1.2", "😀", "1.2"],
  ]) {
    assert.equal(String(Version.fromTag(tag, prefix)), text);
    assert.equal(String(Version.fromTag(new Version("go1.2"), "go")), "1.2");
  }
  for (const [tag, prefix] of [
    ["v1.2.3", "go"], ["1.2", "go"], ["Go1.2", "go"], ["g", "go"], ["", "go"], ["x1.2", "\ud800"], ["1.2", "\udcff"],
    ["é1.2", "\xc3"], ["\ufffd1.2", "\ud800"], ["\ud8001.2", "\ufffd"], ["\ufffd1.2", "\udfff"],
  ]) {
    refusesTag(tag, prefix, `doesn't begin with ${JSON.stringify(prefix)}`);
  }
  for (const [tag, prefix] of [
    ["go", "go"], ["gov", "go"], ["go-1.2", "go"], ["r-1.2", ""], ["govv1.2", "go"], ["", ""], ["go1..2", "go"],
    ["go1.2\udcff", "go"], ["\ud800", "\ud800"], ["\ud8001.2", "\ud800"], ["😀1.2", "\ud83d"],
  ]) {
    refusesTag(tag, prefix, `has no version after ${JSON.stringify(prefix)}`);
  }
  for (const prefix of [5, {}, new Version("1")]) assert.throws(() => Version.fromTag("v1", prefix), TypeError);
  const long = "1.".repeat(100_000) + "1";
  assert.deepEqual(inTags([`x-${long}`, `é-v${long}`]), [long, long]);
});

test("stabilities", () => {
  assert.deepEqual(rows("version", "stability").map(([, [each]]) => each), STABILITIES);
  for (const [texts, [stability]] of rows("version", "stability")) {
    for (const text of texts) assert.equal(new Version(text).stability, stability, text);
    assert.deepEqual(stabilities(texts), texts.map(() => stability));
  }
  const words = rows("stability", "words", "runs of letters and digits");
  assert.equal(words.length, 4);
  const names = PAGE.match(/^\| (dev|alpha|beta|rc) \|/gm).map((name) => name.slice(2, -2));
  words.forEach(([, each], place) => {
    for (const word of each) {
      for (const text of [`1.0-${word}`, `1.${word.toUpperCase()}.2`, `1_${word}1`]) {
        assert.equal(new Version(text).stability, names[place], text);
      }
    }
  });
  const texts = ["v1.2.3", null, "1.0rc1", "go1.2", NaN, "", "1..2", "\ud800", new Version("v2.0-M1"), "1_2dev"];
  assert.deepEqual(stabilities(texts), ["stable", null, "rc", "stable", null, null, null, null, "alpha", "dev"]);
  assert.throws(() => STABILITIES.push("x"), TypeError);
});

test("differences", () => {
  for (const [[one], [other], [difference]] of rows("one", "other", "differ in")) {
    const [name, part] = difference.split(" ");
    const found = new Version(one).difference(other);
    assert.deepEqual([found.kind, found.part], [name === "same" ? "none" : name, part ? Number(part) : null]);
  }
  // By docs/ORDER.md: where they differ first, and in which part; and pairs of versions that do.
  const sentences = {
    none: "they differ at most after the plus, which doesn't count",
    tie: "they compare equal, and are not the same version",
    epoch: "they differ first in the epoch",
    tail: "they differ first in what follows the parts",
  };
  for (const [kind, part, pairs] of [
    ["none", null, "1.2.3 1.2.3, 1.0.0+a 1.0.0+b, 1_2 1_2, 1.0.0-a+x 1.0.0-a"],
    ["tie", null, "1.2 0:1.2, 1.0 1.0+x, 1.2 1.002, 01.2.3 1.2.3"],
    ["epoch", null, "1.2 1:1.2, 1:2 2:1, 9.9.9 1:0, 1:1_2 3:1_2"],
    ["part", 0, "1.2.3 2.2.3, 1.2 3.2-1, a.1 b.1, 1:1.0 1:2_0"],
    ["part", 1, "1.2.3 1.3.0, 1 1.0, 1.9 1.10, 1.3rc1 1.3, 2 2.git"],
    ["part", 2, "1.2.3 1.2.4, 1.2 1.2.0-rc.1, 1:0.1.2-3 1:0.1.3-3"],
    ["tail", null, "1.2 1.2-1, 1.2.0-rc.1 1.2.0, 1.2_1 1.2, 1.2-1 1.2-2"],
  ]) {
    for (const [a, b] of pairs.split(", ").map((pair) => pair.split(" "))) {
      for (const [one, other] of [[a, b], [b, new Version(a)], [a, new Version(b)]]) {
        const found = new Version(one).difference(other);
        assert.deepEqual([found.kind, found.part], [kind, part], `${one} ${other}`);
        assert.equal(String(found), sentences[kind] ?? `they differ first in part ${part}`);
      }
    }
  }
  assert.throws(() => {
    new Version("1").difference("2").part = 5;
  }, TypeError);
});

test("next", () => {
  const wanted = rows("version", "place", "next").map(([[version], [place], next]) => [version, Number(place), next[0] ?? null]);
  assert.equal(wanted.length, 8);
  for (const row of ["0 0 1", "7 0 8", "1.0.0-rc.1 0 1.0.0", "0:1.2 0 0:2.0", "1.2.3+x 2 1.2.4", "1.2+x 1 1.3",
    "1.2.3.4 1 1.3.0.0", "1.4294967295 0 2.0", "4294967294.0.0 0 4294967295.0.0", "1.9.9 2 1.9.10"]) {
    const [version, place, next] = row.split(" ");
    wanted.push([version, Number(place), next]);
  }
  for (const row of ["4294967295.0.0 0", "1.4294967295 1", "1.2 2", "1.2-3 2", "7 1", "1.2rc1 1", "a.1 1", "1.a 0", "1_2 0", "01.2 0"]) {
    const [version, place] = row.split(" ");
    wanted.push([version, Number(place), null]);
  }
  for (const place of [2 ** 31, 2 ** 32, 2 ** 53 - 1]) wanted.push(["1.2.3", place, null]);
  for (const [text, place, next] of wanted) {
    if (next !== null) assert.equal(String(new Version(text).next(place)), next);
    else {
      const message = `${text} has no next version at place ${place}`;
      assert.throws(() => new Version(text).next(place), { name: "RangeError", message });
    }
  }
  for (const count of [1, 130, 100_000]) {
    const version = new Version("9.".repeat(count) + "9");
    assert.equal(String(version.next(count)), "9.".repeat(count) + "10");
    assert.equal(String(version.next(0)), "10" + ".0".repeat(count));
  }
});

test("next release", () => {
  const wanted = {
    "1.2.3-rc.1": "1.2.3", "1.2.3": "1.2.4", "1.2": "1.3", "1:1.9-3": "1:1.10", 5: "6", "1.2.3.4": "1.2.3.5",
    "1.2.3+x": "1.2.4", "1.2.3-0": "1.2.3", "1.2.4294967295-rc.1": "1.2.4294967295",
  };
  for (const text of ["1.2.4294967295", "1.0rc1", "1.a", "1_2", "01.2", "a"]) wanted[text] = null;
  for (const [text, next] of Object.entries(wanted)) {
    if (next !== null) assert.equal(String(new Version(text).nextRelease()), next);
    else assert.throws(() => new Version(text).nextRelease(), { name: "RangeError", message: `${text} has no next release` });
  }
  assert.equal(String(new Version("9.".repeat(100_000) + "9").nextRelease()), "9.".repeat(100_000) + "10");
});

test("next pre-release", () => {
  const wanted = rows("version", "word", "next pre-release").map(([[version], [word], [next]]) => [version, word, next]);
  assert.equal(wanted.length, 6);
  // By docs/ORDER.md: numbers before texts, a prefix before the longer one, and each before no pre-release.
  for (const row of [
    "1.2.3-rc rc 1.2.3-rc.1", "1.2.3-rc.1.5 rc 1.2.3-rc.2", "1.2.3-rc.1+b rc 1.2.3-rc.2", "1.2.3-rc.0 rc 1.2.3-rc.1",
    "1.2.3-9 rc 1.2.3-rc.1", "1.2.3-rc.x rc 1.2.4-rc.1", "1.2.3-rc1 rc 1.2.4-rc.1", "1.2.3-rc rc1 1.2.3-rc1.1",
    "1.2.3-a.x.4 a 1.2.4-a.1", "1.2.3-a a.x 1.2.3-a.x.1", "1.2.3-a.1.9 a.1 1.2.3-a.1.10", "1.2.3-7.1 7 1.2.3-7.2",
    "1.2.3-RC.1 rc 1.2.3-rc.1", "1.2.3-rc.1 RC 1.2.4-RC.1", "1.2.3+x - 1.2.4--.1", "1.2.4294967295-a rc 1.2.4294967295-rc.1",
    "1.2.3-rc.4294967294 rc 1.2.3-rc.4294967295", "1.2.3-rc.4294967295 rc 1.2.4-rc.1",
  ]) {
    wanted.push(row.split(" "));
  }
  wanted.push(["1.2.3-1", undefined, "1.2.3-2"], ["1.2.3-a.b.9", null, "1.2.3-a.b.10"], ["1.2.3-rc.7", "", "1.2.3-rc.8"]);
  for (const text of ["1.2.3", "1.2.3-rc", "1.2.3-rc1", "1.2.3-1.a", "1.2.4294967295-rc.4294967295"]) wanted.push([text]);
  for (const word of ["rc.", ".rc", "rc..x", "01", "4294967296", "rc_1", "rc+1", "é", "a b", ".", "\ud800", "rc\0", "😀"]) {
    wanted.push(["1.2.3", word], ["1.2.3-rc.1", word]);
  }
  for (const text of ["1.2", "1.2-rc.1", "1.2.3.4", "1_2", "1:1.2.3"]) wanted.push([text, "rc"], [text]);
  for (const [text, word, next] of wanted) {
    const call = () => new Version(text).nextPre(word);
    if (next !== undefined) {
      assert.equal(String(call()), next);
      assert.ok(call() > new Version(text) && call().isPrerelease);
    } else {
      const of = word ? ` of ${word}` : "";
      assert.throws(call, { name: "RangeError", message: `${text} has no next pre-release${of}` });
    }
  }
  for (const word of [1, Symbol("rc"), ["rc"], new Version("1"), Object("rc")]) {
    assert.throws(() => new Version("1.2.3").nextPre(word), TypeError);
  }
  for (const count of [1, 130, 1_000_000]) {
    const long = "a.".repeat(count);
    assert.equal(String(new Version(`1.2.3-${long}9`).nextPre()), `1.2.3-${long}10`);
    const word = "a".repeat(count);
    assert.equal(String(new Version("4294967295.4294967295.9").nextPre(word)), `4294967295.4294967295.10-${word}.1`);
  }
});

test("why not", () => {
  // By docs/REQUIREMENTS.md: a list, a version, the first member that doesn't match, and why.
  const sentences = {
    kind: (member, text) => `${text} is not of a kind that ${member} matches`,
    below: (member, text) => `${text} is below ${member}`,
    above: (member, text) => `${text} is above ${member}`,
    parts: (member, text) => `${text} is within the bounds of ${member}, but its parts or fields differ`,
  };
  for (const row of [
    ">=1.5 1.4 >=1.5 below", "*,>=1.5 1.4 >=1.5 below", ">1.5 1.5 >1.5 below", "=1.0 0.9 =1.0 below",
    "<2 2.0 <2 above", "<2.0.0 2.0.0 <2.0.0 above", "<=1 1.0 <=1 above", "=1.0 1.1 =1.0 above",
    "^1.2.3 1.2.2 ^1.2.3 below", "^1.2.3 2.0.0 ^1.2.3 above", "~1.1.1 1.2.0 ~1.1.1 above",
    "^1.2.3 1.5 ^1.2.3 kind", "^1.2.3 1_2 ^1.2.3 kind", "*,~1.2 1.2.0 ~1.2 kind", "^1_2 1.2 ^1_2 kind",
    "=1.0 0:1.0 =1.0 parts", "=1.0 1.0+x =1.0 parts", "*,=1.0,<0 0:1.0 =1.0 parts",
    "^1.1.1,<1.5.0 1.5.0 <1.5.0 above", ">=1,<2,<1 3 <2 above",
  ]) {
    const [list, text, member, reason] = row.split(" ");
    for (const version of [text, new Version(text)]) {
      const found = new Requirement(list).whyNot(version);
      const start = list.indexOf(member);
      assert.deepEqual({ ...found }, { version: text, member, start, end: start + member.length, reason });
      assert.equal(String(found), sentences[reason](member, text));
    }
  }
  for (const row of [">=1.5 1.5", "* 1_2", "^1.2.3 1.9.0", "^1.1.1,<1.5.0 1.2.0", ">=1.0 0:1.0", "=1.0.0 1.0.0+x"]) {
    const [list, text] = row.split(" ");
    assert.equal(new Requirement(list).whyNot(text), null);
  }
});

test("conflicts", () => {
  // By docs/REQUIREMENTS.md: a list, and two members that exclude each other. `^1_2` matches nothing.
  for (const row of [
    ">=1.2,<1.0 >=1.2 <1.0", "<1.0,>=1.2 >=1.2 <1.0", "*,>=2,<9,<2 >=2 <2", "<1,>1,* <1 >1",
    "^1.2.3,^2.0.0 ^1.2.3 ^2.0.0", "^1.2,^1.2.3 ^1.2 ^1.2.3", "=1.0,=1.1 =1.0 =1.1", "^1_2 ^1_2 ^1_2",
    "*,~1_2 ~1_2 ~1_2", ">=3,>=1,<5,<=2 >=3 <=2",
  ]) {
    const [list, ...members] = row.split(" ");
    assert.deepEqual(new Requirement(list).conflict.sort(), members.sort());
  }
  for (const list of ["*", ">=1.2,<2", "^1.2.3,<1.9.0", "=1.0", ">1,<1.0", ">=1,<=1", "*,*"]) {
    assert.equal(new Requirement(list).conflict, null);
  }
});
