// Calls on one text or two, and values. The tables are those of python/tests.
import assert from "node:assert/strict";
import { inspect } from "node:util";
import { test } from "node:test";
import { compareBytes, hex, refusesRequirement, refusesTag, refusesType, refusesVersion, versions } from "./support.js";

const { Requirement, Version, compare, compareTotal, kind, sortKey } = versions;

// In increasing order by docs/ORDER.md, and of one key.
const INCREASING = "abc.0 0.0 1a.0 1.2.git 1.2 1.2.0-rc.1 1.2.0 1.2.3rc9 1.2.3rc10 1.2.3 1:0.1".split(" ");
const LEVEL = ["1.2", "01.2", "0:1.2", "1.2+x", "1.002"];
// No versions by docs/GRAMMAR.md, and what is no text of Unicode.
const NONE = ["", "1..2", "1.2.3 ", "1.2.3-a_!", ".", "\0", "1\0", "1.2.3-ä", "\ud800", "1.2.3\udcff", "x y"];

class MyVersion extends Version {
  toString() {
    return "9.9";
  }

  get kind() {
    return "mine";
  }

  get key() {
    return null;
  }
}

test("keys", () => {
  // From docs/ORDER.md.
  const wanted = {
    "1.2.3-r1+git": "00 03 01 31 02 03 01 32 02 03 01 33 02 02 01 03 72 31 00 01",
    "1:2.0-3": "01 31 03 01 32 02 03 00 02 02 03 02 01 33 01",
    "1.0_2": "00 03 01 31 02 03 00 02 02 04 02 03 01 32 02 02 01",
  };
  for (const [text, key] of Object.entries(wanted)) {
    assert.deepEqual(sortKey(text), hex(key));
    assert.deepEqual(new Version(text).key, hex(key));
    assert.deepEqual(sortKey(new Version(text)), hex(key));
    assert.deepEqual(sortKey(new MyVersion(text)), hex(key));
  }
});

test("a key is a copy", () => {
  const version = new Version("1.2");
  version.key.fill(0);
  assert.deepEqual(version.key, sortKey("1.2"));
  assert.equal(version.compare("1.2"), 0);
});

test("the order", () => {
  INCREASING.forEach((a, i) => {
    INCREASING.forEach((b, j) => {
      const [x, y] = [new Version(a), new Version(b)];
      const sign = Math.sign(i - j);
      assert.deepEqual([x < y, x <= y, x > y, x >= y], [i < j, i <= j, i > j, i >= j]);
      for (const one of [a, x, new MyVersion(a)]) {
        for (const two of [b, y, new MyVersion(b)]) {
          assert.deepEqual([compare(one, two), Version.compare(one, two)], [sign, sign]);
          assert.equal(compareTotal(one, two), sign);
        }
      }
      assert.deepEqual([x.compare(y), x.compare(b), x.equals(y), x.equals(b)], [sign, sign, i === j, i === j]);
      assert.equal(Math.sign(compareBytes(x.key, y.key)), sign);
    });
  });
  for (const text of LEVEL) {
    assert.ok(new Version(text).equals("1.2") && new Version("1.2").equals(new Version(text)));
    assert.equal(String(new Version(text)), text);
  }
  assert.deepEqual(["1.0.0", "0:1.0", "1.0rc1"].map((b) => compare("1.0", b)), [-1, 0, 1]);
  assert.deepEqual(["0:1.0", "1.0", "1.0rc1"].map((b) => compareTotal("1.0", b)), [-1, 0, 1]);
  assert.equal(compareTotal("1.0.0+a", "1.0.0+b"), 0);
});

test("what the language does with versions by itself, as the page says", () => {
  const [old, now] = [new Version("1.9"), new Version("1.10")];
  assert.deepEqual([new Version("2.0") < "1.0", new Version("2.0").compare("1.0") < 0], [true, false]);
  assert.deepEqual([old, now].sort(), [now, old]);
  assert.deepEqual(versions.sort([now, old]), [old, now]);
  assert.deepEqual(structuredClone(old), {});
});

test("what is not a version", () => {
  for (const text of NONE) {
    assert.equal(kind(text), null);
    refusesVersion(() => new Version(text), text);
    refusesVersion(() => sortKey(text), text);
    refusesVersion(() => new Version("1").compare(text), text);
    refusesVersion(() => new Version("1").equals(text), text);
    refusesVersion(() => new Version("1").difference(text), text);
    for (const call of [compare, compareTotal]) {
      refusesVersion(() => call(text, "1"), text);
      refusesVersion(() => call("1", text), text);
      refusesVersion(() => call(text, "x z"), text);
    }
    for (const list of ["*", "^1.2.3", "=1.2,<0"]) {
      refusesVersion(() => new Requirement(list).matches(text), text);
      refusesVersion(() => new Requirement(list).whyNot(text), text);
      assert.equal(new Requirement(list).has(text), false);
    }
  }
});

test("what is no text", () => {
  const others = [null, undefined, 1.2, NaN, 5n, true, ["1.2"], { toString: () => "1.2" }, new Requirement("*"), Symbol("1")];
  for (const other of others) {
    const type = other === null ? "null" : typeof other;
    for (const call of [
      kind, sortKey, (it) => new Version(it), (it) => compare(it, "1"), (it) => compare("1", it),
      (it) => compareTotal("1", it), (it) => new Version("1").compare(it), (it) => new Version("1").equals(it),
      (it) => new Version("1").difference(it), (it) => Version.fromTag(it), (it) => new Requirement("*").matches(it),
      (it) => new Requirement("*").has(it), (it) => new Requirement("*").whyNot(it), (it) => versions.gt(it, "1"),
    ]) {
      refusesType(() => call(other), type);
    }
    if (other instanceof Requirement) continue;
    for (const call of [(it) => new Requirement(it), (it) => versions.matchAll(it, [])]) {
      refusesType(() => call(other), type);
    }
  }
  refusesType(() => new Requirement(new Version("1.2")), "object");
  for (const alike of [Object.create(Version.prototype), Version]) refusesType(() => kind(alike), typeof alike);
  assert.throws(() => Version("1.2"), TypeError);
});

test("a version is taken for its text", () => {
  for (const make of [Version, MyVersion]) {
    const version = new make("1:2.0-3");
    assert.equal(kind(version), "general");
    for (const again of [new Version(version), new MyVersion(version)]) {
      assert.deepEqual([again.epoch, again.release, again.major], [1, "3", 2]);
      assert.ok(again.equals("1:2.0-3"));
    }
    assert.deepEqual([compare(new make("1.0"), "0:1.0"), compareTotal("1.0", new make("0:1.0"))], [0, -1]);
  }
  assert.equal(String(new Version(new MyVersion("1.2"))), "1.2");
  assert.equal(new MyVersion("1.2").next(1).constructor, MyVersion);
  assert.equal(new MyVersion("1.2").nextRelease().constructor, MyVersion);
  assert.equal(new MyVersion("1.2.3").nextPre("rc").constructor, MyVersion);
  assert.equal(MyVersion.fromTag("v1.2").constructor, MyVersion);
});

test("a version never changes", () => {
  const version = new Version("1.2");
  for (const name of ["kind", "key", "stability", "epoch"]) {
    assert.throws(() => {
      version[name] = "1";
    }, TypeError);
  }
  assert.deepEqual(Object.keys(version), []);
});

test("how a version is shown", () => {
  const version = new Version("0:1.2");
  assert.deepEqual([String(version), `${version}`, version + "", inspect(version)], ["0:1.2", "0:1.2", "0:1.2", 'Version("0:1.2")']);
  assert.equal(JSON.stringify({ version, list: new Requirement("^1") }), '{"version":"0:1.2","list":"^1"}');
  assert.equal(inspect(new Requirement("^1")), 'Requirement("^1")');
});

test("kinds", () => {
  const wanted = { "1.2.3-rc.1+x": "ideal", "1:2.0rc1-3": "general", "1.2.3-06": "complex", "4294967296.0.0": "complex" };
  for (const [text, its] of Object.entries(wanted)) {
    const version = new Version(text);
    assert.deepEqual([kind(text), version.kind], [its, its]);
    assert.deepEqual([version.isIdeal, version.isGeneral, version.isComplex], ["ideal", "general", "complex"].map((each) => each === its));
  }
});

test("numbers", () => {
  const numbers = (text, count) => Array.from({ length: count }, (_, n) => new Version(text).nth(n));
  assert.deepEqual(numbers("1.2.3", 4), [1, 2, 3, null]);
  assert.deepEqual(numbers("1:2.a.4.5.6.7-r1", 4), [2, null, 4, 5]);
  assert.equal(new Version("4294967295.0.0").nth(0), 4294967295);
  for (const n of [2 ** 31, 2 ** 32, 2 ** 53 - 1]) assert.equal(new Version("1.2.3").nth(n), null);
  for (const call of ["nth", "next"]) {
    for (const n of [-1, 0.5, NaN, Infinity, 2 ** 53]) {
      assert.throws(() => new Version("1.2.3")[call](n), { name: "RangeError", message: `a place is an integer from 0 on, and not ${n}` });
    }
    for (const n of [null, undefined, "1", 1n, new Version("1")]) assert.throws(() => new Version("1.2.3")[call](n), TypeError);
  }
});

test("parts", () => {
  // The kind, the epoch, the first three numbers and whether it is a pre-release, by docs/GRAMMAR.md.
  const wanted = {
    "1.2.3": ["ideal", null, 1, 2, 3, false],
    "1.2.3-rc.1+x": ["ideal", null, 1, 2, 3, true],
    "1.2.3+rc-1": ["ideal", null, 1, 2, 3, false],
    "4294967295.0.0": ["ideal", null, 4294967295, 0, 0, false],
    "1:2.0rc1-3": ["general", 1, 2, 0, null, false],
    "0:1": ["general", 0, 1, null, null, false],
    "4294967295:a.2": ["general", 4294967295, null, 2, null, false],
    "2.0-3": ["general", null, 2, 0, null, false],
    "1:20.0026.1_0-2": ["complex", 1, 20, 26, 1, false],
    "8:2007f~dfsg-7": ["complex", 8, null, null, null, false],
    "007:1_2": ["complex", 7, 1, null, null, false],
    "4294967296:1": ["complex", 4294967296, 1, null, null, false],
    "1.2:3": ["complex", null, 3, null, null, false],
    "r1:2": ["complex", null, 2, null, null, false],
  };
  for (const [text, parts] of Object.entries(wanted)) {
    const it = new Version(text);
    assert.deepEqual([it.kind, it.epoch, it.major, it.minor, it.patch, it.isPrerelease], parts, text);
  }
});

test("epochs", () => {
  const largest = Number.MAX_SAFE_INTEGER;
  const wanted = { 8: 8, "08": 8, 9007199254740991: largest, 9007199254740992: largest, 9007199254740993: largest };
  for (const epoch of ["9223372036854775807", "9223372036854775808", "9".repeat(30), "9".repeat(5000)]) wanted[epoch] = largest;
  for (const [epoch, number] of Object.entries(wanted)) {
    assert.equal(new Version(`${epoch}:2007f~dfsg-7`).epoch, number, epoch);
    assert.ok(new Version(`${epoch}:2007f~dfsg-7`) > new Version("7:9"));
  }
});

test("texts of fields", () => {
  // The pre-release, the release and the metadata, by docs/GRAMMAR.md.
  const [a, b] = ["a".repeat(5000), "b".repeat(5000)];
  const wanted = {
    "1.2.3": [null, null, null],
    "1.2.3-rc.1+x86": ["rc.1", null, "x86"],
    "1.2.3-rc-1.-": ["rc-1.-", null, null],
    "1.2.3+-.-": [null, null, "-.-"],
    [`1.2.3-${a}+${b}`]: [a, null, b],
    "1:2.0rc1-3.4": [null, "3.4", null],
    "1.2-1+git-2": [null, "1", "git-2"],
    "1.2+x": [null, null, "x"],
    "v1.2.3-4": [null, "4", null],
    "1.2.3-01": [null, null, null],
    "20.0026.1_0-2+0.93": [null, null, null],
    "1:2_3-4+5": [null, null, null],
  };
  for (const [text, fields] of Object.entries(wanted)) {
    const it = new Version(text);
    assert.deepEqual([it.preRelease, it.release, it.metadata], fields, text);
  }
});

test("requirements", () => {
  // From docs/REQUIREMENTS.md.
  for (const [list, text, answer] of [
    ["^1.1.1", "1.2.0", true], ["~1.1.1", "1.2.0", false], ["~1.2", "1.5", true], ["~1.2", "5.0", false],
    ["^1.2", "1.0", false], [">=1.0", "0:1.0", true], ["=1.0", "0:1.0", false], ["^1.1.1,<1.5.0", "1.5.0-rc.1", true],
    ["^1.1.1,<1.5.0", "1.5.0", false], ["*", "20.0026.1_0-2+0.93", true],
  ]) {
    for (const requirement of [new Requirement(list), new Requirement(new Requirement(list))]) {
      for (const version of [text, new Version(text), new MyVersion(text)]) {
        assert.deepEqual([requirement.matches(version), requirement.has(version)], [answer, answer], `${list} ${text}`);
        assert.deepEqual(requirement.filter([version]), answer ? [version] : []);
        assert.equal(requirement.whyNot(version) === null, answer);
        assert.deepEqual(versions.matchAll(list, [version]), [answer]);
        assert.equal(versions.satisfies(version, requirement), answer);
      }
    }
  }
});

test("ranges", () => {
  // From docs/REQUIREMENTS.md: the bounds in hexadecimal, the kinds, and whether the range is exact.
  const all = ["ideal", "general", "complex"];
  const wanted = {
    ">=1.2.3,<2.0.0": ["000301310203013202030133020202", "00030132020300020300020202", all, true],
    ">1.0": ["0003013102030002020200", null, all, true],
    "=1.0": ["00030131020300020202", "0003013102030002020200", ["general"], false],
    "^1.2.3": ["00030131020301320203013302", "000301310204", ["ideal"], true],
    "^0.0.3": ["0003000203000203013302", "000300020300020301330204", ["ideal"], true],
    "~1.2": ["000301310203013202", "000301310204", ["general"], false],
    "^1:1.2rc1": ["0131030131020301320172630001013100", "01310301310204", ["general"], false],
    "^1.2.3,<1.9.0": ["00030131020301320203013302", "0003013102030139020300020202", ["ideal"], true],
    "*": ["", null, all, true],
    "~1_2": ["00", "00", [], true],
    "<2.0.0": ["", "00030132020300020300020202", all, true],
  };
  for (const [text, [low, high, kinds, exact]] of Object.entries(wanted)) {
    const requirement = new Requirement(text);
    const range = { low: hex(low), high: high === null ? null : hex(high), kinds, exact };
    assert.deepEqual(requirement.range, range, text);
    requirement.low.fill(255);
    assert.deepEqual([requirement.low, requirement.high], [range.low, range.high]);
  }
  const long = "1.".repeat(300_000) + "1";
  const requirement = new Requirement(`>=${long},<=${long}`);
  assert.deepEqual([requirement.low, requirement.high], [sortKey(long), Uint8Array.from([...sortKey(long), 0])]);
  assert.ok(requirement.has(long));
});

test("the member that is wrong", () => {
  const wanted = {
    "1.2.3": [0, "1.2.3"], "": [0, ""], ",": [0, ""], ",*": [0, ""], "=1.0.0,": [7, ""], "=1.0.0,,*": [7, ""],
    ">=1.0, <2.0": [6, " <2.0"], "=1.0 || =2.0": [0, "=1.0 || =2.0"], "*,!=1.0,^1.*": [2, "!=1.0"],
    "*,=\0,*": [2, "=\0"], "*,=é,*": [2, "=é"], "*,\u{1f600}\xff": [2, "\u{1f600}\xff"],
    "\ud800": [0, "\ud800"], "*,\ud800,é": [2, "\ud800"], ">=1,\ud800": [4, "\ud800"], "1,\ud800": [0, "1"],
    "^1.2,=1\udcff": [5, "=1\udcff"], "*,\ud83d\ude00é,*": [2, "\ud83d\ude00é"], "\ud800,*": [0, "\ud800"],
    "*,é,\ud800": [2, "é"], "*,,\ud800": [2, ""], "*,*\udfff": [2, "*\udfff"], "*,\xff\ud800": [2, "\xff\ud800"],
    "*1": [0, "*1"], "=": [0, "="], "=>1.0": [0, "=>1.0"], ">= 1": [0, ">= 1"], "^\ud800": [0, "^\ud800"],
  };
  for (const [text, [start, member]] of Object.entries(wanted)) {
    refusesRequirement(() => new Requirement(text), text, start, member);
    refusesRequirement(() => versions.matchAll(text, []), text, start, member);
    refusesRequirement(() => versions.newest([], { requirement: text }), text, start, member);
    refusesRequirement(() => versions.satisfies("1", text), text, start, member);
    refusesRequirement(() => versions.satisfies(null, text), text, start, member);
    refusesRequirement(() => versions.maxSatisfying([], text), text, start, member);
    refusesRequirement(() => versions.minSatisfying(["1"], text), text, start, member);
    assert.equal(versions.validRange(text), null);
  }
  // Ranges as npm writes them.
  for (const text of ["1.x", "1.2.5", ">=1.2.0 <2.0.0", "^1 || ^2", "1.2.3 - 2"]) {
    refusesRequirement(() => versions.satisfies("1.2.5", text), text, 0, text);
    refusesRequirement(() => versions.maxSatisfying(["1.2.5"], text), text, 0, text);
  }
  assert.deepEqual([versions.satisfies("x y", "*"), versions.maxSatisfying(["x y"], "*")], [false, null]);
  const made = new versions.InvalidRequirement("*,*");
  assert.deepEqual([made.start, made.member], [0, "*,*"]);
});

test("long texts", () => {
  for (const text of ["1.".repeat(100_000) + "1", "1_".repeat(100_000) + "1", "a".repeat(1_000_000), "9".repeat(1_000_000)]) {
    const version = new Version(text);
    assert.equal(String(version), text);
    assert.ok(version.equals(`0:${text}`) && new Version("1:0") > version);
  }
  refusesVersion(() => new Version("1.".repeat(100_000)), "1.".repeat(100_000));
  // Around the lengths whose BigInts are made once, and those that grow the memory.
  for (const length of [1, 2, 1022, 1023, 1024, 1025, 4095, 4096, 4097, 5461, 65535, 65536, 65537, 200_000]) {
    for (const text of ["a".repeat(length), "1.".repeat(length / 2) + "1", `1.0.0-${"b".repeat(length)}`]) {
      const key = sortKey(text);
      assert.deepEqual(versions.sortKeys([text]), [key]);
      assert.deepEqual([compare(text, text), compareTotal(text, `${text}.0`)], [0, -1]);
      assert.ok(new Version(text).equals(text));
    }
  }
});

test("texts past ASCII, short and long", () => {
  const rest = ["é", "版本", "\u{1f600}", "\ud83d\ude00x", "\uffff", "\u07ff\u0800", "\u{10ffff}"];
  for (const count of [0, 1, 126, 127, 128, 129, 5000]) {
    for (const text of rest) {
      // As UTF-8 the whole text is not a version, and the tag after it has one.
      const front = "x".repeat(count) + text;
      refusesVersion(() => new Version(`${front}1.2`), `${front}1.2`);
      assert.equal(String(Version.fromTag(`${front}-v1.2`)), "1.2");
      assert.deepEqual(versions.inTags([`${front}-v1.2`, `${front}1.2`, front]), ["1.2", text.endsWith("x") ? null : "1.2", null]);
      refusesRequirement(() => new Requirement(`*,${front},1`), `*,${front},1`, 2, front);
      // A lone surrogate after it, and one before it.
      for (const lone of [`${front}\ud800`, `\udfff${front}`, `${front}\udc00\ud800`]) {
        assert.equal(kind(lone), null);
        refusesRequirement(() => new Requirement(`*,${lone}`), `*,${lone}`, 2, lone);
        refusesTag(`${lone}-v1.2`, null, "has no version");
        assert.deepEqual(versions.inTags([`${lone}-v1.2`]), [null]);
        assert.equal(versions.newest([`${lone}-v1.2`, "v1.0"], { tags: true }), "v1.0");
      }
    }
  }
});
