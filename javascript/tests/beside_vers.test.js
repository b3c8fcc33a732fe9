// The package beside the program `vers` and, on strict versions, beside npm's package semver as Debian has it. VERS is
// the program; LINES and LISTS are files of lines and of lists of requirements, which tests/javascript draws.
import assert from "node:assert/strict";
import { execFileSync, spawnSync } from "node:child_process";
import { readFileSync } from "node:fs";
import { createRequire } from "node:module";
import { test } from "node:test";
import { chooser, compareBytes, versions } from "./support.js";
import { linesOf } from "./digest.js";

const { VERS, LINES, LISTS } = process.env;
const decoder = new TextDecoder("utf-8", { fatal: true, ignoreBOM: true });

// The text of a line; of a line that is not UTF-8 a text with a lone surrogate, which is not a version either.
function textOf(line) {
  try {
    return decoder.decode(line);
  } catch {
    return `${line.toString("latin1")}\udcff`;
  }
}

const lines = linesOf(readFileSync(LINES));
const texts = lines.map(textOf);
const lists = linesOf(readFileSync(LISTS)).map(textOf);
const kinds = versions.kinds(texts);
const good = texts.filter((_, place) => kinds[place] !== null);

// What `vers cmp` prints.
const SIGNS = { "-1": "<", 0: "=", 1: ">" };

// The comparisons that npm's semver has too.
const COMPARISONS = ["compare", "rcompare", "gt", "gte", "lt", "lte", "eq", "neq"];

function vers(words, lines) {
  const input = Buffer.concat(lines.flatMap((line) => [Buffer.from(line), Buffer.from("\n")]));
  const output = execFileSync(VERS, words, { input, maxBuffer: 2 ** 30 });
  return linesOf(output).map((line) => Buffer.from(line).toString());
}

test("kinds", () => {
  assert.ok(lines.length >= 20_000 && good.length > lines.length / 3);
  assert.deepEqual(new Set(kinds), new Set(["ideal", "general", "complex", null]));
  const said = vers(["show"], lines).map((line) => line.split(" ")[0]);
  assert.deepEqual(kinds.map((kind) => kind ?? "none"), said);
  assert.deepEqual(texts.map(versions.kind), kinds);
});

test("the order, keys and comparisons", () => {
  const sorted = vers(["sort"], good);
  const keys = versions.sortKeys(sorted);
  assert.equal(sorted.length, good.length);
  for (let place = 1; place < sorted.length; place++) {
    const [a, b] = sorted.slice(place - 1, place + 1);
    const sign = Math.sign(compareBytes(keys[place - 1], keys[place]));
    assert.ok(sign <= 0);
    assert.deepEqual([versions.compare(a, b), versions.compare(b, a)], [sign, sign === 0 ? 0 : 1]);
    assert.ok(versions.compareTotal(a, b) <= 0);
  }
  const values = sorted.map((text) => new versions.Version(text));
  values.forEach((value, place) => {
    assert.equal(compareBytes(value.key, keys[place]), 0);
    if (place > 0) assert.equal(values[place - 1].compare(value), compareBytes(keys[place - 1], keys[place]));
  });
  // `vers` reads the lines in their order too, and both sorts are stable.
  assert.deepEqual(versions.sort(good), sorted);
  const below = chooser(3);
  const short = good.filter((text) => text.length < 1000);
  for (let run = 0; run < 100; run++) {
    const [a, b] = [short[below(short.length)], short[below(short.length)]];
    assert.equal(vers(["key", a], [])[0], Buffer.from(versions.sortKey(a)).toString("hex"));
    assert.equal(vers(["cmp", a, b], [])[0], SIGNS[versions.compare(a, b)]);
  }
});

test("requirements", () => {
  const below = chooser(4);
  let [right, wrong, matched] = [0, 0, 0];
  for (let run = 0; run < 200; run++) {
    const list = lists[below(lists.length)];
    const some = Array.from({ length: 200 }, () => good[below(good.length)]);
    const ran = spawnSync(VERS, ["match", list], { input: some.join("\n") });
    if (ran.status !== 0) {
      assert.equal(String(ran.stderr), `not a requirement: ${list}\n`);
      assert.throws(() => new versions.Requirement(list), versions.InvalidRequirement);
      wrong++;
      continue;
    }
    const answers = linesOf(ran.stdout).map((line) => Buffer.from(line).toString());
    const requirement = new versions.Requirement(list);
    assert.deepEqual(requirement.filter(some), answers);
    const matches = versions.matchAll(list, some);
    assert.deepEqual(some.filter((_, place) => matches[place]), answers);
    const { low, high, kinds, exact } = requirement.range;
    for (const text of some) {
      const version = new versions.Version(text);
      const is = answers.includes(text);
      assert.deepEqual([requirement.matches(text), requirement.has(version), requirement.whyNot(text) === null], [is, is, is]);
      const isIn = compareBytes(version.key, low) >= 0 && (high === null || compareBytes(version.key, high) < 0);
      if (is || exact) assert.equal(isIn && kinds.includes(version.kind), is, `${list} ${text}`);
    }
    right++;
    matched += answers.length;
  }
  assert.ok(right > 50 && wrong > 20 && matched > 500, `${right} ${wrong} ${matched}`);
});

test("strict versions beside npm's semver", () => {
  const semver = createRequire(import.meta.url)("semver");
  // It takes numbers up to 9007199254740991 and 256 characters, cuts spaces and a v off, and the other takes more.
  const strict = texts.filter((_, place) => kinds[place] === "ideal").filter((text) => text.length < 200 && semver.valid(text));
  assert.ok(strict.length > 1000);
  for (const text of strict) {
    for (const name of ["major", "minor", "patch"]) assert.equal(versions[name](text), semver[name](text));
    assert.equal(new versions.Version(text).preRelease, semver.prerelease(text)?.join(".") ?? null);
  }
  const below = chooser(5);
  const near = (text) => [text, text.split(/[-+]/)[0], `${text.split(/[-+]/)[0]}-rc.1`, strict[below(strict.length)]][below(4)];
  for (let run = 0; run < 5000; run++) {
    const a = strict[below(strict.length)];
    const b = near(a);
    for (const name of COMPARISONS) assert.equal(versions[name](a, b), semver[name](a, b), `${name} ${a} ${b}`);
  }
  const plain = strict.filter((text) => !text.includes("-"));
  let matched = 0;
  for (let run = 0; run < 300; run++) {
    const [a, b] = [plain[below(plain.length)], plain[below(plain.length)]];
    const some = Array.from({ length: 20 }, () => plain[below(plain.length)]);
    // semver has spaces where the other has commas. Versions without pre-releases, as the page says.
    for (const list of [`^${a}`, `~${a}`, `>=${a}`, `<${a}`, `>${a},<=${b}`, `=${a}`, "*"]) {
      const range = list.replace(",", " ");
      const text = [a, b, a.split("+")[0], `${a.split(".")[0]}.999.0`][below(4)];
      assert.equal(versions.satisfies(text, list), semver.satisfies(text, range), `${list} ${text}`);
      assert.equal(versions.maxSatisfying(some, list), semver.maxSatisfying(some, range));
      assert.equal(versions.minSatisfying(some, list), semver.minSatisfying(some, range));
      matched += semver.satisfies(text, range);
    }
    assert.deepEqual(versions.sort(some).map((text) => text.split("+")[0]), semver.sort([...some]).map((text) => text.split("+")[0]));
    assert.deepEqual(versions.rsort(some).map((text) => text.split("+")[0]), semver.rsort([...some]).map((text) => text.split("+")[0]));
  }
  assert.ok(matched > 1000);
});

test("sets of strict versions beside the ranges of npm's semver", () => {
  const semver = createRequire(import.meta.url)("semver");
  const below = chooser(6);
  const number = () => below(4);
  const version = () => `${1 + number()}.${number()}.${number()}`;
  const counts = { has: 0, meets: 0, isPartOf: 0 };
  // Intervals that are not empty, and versions without pre-releases: what else there is differs, as the page says. Of
  // another major number than 0, since there >=0.0.0 is all versions.
  const interval = () => {
    const [a, b] = [version(), version()].sort(semver.compare);
    return [`>=${a}`, `>=${a} <=${b}`, `<=${b}`, `>${a}`, `=${a}`, `^${a}`, `~${a}`][below(7)];
  };
  for (let run = 0; run < 3000; run++) {
    const [a, b, text] = [interval(), interval(), version()];
    // There ~1.2.3 has the parts but the last, as here.
    const [one, other] = [a, b].map((text) => new versions.VersionSet(text));
    assert.equal(one.has(text), new semver.Range(a).test(text), `${a} ${text}`);
    assert.equal(one.or(other).has(text), new semver.Range(`${a} || ${b}`).test(text), `${a} ${b} ${text}`);
    assert.equal(one.meets(other), semver.intersects(a, b), `${a} meets ${b}`);
    if (!/[~^]/.test(b)) assert.equal(one.isPartOf(other), semver.subset(a, b), `${a} is part of ${b}`);
    counts.has += one.has(text);
    counts.meets += one.meets(other);
    counts.isPartOf += one.isPartOf(other);
  }
  for (const [name, count] of Object.entries(counts)) assert.ok(count > 100 && count < 2900, `${name} ${count}`);
});

test("what is missing, beside npm's semver", () => {
  const semver = createRequire(import.meta.url)("semver");
  for (const missing of [null, undefined, NaN]) {
    for (const of of [semver, versions]) {
      for (const name of ["maxSatisfying", "minSatisfying"]) {
        assert.equal(of[name](["1.2.3", "1.3.0"], missing), null);
        assert.equal(of[name]([missing, "1.2.3"], "*"), "1.2.3");
      }
      assert.deepEqual([of.satisfies("1.2.3", missing), of.satisfies(missing, "*")], [false, false]);
      assert.deepEqual([of.valid(missing), of.validRange(missing)], [null, null]);
      for (const name of ["major", "minor", "patch", ...COMPARISONS]) {
        assert.throws(() => of[name](missing, "1.2.3"), TypeError, name);
      }
    }
  }
  for (const name of ["maxSatisfying", "minSatisfying", "satisfies"]) {
    assert.throws(() => versions[name](name === "satisfies" ? "1.2.3" : ["1.2.3"], 5), TypeError);
  }
});
