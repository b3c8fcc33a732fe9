// What the package does with the module's memory: nothing grows by calls, and what a large call needed is given back.
import assert from "node:assert/strict";
import { test } from "node:test";
import { pathToFileURL } from "node:url";
import { folder, versions } from "./support.js";

// The very module that the package has loaded.
const library = await import(pathToFileURL(`${folder}/library.js`));
const { Requirement, Version } = versions;
const MEGABYTE = 2 ** 20;
const size = () => library.bytes.length;
const turn = () => new Promise((resolve) => setImmediate(resolve));

test("a thousand calls with texts of a megabyte grow nothing", async () => {
  const long = "1.".repeat(MEGABYTE / 2 - 1) + "10";
  assert.equal(long.length, MEGABYTE);
  const list = new Requirement(`>=${long}`);
  const version = new Version(long);
  const calls = [
    () => versions.kind(long), () => versions.compare(long, long), () => version.nth(7), () => version.stability,
    () => list.has(long), () => version.metadata, () => versions.kinds([long]), () => versions.newest([long, long]),
    () => version.difference(long), () => versions.inTags([long]),
  ];
  for (const call of calls) call();
  const before = size();
  // Most of them are refused at the first byte, which saves time. They are written before, as the others are.
  const refused = ` ${long}`;
  for (let run = 0; run < 1000; run++) {
    if (run % 10 === 0) calls[(run / 10) % calls.length]();
    else assert.equal(versions.kind(refused), null);
  }
  assert.equal(size(), before);
  assert.ok(before < 32 * MEGABYTE, String(before));
});

test("what a large call needed is given back", async () => {
  await turn();
  const usual = size();
  assert.ok(usual < 18 * MEGABYTE, String(usual));
  const kept = new Version("1.2.3-rc.1");
  const word = "a".repeat(6 * MEGABYTE);
  for (const call of [
    () => versions.kind(word), () => versions.sort([word, "1", word]), () => new Version(word).equals(word),
    () => versions.matchAll("*", Array(500_000).fill("1.2.3-rc.1")), () => versions.kinds([`${word} `]),
    () => assert.throws(() => new Version(`${word} `)), () => assert.throws(() => new Requirement(word)),
  ]) {
    call();
    assert.ok(size() > 18 * MEGABYTE, `${call} takes ${size()} bytes`);
    await turn();
    assert.ok(size() <= usual, `${call} leaves ${size()} bytes`);
    // Values outlive the memory that they were read in, and the calls go on.
    assert.ok(kept < new Version("1.2.3") && kept.preRelease === "rc.1" && versions.kind("1.2") === "general");
  }
});

test("in one run the memory stays, and its calls are right", async () => {
  const word = "a".repeat(6 * MEGABYTE);
  assert.equal(versions.kind(word), "general");
  const large = size();
  for (let run = 0; run < 4; run++) {
    assert.equal(versions.compare("1.10", "1.9"), 1);
    assert.equal(versions.kind(word), "general");
  }
  assert.equal(size(), large);
  await turn();
  assert.ok(size() < large);
});

test("many large calls leave no memory behind", async () => {
  const word = ` ${"a".repeat(8 * MEGABYTE)}`;
  const before = process.memoryUsage().rss;
  for (let run = 0; run < 100; run++) {
    assert.equal(versions.kind(word), null);
    await turn();
  }
  // Each wrote 8 MiB, in all 800.
  const more = process.memoryUsage().rss - before;
  assert.ok(more < 400 * MEGABYTE, `${more} bytes`);
});

test("more than there is room for is refused, and the next call is right", () => {
  const word = "a".repeat(2 ** 28);
  const texts = Array(16).fill(word);
  assert.throws(() => versions.kinds(texts), { name: "RangeError", message: "the texts of one call need more than 4 GiB" });
  assert.deepEqual(versions.kinds(["1.2.3", "x y"]), ["ideal", null]);
});

test("the target of a text is no larger than the text needs", () => {
  const { encodeInto } = TextEncoder.prototype;
  // As node 20 does with a target of 2 ** 31 bytes or more.
  TextEncoder.prototype.encodeInto = function (text, target) {
    return target.length > 3 * text.length ? { read: 0, written: 0 } : encodeInto.call(this, text, target);
  };
  try {
    const long = `${"1.".repeat(100)}1`;
    assert.deepEqual(versions.kinds([long, "1.2.3", long]), ["general", "ideal", "general"]);
    assert.equal(versions.compare(long, `${long}3`), -1);
    assert.deepEqual(versions.inTags([`é-v${long}`, "é-v1.2"]), [long, "1.2"]);
  } finally {
    TextEncoder.prototype.encodeInto = encodeInto;
  }
});

test("a version is asked for each field once", () => {
  const names = ["major", "minor", "patch", "epoch", "preRelease", "release", "metadata", "isPrerelease", "stability"];
  // By docs/GRAMMAR.md and docs/TASKS.md.
  const wanted = {
    "1.2.3-rc.1+x": [1, 2, 3, null, "rc.1", null, "x", true, "rc"],
    "4:5.6-7": [5, 6, null, 4, null, "7", null, false, "stable"],
    "a_b": [null, null, null, null, null, null, null, false, "stable"],
  };
  const { call } = library;
  const kept = { ...call };
  const asked = [];
  for (const name of Object.keys(call).filter((name) => typeof call[name] === "function")) {
    call[name] = (...passed) => (asked.push(name), kept[name](...passed));
  }
  try {
    const values = Object.keys(wanted).map((text) => [new Version(text), wanted[text]]);
    for (let run = 0; run < 3; run++) {
      names.forEach((name, place) => {
        for (const [version, answers] of values) {
          asked.length = 0;
          assert.equal(version[name], answers[place], `${version} ${name}`);
          assert.equal(asked.length, run === 0 ? 1 : 0, `${version} ${name}`);
        }
      });
    }
  } finally {
    Object.assign(call, kept);
  }
});
