// Sets and versions of each scheme that tests/support/drawn_sets.py drew, beside its models and the library for C. DRAWN
// is the file of its lines.
import assert from "node:assert/strict";
import { readFileSync } from "node:fs";
import { test } from "node:test";
import { hex, refusesSet, versions } from "./support.js";

const { SCHEMES, Version, VersionSet, compare, matchAll, newest, satisfies, sort, sortKey, sortKeys } = versions;

const lines = readFileSync(process.env.DRAWN, "utf8").split("\n").slice(0, -1).map((line) => JSON.parse(line));
const keyOf = (text) => (text === null ? null : Buffer.from(text).toString("hex"));
const intervalsOf = (set) => set.intervals.map((ends) => ends.map(keyOf));
const linesOf = (scheme, name) => lines.filter((line) => line.scheme === scheme && name in line);
const setsOf = (scheme) => linesOf(scheme, "made");
// A place that is counted in characters, in units.
const unitsBefore = (text, place) => [...text].slice(0, place).join("").length;

for (const scheme of SCHEMES) {
  const options = { scheme };

  test(`sets of ${scheme}`, () => {
    let before = new VersionSet("*", options);
    let asked = 0;
    for (const { text, made, has, none, ...wanted } of setsOf(scheme)) {
      const set = new VersionSet(text, options);
      const computed = { and: set.and(before), or: set.or(before), not: set.not() };
      assert.deepEqual([set, computed.and, computed.or, computed.not].map(intervalsOf), made, text);
      for (const name of ["isPartOf", "meets", "equals"]) assert.equal(set[name](before), wanted[name], `${name}: ${text}`);
      assert.deepEqual([set.isEmpty, set.scheme, String(set)], [made[0].length === 0, scheme, text]);
      assert.ok(computed.not.not().equals(set) && computed.and.isPartOf(set) && set.isPartOf(computed.or), text);
      for (const [version, its, others] of has) {
        const said = `${text}: ${version}`;
        for (const one of [version, new Version(version, options)]) {
          assert.deepEqual([set.has(one), set.matches(one), satisfies(one, set)], [its, its, its], said);
        }
        assert.deepEqual([computed.and.has(version), computed.or.has(version)], [its && others, its || others], said);
        assert.equal(computed.not.has(version), !its, said);
        asked++;
      }
      const texts = [...has.map(([version]) => version), none];
      const answers = [...has.map(([, its]) => its), null];
      assert.deepEqual([set.hasAll(texts), matchAll(set, texts)], [answers, answers], text);
      assert.deepEqual(set.filter(texts), texts.filter((_, place) => answers[place]), text);
      assert.equal(set.has(none), false);
      before = set;
    }
    assert.ok(asked > 100, `${asked}`);
  });

  test(`texts that are no sets of ${scheme}`, () => {
    const wrong = linesOf(scheme, "wrong");
    for (const { text, wrong: [place, reason] } of wrong) {
      refusesSet(() => new VersionSet(text, options), text, unitsBefore(text, place), reason, scheme);
    }
    assert.ok(wrong.length > 20 && new Set(wrong.map(({ wrong: [, reason] }) => reason)).size > 4);
  });

  test(`two versions of ${scheme}`, () => {
    const orders = new Set();
    for (const { has: [[a], [b]], order, keys } of setsOf(scheme)) {
      const values = [a, b].map((text) => new Version(text, options));
      assert.deepEqual([compare(a, b, options), Version.compare(values[0], b, options)], [order, order], `${a} ${b}`);
      assert.deepEqual([values[0].compare(values[1]), values[1].compare(a)], [order, 0 - order], `${a} ${b}`);
      assert.equal(values[0].equals(b), order === 0);
      [a, b].forEach((text, place) => {
        assert.deepEqual([keyOf(sortKey(text, options)), keyOf(values[place].key)], [keys[place], keys[place]], text);
        assert.deepEqual(VersionSet.of(text, options).intervals[0], [hex(keys[place]), hex(`${keys[place]}00`)]);
      });
      orders.add(order);
    }
    assert.equal(orders.size, 3);
  });

  test(`many versions of ${scheme}`, () => {
    for (const { texts, keys, order, text: set, inside } of linesOf(scheme, "texts")) {
      assert.deepEqual(sortKeys(texts, options).map(keyOf), keys.map((key) => key || null));
      const items = texts.map((text, place) => ({ text, place }));
      const sorted = sort(items, { key: ({ text }) => text, invalid: "last", ...options });
      assert.deepEqual(sorted.map(({ place }) => place), order);
      assert.deepEqual(new VersionSet(set, options).hasAll(texts), inside);
      const places = [...texts.keys()].filter((place) => inside[place]);
      const best = places.reduce((best, place) => (keys[place] > keys[best] ? place : best), places[0]);
      for (const requirement of [set, new VersionSet(set, options)]) {
        if (scheme === "mixed" && requirement === set) continue; // as a text it is a list of requirements
        assert.equal(newest(texts, { requirement, ...options }), texts[best] ?? null);
      }
    }
  });
}
