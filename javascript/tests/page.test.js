// The blocks of the pages, and the table of what differs from npm's semver. In a block a line 'EXPRESSION; // VALUE' has
// that value, or throws what begins as an error does.
import assert from "node:assert/strict";
import { readFileSync } from "node:fs";
import { createRequire } from "node:module";
import { test } from "node:test";
import { versions } from "./support.js";

const PAGES = { "docs/JAVASCRIPT.md": 3, "javascript/README.md": 1 };
const read = (page) => readFileSync(new URL(`../../${page}`, import.meta.url), "utf8");
const plain = (value) => JSON.parse(JSON.stringify(value));

// Checks what a line says of an expression.
function holds(call, said) {
  if (/^Invalid\w+: /.test(said)) assert.throws(call, (error) => String(error) === said);
  else assert.deepEqual(plain(call()), new Function(`return ${said}`)());
}

for (const [page, count] of Object.entries(PAGES)) {
  test(page, () => {
    const blocks = [...read(page).matchAll(/^```js\n(.*?)^```$/gms)].map((found) => found[1]);
    assert.equal(blocks.length, count);
    for (const block of blocks) {
      let checks = 0;
      const code = block
        .replace(/^import (.*) from "proved-versions";$/gm, "const $1 = versions;")
        .replace(/^(.*?);? \/\/ (.*)$/gm, (_, expression, said) => `holds(() => ${expression}, ${(checks++, JSON.stringify(said))});`);
      new Function("versions", "holds", code)(versions, holds);
      assert.ok(checks > 0, block);
    }
  });
}

test("the recipe of docs/REQUIREMENTS.md", () => {
  const [, recipe] = read("docs/REQUIREMENTS.md").match(/^\| JavaScript \| `(.*)` \|$/m);
  const texts = ["1.2.3", "1.9.0-rc.1", "1.9.0+a-b", "1.9rc1", "2.0.0-rc.1", "x y"];
  const wanted = new versions.Requirement(">=1.2.3,<2");
  const found = new Function("wanted", "texts", "Version", `return ${recipe}`)(wanted, texts, versions.Version);
  assert.deepEqual(found, ["1.2.3", "1.9.0+a-b", "1.9rc1"]);
});

test("the page of HTML", () => {
  const [, code] = read("docs/JAVASCRIPT.md").match(/^```html\n<script type="module">\n(.*?)^<\/script>\n```$/ms);
  const document = { body: {} };
  new Function("versions", "document", code.replace('import { sort } from "./index.js"', "const { sort } = versions"))(versions, document);
  assert.equal(document.body.textContent, "1.9 < 1.10");
});

test("what differs from semver", () => {
  const semver = createRequire(import.meta.url)("semver");
  const [, table] = read("docs/JAVASCRIPT.md").split("| call | `semver` | here |\n|---|---|---|\n");
  const rows = table.split("\n\n")[0].split("\n").map((row) => [...row.matchAll(/`([^`]*)`/g)].map((found) => found[1]));
  assert.ok(rows.length > 8);
  for (const [call, there, here] of rows) {
    for (const [of, said] of [[semver, there], [versions, here]]) {
      const answer = () => new Function("of", `with (of) return ${call}`)(of);
      if (said.startsWith("Invalid")) assert.throws(answer, { name: said }, call);
      else assert.deepEqual(answer(), JSON.parse(said), call);
    }
    assert.notEqual(there, here);
  }
  // The names that both have.
  const named = read("docs/JAVASCRIPT.md").match(/^`compare`.*?answer/m)[0].match(/(?<=`)\w+(?=`)/g);
  for (const name of named) assert.ok(typeof semver[name] === "function" && typeof versions[name] === "function", name);
});

test("what stands for calls of semver that have other names here", () => {
  const semver = createRequire(import.meta.url)("semver");
  const { Version, VersionSet } = versions;
  const sentences = read("docs/JAVASCRIPT.md").match(/^For `coerce`.*$/m)[0];
  const pairs = [...sentences.matchAll(/`(\w+)` (?:take )?`(?:Version\.)?(\w+)`/g)];
  assert.equal(pairs.length, 7);
  for (const [, there, here] of pairs) {
    assert.ok(there in semver && !(there in versions), there);
    assert.ok([versions, Version, Version.prototype, VersionSet.prototype].some((of) => here in of), here);
  }
  const [, one, other] = sentences.match(/there `subset\("(.*?)", "(.*?)"\)` is false/);
  const sets = [one, other].map((text) => new VersionSet(text));
  assert.deepEqual([semver.subset(one, other), sets[0].isPartOf(sets[1])], [false, true]);
  const [, range] = sentences.match(/`minVersion`: `(.*?)` has no least version/);
  // Each version that is in it has one before it there.
  const within = ["1.2.4", "1.2.3.1", "1.2.3.0.1", "1.2.3.0.0"].map((text) => new Version(text));
  assert.ok(within.every((version, place) => new VersionSet(range).has(version) && (place === 0 || version < within[place - 1])));
  assert.ok("minVersion" in semver && !("minVersion" in versions));
});
