// What the tests share. JAVASCRIPT is the folder of the package, as javascript/build makes it, and SCHEMES a file with the
// rows that tests/support/schemes.py writes.
import assert from "node:assert/strict";
import { readFileSync } from "node:fs";
import { pathToFileURL } from "node:url";

export const folder = process.env.JAVASCRIPT;
export const versions = await import(pathToFileURL(`${folder}/index.js`));
const { InvalidRequirement, InvalidVersion, InvalidVersionSet } = versions;

const signs = { "\\0": "\0", "\\n": "\n", "\\t": "\t" };
const rows = readFileSync(process.env.SCHEMES, "utf8").trimEnd().split("\n")
  .map((row) => row.split("\t").map((word) => word.replace(/\\[0nt]/g, (sign) => signs[sign])));

/** The rows of the schemes of a kind, each by its words, the scheme first. */
export function rowsOf(kind) {
  const found = rows.filter(([its]) => its === kind).map(([, ...words]) => words);
  assert.ok(found.length > 0, kind);
  return found;
}

const ofScheme = (scheme) => (scheme === "mixed" ? "" : ` of ${scheme}`);

/** Whether a call throws InvalidVersion with a text of a scheme, and a message; of a tag without what is wrong with it. */
export function refusesVersion(call, text, message, scheme = "mixed", isTag = false) {
  assert.throws(call, (error) => {
    assert.ok(error instanceof InvalidVersion && error instanceof RangeError, String(error));
    assert.deepEqual([error.text, error.scheme], [text, scheme]);
    const said = message ?? `not a version${ofScheme(scheme)}: ${JSON.stringify(text)}`;
    const { place, reason } = error;
    if (isTag) assert.deepEqual([place, reason], [null, null]);
    else assert.ok(Number.isInteger(place) && place <= text.length && typeof reason === "string", said);
    assert.equal(String(error), `InvalidVersion: ${said}${isTag ? "" : `; at ${place}: ${reason}`}`);
    return true;
  });
}

/** Whether Version.fromTag throws InvalidVersion for a tag, and says why. */
export function refusesTag(tag, prefix, why) {
  refusesVersion(() => versions.Version.fromTag(tag, prefix), tag, `the tag ${JSON.stringify(tag)} ${why}`, "mixed", true);
}

/** Whether a call throws InvalidRequirement with a text, and its first wrong member. */
export function refusesRequirement(call, text, start, member) {
  assert.throws(call, (error) => {
    assert.ok(error instanceof InvalidRequirement && error instanceof RangeError, String(error));
    assert.deepEqual([error.text, error.start, error.member], [text, start, member]);
    const wrong = member === text ? "" : `; its member ${JSON.stringify(member)} at ${start} is wrong`;
    const said = `not a requirement: ${JSON.stringify(text)}${wrong}; a list looks like '>=1.2,<2'`;
    assert.equal(error.message, said);
    return true;
  });
}

/** Whether a call throws InvalidVersionSet with a text of a scheme, the place of its first wrong piece, and why. */
export function refusesSet(call, text, start, reason, scheme = "mixed") {
  assert.throws(call, (error) => {
    assert.ok(error instanceof InvalidVersionSet && error instanceof RangeError, String(error));
    assert.deepEqual([error.text, error.start, error.reason, error.scheme], [text, start, reason, scheme]);
    const said = `not a set of versions${ofScheme(scheme)}: ${JSON.stringify(text)}; at ${start}: ${reason}`;
    assert.equal(String(error), `InvalidVersionSet: ${said}`);
    return true;
  });
}

/** Whether a call throws the TypeError of a value of another scheme than the one that is wanted. */
export function refusesScheme(call, wanted, its) {
  const message = `versions of ${wanted} are wanted, and this is of ${its}`;
  assert.throws(call, { name: "TypeError", message });
}

/** Whether a call throws a TypeError that names a type, and what is of it. */
export function refusesType(call, type, what = "this") {
  assert.throws(call, (error) => {
    assert.equal(error.constructor, TypeError, String(error));
    assert.match(error.message, new RegExp(`and ${what} is of type ${type}$`));
    return true;
  });
}

/** Bytes of hexadecimal digits. */
export const hex = (text) => Uint8Array.from(text.match(/[0-9a-f]{2}/g) ?? [], (byte) => parseInt(byte, 16));

/** Numbers from 0 up to, but without, a bound, by a seed: those of MINSTD. */
export function chooser(seed) {
  let state = seed;
  return (bound) => {
    state = (state * 16807) % 2147483647;
    return state % bound;
  };
}

/** Whether bytes compare as memcmp does: less than 0, 0, or more. */
export const compareBytes = (a, b) => Buffer.compare(a, b);
