/*
 * The proved library as a WebAssembly module, its memory, and how texts get there.
 *
 * The module is a text in module.js, and compiled while this file is loaded. So nothing here waits: node's `require`
 * takes the package as `import` does, and a bundler needs no rule for another kind of file.
 *
 * The module imports nothing, and none of its calls allocates. So all memory past what it begins with is ours: each
 * call writes what it passes from `START` on, over what the call before it left there. The memory grows to what the
 * largest call needs. Where that is more than KEPT bytes, a new instance takes the place of the old one once the running
 * code has ended, since no memory of WebAssembly shrinks.
 */

import encoded from "./module.js";

const PAGE = 65536;
const KEPT = 16 * 1024 * 1024;
// A module of nothing but one 64-bit memory.
const MEMORY_64 = Uint8Array.of(0, 97, 115, 109, 1, 0, 0, 0, 5, 3, 1, 4, 1);

if (!WebAssembly.validate(MEMORY_64)) {
  throw new Error(
    "this engine has no 64-bit memories: take node 24, Chrome 133, Firefox 134 or later ones, " +
      "or give an earlier node the option --experimental-wasm-memory64",
  );
}
const compiled = new WebAssembly.Module(bytesOf(atob(encoded)));

/** The calls of the module, by the names of c/versions.h. */
export let call;
/** The memory as bytes, and as 32-bit words of which two make one number of the library. */
export let bytes, words;
let memory;

function view() {
  bytes = new Uint8Array(memory.buffer);
  words = new Uint32Array(memory.buffer);
}

function renew() {
  // A copy, because properties of a plain object are found faster.
  call = { ...new WebAssembly.Instance(compiled).exports };
  memory = call.memory;
  view();
}
renew();

/** The first address that is ours. */
export const START = bytes.length;
/** The addresses of eight numbers, into which calls write their results; `slot` reads one. */
export const SLOTS = Array.from({ length: 8 }, (_, place) => BigInt(START + 8 * place));
/** Where texts and lists begin. */
export const FIRST = START + 64;

// The module takes BigInts. Those of short lengths, and of the places after FIRST, are made once.
const LENGTHS = Array.from({ length: 1024 }, (_, length) => BigInt(length));
const PLACES = LENGTHS.map((length) => BigInt(FIRST) + length);
export const big = (length) => (length < 1024 ? LENGTHS[length] : BigInt(length));
/** The address so many bytes after FIRST. */
export const after = (length) => (length < 1024 ? PLACES[length] : BigInt(FIRST + length));

/** The number that a call has written into a slot. Of the numbers there none is above 2 ** 53 but for epochs. */
export const slot = (place) => wordPair(START + 8 * place);
/** The number of 64 bits at an address. */
export const wordPair = (address) => words[address >>> 2] + words[(address >>> 2) + 1] * 2 ** 32;

// Older engines take numbers of pages as numbers, and newer ones as BigInts.
function grow(pages) {
  let wanted = BigInt(pages);
  try {
    memory.grow(0n);
  } catch {
    wanted = pages;
  }
  memory.grow(wanted);
}

let isLarge = false;

function giveBack() {
  isLarge = false;
  try {
    renew();
  } catch {
    // There is no memory for another instance, so the old one stays.
  }
}

/** Makes room up to an address. A RangeError where there is none. */
export function reserve(end) {
  if (end <= bytes.length) return;
  if (end > 2 ** 32) throw new RangeError("the texts of one call need more than 4 GiB");
  grow(Math.ceil((end - bytes.length) / PAGE));
  view();
  if (bytes.length - START > KEPT && !isLarge) {
    isLarge = true;
    queueMicrotask(giveBack);
  }
}

// Texts up to this length are written faster unit by unit.
const SHORT = 128;
const encoder = new TextEncoder();
const width = (point) => (point < 0x80 ? 1 : point < 0x800 ? 2 : point < 0x10000 ? 3 : 4);

/**
 * Writes a text from an address on, as UTF-8, and returns the address after it. It needs room for three bytes for each
 * unit of the text. A lone surrogate becomes U+FFFD, which takes as many bytes, and is in no version and no requirement.
 */
export function put(text, at) {
  const { length } = text;
  const to = bytes;
  let place = 0;
  if (length <= SHORT) {
    for (; place < length; place++) {
      const unit = text.charCodeAt(place);
      if (unit >= 0x80) break;
      to[at + place] = unit;
    }
    if (place === length) return at + length;
  }
  // Node 20 writes nothing into a target of 2 ** 31 bytes or more.
  return at + encoder.encodeInto(text, to.subarray(at, at + 3 * length)).written;
}

/** The place in a text before which so many of its bytes lie, counted in its units. */
export function placeOf(text, count) {
  let place = 0;
  while (count > 0) {
    const size = width(text.codePointAt(place));
    place += size === 4 ? 2 : 1;
    count -= size;
  }
  return place;
}

/** A text of one character for each byte, from one address up to another. Such texts compare as their bytes do. */
export function binary(from, end) {
  let text = "";
  for (let at = from; at < end; at += 4096) {
    text += String.fromCharCode.apply(null, bytes.subarray(at, Math.min(end, at + 4096)));
  }
  return text;
}

/** The bytes of such a text. */
export function bytesOf(text) {
  const result = new Uint8Array(text.length);
  for (let place = 0; place < text.length; place++) result[place] = text.charCodeAt(place);
  return result;
}
