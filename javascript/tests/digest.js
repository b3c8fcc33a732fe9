/*
 * What the module answers for lines and lists of requirements, as one number for each call, for node and for browsers.
 * tests/digest.c makes the same numbers of the library for C. `library` is the module library.js of the package; lines
 * and lists are arrays of Uint8Arrays.
 */

// FNV-1a of what a call returns and writes.
class Digest {
  constructor() {
    this.state = 0x811c9dc5;
  }

  byte(byte) {
    this.state = Math.imul(this.state ^ byte, 0x01000193);
  }

  number(number) {
    for (let at = 0; at < 4; at++) this.byte((number >>> (8 * at)) & 0xff);
  }

  bytes(bytes, from, end) {
    for (let at = from; at < end; at++) this.byte(bytes[at]);
  }

  toString() {
    return (this.state >>> 0).toString(16).padStart(8, "0");
  }
}

const PREFIX = 2;
const ROOM = 64;
const MIXED = 1; // VERSIONS_MIXED
const NO_ROOM = 7; // VERSIONS_NO_ROOM

export function digest(library, lines, lists) {
  const { FIRST, SLOTS, START, reserve, slot } = library;
  reserve(FIRST);
  let last = 0; // the number of the last scheme, by the names of all
  while (Number(library.call.versions_scheme_name(last + 1, 0n, 0n, SLOTS[0])) === NO_ROOM) last++;
  const digests = new Map();
  const of = (name) => digests.get(name) ?? digests.set(name, new Digest()).get(name);
  const write = (bytes, at) => {
    reserve(at + bytes.length + 8);
    library.bytes.set(bytes, at);
    return [BigInt(at), BigInt(bytes.length)];
  };
  // Calls one, and digests its status and as many of the slots, or of the bytes of the first.
  const ask = (name, passed, slots, width = 8) => {
    for (let place = 0; place < 8; place++) library.words[START / 4 + 2 * place] = library.words[START / 4 + 2 * place + 1] = 0;
    const status = library.call[`versions_${name}`](...passed);
    const its = of(name);
    its.number(Number(status));
    for (let place = 0; place < slots; place++) its.bytes(library.bytes, START + 8 * place, START + 8 * place + width);
    return Number(status);
  };

  lines.forEach((line, place) => {
    const other = lines[(place + 1) % lines.length];
    const list = lists[place % lists.length];
    const longest = Math.max(line.length, list.length);
    const out = FIRST + line.length + other.length + list.length;
    const room = 3 * longest + 5;
    reserve(out + 2 * room);
    const a = write(line, FIRST);
    const b = write(other, FIRST + line.length);
    const wanted = write(list, FIRST + line.length + other.length);
    const key = [BigInt(out), BigInt(room)];
    const written = (name, status, length) => {
      if (status === 0) of(name).bytes(library.bytes, out, out + length);
    };
    ask("kind", a, 0);
    ask("stability", a, 0);
    ask("compare_total", [...a, ...b, SLOTS[0]], 1);
    ask("difference", [...a, ...b, SLOTS[0], SLOTS[1]], 2);
    written("parse", ask("parse", [...a, SLOTS[0], ...key, SLOTS[1]], 2), slot(1));
    // A short buffer, of the room that is needed at most.
    ask("key", [MIXED, ...a, BigInt(out), BigInt(Math.min(room, ROOM)), SLOTS[0]], 1);
    ask("matches", [...wanted, ...a, SLOTS[0]], 1);
    ask("wrong_member", [...wanted, SLOTS[0], SLOTS[1]], 2);
    ask("wrong_member", [...a, SLOTS[0], SLOTS[1]], 2);
    ask("why_not", [...wanted, ...a, SLOTS[0], SLOTS[1], SLOTS[2]], 3);
    written("why_text", ask("why_text", [...wanted, ...a, ...key, SLOTS[0]], 1), slot(0));
    ask("conflict", [...wanted, SLOTS[0], SLOTS[1], SLOTS[2], SLOTS[3]], 4);
    const high = [BigInt(out + room), BigInt(room)];
    if (ask("range", [...wanted, ...key, SLOTS[0], ...high, SLOTS[1], SLOTS[2]], 3) === 0) {
      const [low, length, flags] = [slot(0), slot(1), Number(slot(2))];
      of("range").bytes(library.bytes, out, out + low);
      of("range").bytes(library.bytes, out + room, out + room + length);
      const range = [key[0], BigInt(low), high[0], BigInt(length), flags];
      ask("in_range", [...a, ...range, SLOTS[0]], 1, 1);
      ask("match_in_range", [...a, ...range, ...wanted, SLOTS[0]], 1, 1);
    }
    written("inexact", ask("inexact", [...wanted, ...key, SLOTS[0]], 1), slot(0));
    // The list as a set of a scheme, the set of a version, and what is made of both.
    const by = MIXED + (place % last);
    ask("set_bound", [by, ...wanted, SLOTS[0]], 1);
    const form = out + 2 * room;
    const formRoom = slot(0);
    const tied = form + formRoom;
    const tiedRoom = 6 * line.length + 64;
    const made = tied + tiedRoom;
    const madeRoom = formRoom + tiedRoom;
    reserve(made + madeRoom);
    const writes = (name, passed, at, its) => {
      const status = ask(name, [...passed, BigInt(at), BigInt(its), SLOTS[0]], 1);
      const length = status === 0 ? slot(0) : 0;
      of(name).bytes(library.bytes, at, at + length);
      return [BigInt(at), BigInt(length)];
    };
    const set = writes("set", [by, ...wanted], form, formRoom);
    const its = writes("set_of_version", [by, ...a], tied, tiedRoom);
    ask("set_wrong", [by, ...wanted, SLOTS[0], SLOTS[1]], 2);
    writes("set_wrong_text", [by, ...wanted], made, madeRoom);
    ask("set_has", [...set, ...a, SLOTS[0]], 1, 1);
    ask("set_scheme", [...set, SLOTS[0]], 1);
    ask("set_count", [...set, SLOTS[0]], 1);
    ask("set_interval", [...set, 0n, SLOTS[0], SLOTS[1], SLOTS[2], SLOTS[3]], 4);
    ask("set_part_of", [...its, ...set, SLOTS[0]], 1, 1);
    ask("set_meets", [...its, ...set, SLOTS[0]], 1, 1);
    writes("set_and", [...set, ...its], made, madeRoom);
    writes("set_or", [...set, ...its], made, madeRoom);
    writes("set_not", its, made, madeRoom);
    ask("scheme", [...a, SLOTS[0]], 1);
    for (let scheme = 0; scheme <= last; scheme++) {
      ask("has", [scheme, ...a, SLOTS[0]], 1, 1);
      ask("key_bound", [scheme, BigInt(line.length), SLOTS[0]], 1);
      ask("wrong", [scheme, ...a, SLOTS[0], SLOTS[1]], 2);
      written("wrong_text", ask("wrong_text", [scheme, ...a, ...key, SLOTS[0]], 1), slot(0));
      ask("compare", [scheme, ...a, ...b, SLOTS[0]], 1);
      written("key", ask("key", [scheme, ...a, ...key, SLOTS[0]], 1), slot(0));
      written("scheme_name", ask("scheme_name", [scheme, ...key, SLOTS[0]], 1), slot(0));
    }
    for (let n = 0; n < 4; n++) {
      ask("nth", [...a, BigInt(n), SLOTS[0]], 1);
      ask("field", [...a, n + 1, SLOTS[0], SLOTS[1]], 2);
      written("next", ask("next", [...a, BigInt(n), ...key, SLOTS[0]], 1), slot(0));
    }
    written("next_release", ask("next_release", [...a, ...key, SLOTS[0]], 1), slot(0));
    written("next_pre", ask("next_pre", [...a, a[0], 0n, ...key, SLOTS[0]], 1), slot(0));
    written("next_pre", ask("next_pre", [...a, ...b, ...key, SLOTS[0]], 1), slot(0));
    ask("epoch", [...a, SLOTS[0]], 1);
    ask("is_prerelease", [...a, SLOTS[0]], 1, 1);
    ask("in_tag", [...a, SLOTS[0]], 1);
    ask("after_prefix", [a[0], BigInt(Math.min(PREFIX, line.length)), ...a, SLOTS[0]], 1);
  });

  // All lines at once.
  const count = lines.length;
  const size = lines.reduce((sum, line) => sum + line.length, 0);
  const offsets = FIRST;
  const keyOffsets = offsets + 8 * (count + 1);
  const order = keyOffsets + 8 * (count + 1);
  const from = order + 8 * count;
  const room = 5 * size + 7 * count;
  const keys = from + size;
  const list = keys + room;
  reserve(list + Math.max(...lists.map((each) => each.length)) + 512);
  let end = from;
  lines.forEach((line, place) => {
    library.words[offsets / 4 + 2 * place] = end - from;
    library.words[offsets / 4 + 2 * place + 1] = 0;
    library.bytes.set(line, end);
    end += line.length;
  });
  library.words[offsets / 4 + 2 * count] = end - from;
  library.words[offsets / 4 + 2 * count + 1] = 0;
  const texts = [BigInt(from), BigInt(size), BigInt(offsets), BigInt(count + 1)];
  const answers = [BigInt(keys), BigInt(count)];
  const digestAnswers = (name, at, bytes) => of(name).bytes(library.bytes, at, at + bytes);
  for (const name of ["kinds", "stabilities"]) {
    ask(name, [...texts, ...answers], 0);
    digestAnswers(name, keys, count);
  }
  ask("in_tags", [...texts, BigInt(order), BigInt(count)], 0);
  digestAnswers("in_tags", order, 8 * count);
  const allKeys = [...texts, BigInt(keys), BigInt(room), BigInt(keyOffsets), BigInt(count + 1)];
  for (let scheme = MIXED; scheme <= last; scheme++) {
    ask("keys", [scheme, ...allKeys], 0);
    digestAnswers("keys", keyOffsets, 8 * (count + 1));
    digestAnswers("keys", keys, library.wordPair(keyOffsets + 8 * count));
    ask("sort", [scheme, ...allKeys, BigInt(order), BigInt(count)], 0);
    digestAnswers("sort", order, 8 * count);
  }
  for (const each of lists.slice(0, 20)) {
    const wanted = write(each, list);
    for (let flags = 0; flags < 2; flags++) ask("newest", [...texts, ...wanted, 4 * flags, flags, SLOTS[0]], 1);
    if (ask("match_all", [...wanted, ...texts, ...answers], 0) === 0) digestAnswers("match_all", keys, count);
  }
  const negated = write(Uint8Array.of(33, 61, 49), list); // !=1
  ask("set", [MIXED, ...negated, BigInt(list + 8), 256n, SLOTS[0]], 0);
  ask("set_has_all", [BigInt(list + 8), BigInt(slot(0)), ...texts, ...answers], 0);
  digestAnswers("set_has_all", keys, count);
  const bounds = Uint8Array.of(0, 3, 1, 49, 2, 0, 3, 1, 50, 2);
  const [bound] = write(bounds, list);
  ask("in_range_all", [...texts, bound, 5n, bound + 5n, 5n, 15, ...answers], 0);
  digestAnswers("in_range_all", keys, count);
  return [...digests].map(([name, its]) => `${name} ${its}\n`).sort().join("");
}

/** The lines of a file, without what ends them. */
export function linesOf(bytes) {
  const lines = [];
  for (let from = 0; from < bytes.length; ) {
    const end = bytes.indexOf(10, from);
    lines.push(bytes.subarray(from, end < 0 ? bytes.length : end));
    from = end < 0 ? bytes.length : end + 1;
  }
  return lines;
}
