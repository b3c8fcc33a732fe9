/*
 * The pieces of a sort key of mixed: the epoch, the parts, their end, and the tail. This walks over the bytes as
 * docs/ORDER.md describes them, and decides nothing.
 */
const [DIGITS, BYTES] = [200, 400]; // characters and bytes of one piece that are shown
const PARTS = 40; // parts that stand side by side
const TAILS = { 1: "pre-release", 2: "nothing", 3: "release", 4: "sections" };

/* Each piece with its name, its bytes, what they say, and of a part its shape: a word, or a number with its digits. */
function* piecesOf(key) {
  let place = 0;
  let its;
  const characters = (from, to) =>
    String.fromCharCode(...key.subarray(from, Math.min(to, from + DIGITS))) + (to - from > DIGITS ? "…" : "");
  const number = () => {
    let length = 0;
    for (; key[place] === 255; place++) length += 255;
    length += key[place++];
    const digits = length === 0 ? "0" : characters(place, place + length);
    place += length;
    its.says += digits;
    return digits;
  };
  const text = () => {
    const from = place;
    place = key.indexOf(0, from) + 1;
    its.says += characters(from, place - 1);
  };
  const split = () => {
    text();
    if (key[place++] === 1) {
      number();
      text();
    }
  };
  const part = () => {
    its.shape = key[place++] === 1 ? "word" : "number";
    if (its.shape === "word") return split();
    its.number = number();
    its.suffix = key[place++] === 1;
    if (its.suffix) split();
  };
  const tail = () => {
    its.shape = TAILS[key[place]];
    place = key.length;
  };
  const piece = (name, walk) => {
    const from = place;
    its = { name, says: "" };
    walk();
    return { ...its, bytes: key.subarray(from, place) };
  };
  yield piece("epoch", number);
  while (key[place] !== 2) yield piece("part", part);
  yield piece("end", () => place++);
  yield piece("tail", tail);
}

/* Bytes in hexadecimal, up to so many. */
export const hex = (bytes, most = BYTES) =>
  Array.from(bytes.subarray(0, most), (byte) => byte.toString(16).padStart(2, "0")).join("") +
  (bytes.length > most ? "…" : "");

const shown = ({ bytes, ...its }, most) => ({ ...its, hex: hex(bytes, most) });

/* The pieces of a key that have the first bytes, and the last one. */
export function partsOf(key, most) {
  const found = [];
  let left = most;
  let last;
  for (const piece of piecesOf(key)) {
    if (left > 0) found.push(shown(piece, left));
    left -= piece.bytes.length;
    last = piece;
  }
  if (left < 0 && found.at(-1).name !== "tail") found.push(shown(last, most));
  return found;
}

/* The piece in a row: the epoch, a part or their end by its number, or the tail with the field that it is of. */
function pieceIn(pieces, name, version) {
  if (name === "epoch") return shown(pieces[0]);
  if (name === "tail") return { ...shown(pieces.at(-1)), says: version.preRelease ?? version.release ?? "" };
  return name + 1 < pieces.length - 1 ? shown(pieces[name + 1]) : null;
}

/*
 * The pieces of two versions in rows. A version may have a million parts, so the first ones are there, and the one that
 * decides.
 */
export function rowsOf(both, deciding) {
  const pieces = both.map((version) => [...piecesOf(version.key)]);
  const most = Math.max(...pieces.map(({ length }) => length - 2));
  const numbers = Array.from({ length: Math.min(most, PARTS) }, (_, number) => number);
  if (deciding !== null && deciding >= PARTS) numbers.push(deciding);
  return ["epoch", ...numbers, "tail"].map((name) => ({
    name, cells: pieces.map((its, place) => pieceIn(its, name, both[place])),
  }));
}
