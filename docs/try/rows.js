/*
 * The rows of the list: those in sight are in the document, all of one height, so that they are found by a division.
 */
import { ask } from "ask";
import { at, bdi, element, quoted, short, told } from "shown";

const AROUND = 6; // rows that are drawn above and below those in sight
const TALLEST = 8_000_000; // pixels: browsers cut what is taller, so a longer list is scrolled in larger steps
const END = 12; // characters at the end of a version that stay where it is cut
const KINDS = {
  ideal: ["strict", "as in SemVer 2.0"], general: ["general", "as most packages have it"],
  complex: ["messy", "other letters and digits with signs between"],
};
const TIES = { same: "same text", equal: "equal in order" };

const rows = at("rows");
let [count, total] = [0, 0]; // how many lines are versions, and how many there are
let order = -1; // which list in order the rows are of
let withKeys = false;
let drawn = { from: 0, its: [] }; // the rows in the document
let drawings = 0;
let chosen = -1;

/* Takes an answer of the worker. Where it is of another list or order, no line is chosen. */
export function setRows({ order: its, count: versions, others, set }, keys) {
  if (its !== order) chosen = -1;
  document.documentElement.classList.toggle("with-set", set !== null);
  [order, count, total, withKeys] = [its, versions, versions + others, keys];
}

/* The height of a row, which style.css sets. */
const heightOfRow = () => parseFloat(getComputedStyle(at("space")).minHeight);

/* The height of a row, of the list, and of what stands for it, and the pixels of the list for one that is scrolled. */
function measures() {
  const height = heightOfRow();
  const tall = Math.min(total * height, TALLEST);
  const room = tall - rows.clientHeight;
  return { height, tall, step: room > 0 ? (total * height - rows.clientHeight) / room : 1 };
}

function drawMatch({ matches, why }) {
  if (matches === undefined) return element("span", "match");
  if (matches) return element("span", "match yes", "✓ matches");
  const words = { kind: "not of a kind of", below: "below", above: "above", parts: "other parts than" }[why.reason];
  const made = element("span", "match no", `✗ ${words} ${short(why.member)}`);
  made.title = made.textContent;
  return made;
}

function drawIsIn({ isIn }) {
  if (isIn === undefined) return element("span", "set");
  return isIn ? element("span", "set yes", "✓ in the set") : element("span", "set no", "✗ not in the set");
}

/* A key as a row shows it: its first pieces, which may be cut, and its tail. */
function drawKey(pieces) {
  const drawn = pieces.map(({ name, says, hex }) => {
    const one = element("span", `piece ${name}`, hex);
    one.title = name === "end" ? "the end of the parts" : `${name} ${short(says)}`.trim();
    return one;
  });
  const tail = drawn.pop();
  return element("span", "key", element("span", "parts", ...drawn), tail);
}

/* A version, or a tag: where there is no room, the beginning of each is cut, and the end of the version stays. */
function drawText(text, version) {
  const around = text.slice(0, text.length - version.length);
  const its = short(version);
  const made = element("span", "text");
  if (around !== "") made.append(bdi("around", around));
  made.append(bdi("start", its.slice(0, -END)), bdi("end-of", its.slice(-END)));
  made.title = made.textContent;
  return made;
}

function drawRow(item, place) {
  const { text, version, kind, stability, tie, line: number, key } = item;
  const row = element("div", "row");
  row.id = `row-${place}`;
  row.setAttribute("role", "option");
  row.setAttribute("aria-posinset", place + 1);
  row.setAttribute("aria-setsize", total);
  row.setAttribute("aria-selected", place === chosen);
  if (version === null) {
    row.classList.add("none");
    const shown = element("span", "line", element("span", "text", quoted(text)));
    row.append(element("span", "place", "✗"), shown, element("span", "match no", `line ${told(number)} is no version`));
    return row;
  }
  const [name, what] = KINDS[kind] ?? ["", ""];
  const kindShown = element("span", "kind", name);
  kindShown.title = what;
  const tieShown = element("span", "tie", TIES[tie] ?? "");
  if (tie !== "") tieShown.title = `${TIES[tie]} as the line above`;
  const line = element("span", "line", drawText(text, version), tieShown);
  const stabilityShown = element("span", "stability", stability ?? "");
  row.append(element("span", "place", told(place + 1)), line, kindShown, stabilityShown, drawMatch(item), drawIsIn(item));
  if (key !== undefined) row.append(drawKey(key));
  return row;
}

export async function drawRows() {
  const number = ++drawings;
  rows.ariaBusy = "true";
  const { height, tall, step } = measures();
  const top = rows.scrollTop * step;
  const from = Math.min(total, Math.max(0, Math.floor(top / height) - AROUND));
  const to = Math.min(total, Math.ceil((top + rows.clientHeight) / height) + AROUND);
  const its = await ask("rows", from, Math.max(from, to), withKeys);
  if (number !== drawings) return;
  drawn = { from, its };
  at("space").style.height = `${tall}px`;
  at("seen").style.top = `${rows.scrollTop + from * height - top}px`;
  rows.style.setProperty("--digits", told(total).length);
  at("seen").replaceChildren(...its.map((item, place) => drawRow(item, from + place)));
  if (chosen >= from && chosen < to) rows.setAttribute("aria-activedescendant", `row-${chosen}`);
  else rows.removeAttribute("aria-activedescendant");
  rows.ariaBusy = "false";
}

/* Chooses a line, brings it into sight, and compares it with the version before it, or the first one with the next. */
export async function choose(place, compare) {
  if (total === 0) return;
  chosen = Math.min(Math.max(place, 0), total - 1);
  const { height, step } = measures();
  const [top, bottom] = [chosen * height, (chosen + 1) * height];
  if (rows.scrollTop * step > top) rows.scrollTop = top / step;
  if (rows.scrollTop * step + rows.clientHeight < bottom) rows.scrollTop = (bottom - rows.clientHeight) / step;
  await drawRows();
  const versionAt = (at) => drawn.its[at - drawn.from]?.version ?? null;
  const pair = (chosen > 0 ? [chosen - 1, chosen] : [0, Math.min(1, count - 1)]).map(versionAt);
  if (compare !== undefined && chosen < count && !pair.includes(null)) compare(pair);
}

/* The same for the line at a height of the window. */
export function chooseAt(y, compare) {
  const { height, step } = measures();
  const place = Math.floor((y - rows.getBoundingClientRect().top - rows.clientTop + rows.scrollTop * step) / height);
  if (place < total) choose(place, compare);
}

const pageOf = () => Math.max(1, Math.floor(rows.clientHeight / heightOfRow()) - 1);
export const MOVES = {
  ArrowDown: () => chosen + 1,
  ArrowUp: () => (chosen < 0 ? 0 : chosen - 1),
  PageDown: () => Math.max(chosen, 0) + pageOf(),
  PageUp: () => chosen - pageOf(),
  Home: () => 0,
  End: () => total - 1,
};
