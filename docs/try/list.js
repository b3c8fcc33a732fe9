/*
 * What is said of the list and of what is asked of it: beside its field, and above the rows.
 */
import { at, bdi, code, element, plural, quoted, short, told } from "shown";
import { choose } from "rows";

const NONE = 5; // lines that are no versions and are shown beside the field
const AROUND = 100; // characters before a wrong piece
const LIKE = ">=1.2,<2";
const NAMES = { ideal: "strict", general: "general", complex: "messy" };

const list = at("list");
let none = new Set(); // the numbers of the lines that are no versions
let lineCount = 1;

function button(title, act, ...more) {
  const made = element("button", "", title, ...more);
  made.type = "button";
  made.addEventListener("click", act);
  return made;
}

/* Selects a line in the field. */
function select(line) {
  const lines = list.value.split("\n");
  const start = lines.slice(0, line - 1).reduce((sum, its) => sum + its.length + 1, 0);
  list.focus();
  list.setSelectionRange(start, start + (lines[line - 1]?.length ?? 0));
  list.scrollTop = (line - 3) * heightOfLine();
}

const heightOfLine = () => parseFloat(getComputedStyle(list).lineHeight);

/* Draws the numbers of the lines in sight, with a mark at those that are no versions. */
export function drawNumbers() {
  const height = heightOfLine();
  const from = Math.floor(list.scrollTop / height);
  const until = Math.min(lineCount, from + Math.ceil(list.clientHeight / height) + 1);
  const drawn = Array.from({ length: Math.max(0, until - from) }, (_, place) => {
    const line = from + place + 1;
    return none.has(line) ? element("div", "wrong", `✗ ${line}`) : element("div", "", String(line));
  });
  if (drawn.length > 0) drawn[0].style.marginTop = `${from * height - list.scrollTop}px`;
  at("numbers").replaceChildren(...drawn);
}

export function drawProgress({ doing, done, of }) {
  at("working").hidden = false;
  const progress = at("progress");
  if (of === 0) progress.removeAttribute("value");
  else [progress.max, progress.value] = [of, done];
  at("doing").textContent = `${doing} the list …`;
}

/* What keeps a text from being a version, and where; of a line without a version in a tag the library says nothing. */
const sayWhy = ({ text, place, reason }) =>
  reason === null ? "" : `: ${reason}${place === text.length ? "" : ` at character ${told(place + 1)}`}`;

function sayNone(its, act) {
  const why = element("span", "why", sayWhy(its));
  return element("li", "", button(`Line ${told(its.line)}`, act), " ", quoted(its.text), " is no version", why, ".");
}

function drawNone(lines, others, isHeld) {
  const shown = lines.slice(0, NONE).map((its) => sayNone(its, () => select(its.line)));
  const rest = others - shown.length;
  if (rest > 0) shown.push(element("li", "", `So ${rest === 1 ? "is" : "are"} ${plural(rest, "other line")}.`));
  at("none").replaceChildren(...(shown.length === 0 ? [] : [element("ul", "wrong", ...shown)]));
  none = new Set(lines.map(({ line }) => line));
  at("none").classList.toggle("held", isHeld);
}

/* Offers to take the versions in lines that have them as tags do. */
function drawLike({ count, example }, isOfTags, answer) {
  if (count === 0 || isOfTags) return at("like").replaceChildren();
  const [tag, version] = example.map(code);
  const act = () => {
    at("tags").checked = true;
    at("tags").focus();
    answer();
  };
  const these = count === 1 ? "This line looks like a tag" : `${told(count)} lines look like tags`;
  at("like").replaceChildren(
    `${these}: `, tag, " holds the version ", version, ". ", button("Take the versions in tags", act),
  );
}

/* A text with the piece from a place on marked, or where one is missing. */
function marked(text, start, piece) {
  const mark = element("mark", "", piece === "" ? "∅" : bdi("", piece));
  const after = text.slice(start + piece.length);
  return element("code", "", bdi("", text.slice(Math.max(0, start - AROUND), start)), mark, bdi("", after));
}

const line = (className, ...said) => element("p", className, ...said);

/* Where the range of the requirements lies in the list, and its bounds, in words of keys. */
function sayRange({ places: [from, to], low, high, kinds, exact }, count, hits) {
  const places = from + 1 === to ? `place ${told(to)}` : `places ${told(from + 1)} to ${told(to)}`;
  const matched = `it matches ${hits === to - from ? "all" : told(hits)} of these.`;
  const where = from >= to ? "Its range holds none." : `Its range holds ${places} of ${told(count)}; ${matched}`;
  const end = high === null ? [" on"] : [" up to, but without, ", element("code", "", high)];
  const names = kinds.map((kind) => NAMES[kind]).join(", ") || "none";
  const rest = `; kinds: ${names}; ${exact ? "exact" : "not exact: each version in it is asked"}.`;
  return line("of-keys", where, " Keys from ", element("code", "", low || "the first"), ...end, rest);
}

function drawWanted({ wanted, wrong, count }) {
  const said = [];
  at("wanted").ariaInvalid = String(wrong !== null);
  if (wrong !== null) {
    const { text, start, member } = wrong;
    const like = [". Such a list looks like ", code(LIKE), "."];
    said.push(line("wrong", "✗ This is not a list of requirements: ", marked(text, start, member), ...like));
  } else if (wanted !== null) {
    const { hits, newest, conflict, range } = wanted;
    if (conflict !== null) {
      const [one, other] = conflict.map(code);
      said.push(line("wrong", "✗ Nothing matches: ", one, " and ", other, " exclude each other."));
    }
    said.push(line("", `It matches ${told(hits)} of the ${plural(count, "version")}.`));
    if (newest !== null) said.push(line("", "The newest that matches: ", code(newest)));
    said.push(sayRange(range, count, hits));
  }
  at("range").replaceChildren(...said);
}

/* What is said of a set, or what is wrong with it: its first wrong piece ends before a blank, a comma or a bar. */
function drawSet({ set, noSet, count }) {
  const said = [];
  at("set").ariaInvalid = String(noSet !== null);
  if (noSet !== null) {
    const { text, start, reason } = noSet;
    const [piece] = /^(\|+|[^ \t,|]*)/.exec(text.slice(start));
    said.push(line("wrong", "✗ This is not a set: ", marked(text, start, piece), `: ${reason}.`));
  } else if (set !== null) {
    said.push(line("", `It has ${told(set.hits)} of the ${plural(count, "version")}.`));
    if (set.newest !== null) said.push(line("", "The newest in it: ", code(set.newest)));
  }
  at("in-set").replaceChildren(...said);
}

function drawSummary({ count, others, wanted, set }) {
  const hits = [];
  if (wanted !== null) hits.push(plural(wanted.hits, "matches", "match"));
  if (set !== null) hits.push(`${plural(set.hits, "is", "are")} in the set`);
  const said = [plural(count, "version"), hits.length === 0 ? "" : `, of which ${hits.join(" and ")}`];
  if (others > 0) {
    const act = () => {
      choose(count);
      at("rows").focus();
    };
    said.push("; ", button(plural(others, "line is no version", "lines are no versions"), act));
  }
  at("summary").replaceChildren(...said, ".");
}

/* Draws all that is said of an answer of the worker. */
export function drawList(found, { text, tags, isHeld, answer }) {
  lineCount = text.split("\n").length;
  drawNone(found.none, found.others, isHeld);
  drawLike(found.like, tags, answer);
  drawWanted(found);
  drawSet(found);
  drawSummary(found);
  drawNumbers();
}
