/*
 * The page: what is typed goes to the worker, and what that answers is drawn. No rule of versions, requirements or sets
 * is here. Of the list only the rows in sight are in the document. What is typed is kept in the history of the browser
 * and, where it is short enough, in the address, which is a link to it.
 */
import { drawPair } from "pair";
import { drawList, drawNumbers, drawProgress } from "list";
import { MOVES, choose, chooseAt, drawRows, setRows } from "rows";
import { ask, worker } from "ask";
import { at, element, plural, told } from "shown";

const [HELD_LINES, HELD_LENGTH] = [5_000, 500_000]; // what is longer isn't laid out in the field: that takes seconds
const [SHOWN_LINES, SHOWN_LENGTH] = [1_000, 50_000]; // of such a list
const LINK = 20_000; // characters of a link
const MANY = 1_000; // lines, from which on the page says how long it took
const PAUSE = 300; // milliseconds without an input, after which it is kept: browsers refuse many changes of an address
const SYSTEMS = {
  mixed: "all shapes in one order", deb: "Debian", rpm: "RPM", pypi: "Python, by PEP 440", semver: "SemVer 2.0",
  gem: "RubyGems",
};
const TEXTS = ["list", "scheme", "wanted", "set", "first", "second"];
const CHOICES = ["tags", "keys"];

const [page, list, scheme, tags, keys, rows] = ["page", "list", "scheme", "tags", "keys", "rows"].map(at);

let held = null; // a list that is too long for its field
let sent; // the list that the worker has
let inputs = 0;
let keeping;

/* Shows the beginning of a list that is too long for its field, and keeps it beside. */
function hold(text) {
  held = text.replace(/\r\n?/g, "\n");
  list.value = held.slice(0, SHOWN_LENGTH).split("\n", SHOWN_LINES).join("\n");
  list.readOnly = true;
  const anew = element("button", "", "Begin anew");
  anew.type = "button";
  anew.addEventListener("click", () => {
    release();
    list.value = "";
    list.focus();
    answer();
  });
  const said = "The list is too long to be edited here: the field shows its beginning. All of it is answered, but it " +
    "isn't kept at a reload, nor in a link. ";
  at("held").replaceChildren(said, anew);
}

function release() {
  held = null;
  list.readOnly = false;
  at("held").replaceChildren();
}

function isLong(text) {
  let place = -1;
  for (let lines = 0; lines < HELD_LINES; lines++) {
    place = text.indexOf("\n", place + 1);
    if (place < 0) return text.length > HELD_LENGTH;
  }
  return true;
}

function stateNow() {
  const texts = TEXTS.map((name) => [name, at(name).value]);
  return Object.fromEntries([...texts, ...CHOICES.map((name) => [name, at(name).checked])]);
}

/* A link to a state: its fields that aren't empty, and always the list. */
function linkOf(state) {
  const given = Object.entries(state).filter(([name, value]) => name === "list" || (value && value !== "mixed"));
  return `#${new URLSearchParams(given.map(([name, value]) => [name, value === true ? "1" : value]))}`;
}

function stateOf(link) {
  const given = new URLSearchParams(link.slice(1));
  return given.has("list") ? Object.fromEntries(given) : null;
}

/* Keeps what is typed. Whether the address is a link to it. */
function keep() {
  clearTimeout(keeping);
  const state = { ...stateNow(), ...(held !== null && { list: "" }) };
  const link = linkOf(state);
  const isShort = held === null && link.length <= LINK;
  history.replaceState(state, "", isShort ? link : "#");
  return isShort;
}

function take(state) {
  release();
  for (const name of TEXTS) at(name).value = state[name] ?? "";
  for (const name of CHOICES) at(name).checked = Boolean(state[name]);
  if (scheme.value === "") scheme.value = "mixed";
  if (isLong(list.value)) hold(list.value);
  answer();
}

const example = () => stateOf(document.querySelector("nav a").hash);
const stateThere = () => history.state ?? stateOf(location.hash) ?? example();

/* Runs what answers an input, and says when the page is drawn. */
async function answer(what = [answerList, answerPair]) {
  const began = performance.now();
  const number = ++inputs;
  page.ariaBusy = "true";
  clearTimeout(keeping);
  keeping = setTimeout(keep, PAUSE);
  try {
    await Promise.all(what.map((its) => its()));
    at("state").textContent = "";
  } catch (error) {
    at("state").textContent = `There is no answer: ${error.message}`;
  }
  if (number !== inputs) return;
  at("working").hidden = true;
  requestAnimationFrame(() => setTimeout(() => {
    if (number === inputs) isDrawn(Math.round(performance.now() - began), what);
  }));
}

let lineCount = 0;
function isDrawn(spent, what) {
  page.ariaBusy = "false";
  const sentence = `${plural(lineCount, "line")}: from the input to the drawn page ${told(spent)} ms.`;
  if (what.includes(answerList)) at("time").textContent = lineCount < MANY ? "" : sentence;
}

async function answerList() {
  const isMixed = scheme.value === "mixed";
  at("of-mixed").hidden = !isMixed;
  document.documentElement.classList.toggle("other", !isMixed);
  document.documentElement.classList.toggle("with-keys", keys.checked);
  const { list: typed, ...state } = stateNow();
  const text = held ?? typed;
  const found = await ask("list", { ...state, list: text === sent ? undefined : ((sent = text), text) });
  if (found === null) return;
  lineCount = found.count + found.others;
  drawList(found, { text: typed, tags: tags.checked, isHeld: held !== null, answer });
  setRows(found, keys.checked);
  await drawRows();
}

let pairs = 0;
async function answerPair() {
  const number = ++pairs;
  const texts = ["first", "second"].map((name) => at(name).value);
  const found = await ask("pair", texts, scheme.value, at("wanted").value);
  if (number === pairs) drawPair(texts, { ...found, system: SYSTEMS[scheme.value].split(",")[0] });
}

/* Puts two versions side by side. */
function compare([one, other]) {
  [at("first").value, at("second").value] = [one, other];
  answer([answerPair]);
}

/* Copies a text. This goes without a secure context too. */
function copy(text) {
  const put = (event) => {
    event.clipboardData.setData("text/plain", text);
    event.preventDefault();
  };
  document.addEventListener("copy", put, { capture: true });
  const isCopied = document.execCommand("copy");
  document.removeEventListener("copy", put, { capture: true });
  return isCopied;
}

async function copyVersions() {
  const text = await ask("inOrder");
  at("copied").textContent = copy(text) ? "The versions are copied." : "The browser doesn't let the page copy.";
}

function copyLink() {
  const isShort = keep();
  if (!isShort) at("copied").textContent = "The list is too long for a link.";
  else at("copied").textContent = copy(location.href) ? "The link is copied." : "The link is the page's address.";
}

/* A paste of many lines doesn't go into the field. */
function onPaste(event) {
  const pasted = event.clipboardData.getData("text/plain");
  const { value, selectionStart, selectionEnd } = list;
  const text = held === null ? value.slice(0, selectionStart) + pasted + value.slice(selectionEnd) : pasted;
  if (held === null && !isLong(text)) return;
  event.preventDefault();
  release();
  if (isLong(text)) hold(text);
  else list.value = text;
  answer();
}

function listen() {
  list.addEventListener("paste", onPaste);
  list.addEventListener("input", () => {
    if (isLong(list.value)) hold(list.value);
    answer();
  });
  for (const name of ["scheme", "tags", "wanted", "set", "keys"]) at(name).addEventListener("input", () => answer());
  for (const name of ["first", "second"]) at(name).addEventListener("input", () => answer([answerPair]));
  at("copy").addEventListener("click", copyVersions);
  at("link").addEventListener("click", copyLink);
  rows.addEventListener("keydown", (event) => {
    if (event.ctrlKey || event.altKey || event.metaKey || !(event.key in MOVES)) return;
    event.preventDefault();
    choose(MOVES[event.key](), compare);
  });
  // The rows may be drawn anew while one is clicked, so this is no "click" of a row.
  rows.addEventListener("mousedown", (event) => {
    if (event.button === 0) chooseAt(event.clientY, compare);
  });
  rows.addEventListener("scroll", () => requestAnimationFrame(drawRows));
  list.addEventListener("scroll", drawNumbers);
  new ResizeObserver(drawNumbers).observe(list);
  addEventListener("resize", drawRows);
  addEventListener("popstate", () => take(stateThere()));
}

worker.addEventListener("progress", ({ detail }) => drawProgress(detail));
try {
  for (const name of await ask("schemes")) scheme.add(new Option(`${name}: ${SYSTEMS[name]}`, name));
  listen();
  take(stateThere());
} catch (error) {
  at("state").textContent = `The library can't run here: ${error.message}`;
  throw error;
}
