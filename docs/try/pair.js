/*
 * Two versions side by side: which is newer and why, in words, and their keys piece by piece. What is said are the
 * answers of the library: the order, where the two differ, and what stands there.
 */
import { at, bdi, code, element, quoted, told } from "shown";

const ORDINALS = "first second third fourth fifth sixth seventh eighth ninth tenth".split(" ");
const TAILS = { "pre-release": "the pre-release ", release: "the release ", sections: "further sections" };

const RULES = new Intl.PluralRules("en", { type: "ordinal" });
const ENDINGS = { one: "st", two: "nd", few: "rd", other: "th" };
const ordinal = (part, what) => `${ORDINALS[part] ?? told(part + 1) + ENDINGS[RULES.select(part + 1)]} ${what}`;

/* What a part is, beside one that is something else. */
function shapeOf({ shape, number, suffix, says }, isBesideNumber) {
  if (shape === "word") return ["the word ", code(says)];
  if (suffix) return [code(says), `, the number ${number} with a suffix`];
  return ["the number ", code(says), isBesideNumber ? " alone" : ""];
}

function whyPart(part, order, [one, other]) {
  const its = [one, other].map((it, place) => shapeOf(it, [other, one][place].shape === "number"));
  if (one.name === "end") return ["it has no ", ordinal(part, "part"), ", and the other has ", ...its[1]];
  if (other.name === "end") return ["it has a ", ordinal(part, "part"), ", ", ...its[0], ", and the other has none"];
  if (one.shape === other.shape && one.number !== other.number) {
    const than = order > 0 ? ", is greater than " : ", is less than ";
    return ["the ", ordinal(part, "number"), ", ", code(one.number), than, code(other.number)];
  }
  if (one.shape === other.shape && one.suffix === other.suffix) {
    const word = order > 0 ? ", comes after " : ", comes before ";
    return ["the ", ordinal(part, "part"), ", ", code(one.says), word, code(other.says)];
  }
  return ["the ", ordinal(part, "part"), " is ", ...its[0], ", and that of the other is ", ...its[1]];
}

function whyTail(order, [one, other]) {
  const word = order > 0 ? ", comes after " : ", comes before ";
  if (one.shape === other.shape && one.says !== "") return [`its ${one.shape}, `, code(one.says), word, code(other.says)];
  if (one.shape === other.shape) return [`its further sections come ${order > 0 ? "after" : "before"} those of the other`];
  const tailOf = ({ shape, says }) => [TAILS[shape] ?? "nothing", ...(says ? [code(says)] : [])];
  return ["after the numbers it has ", ...tailOf(one), ", and the other has ", ...tailOf(other)];
}

/* Why one of two versions of mixed is newer: what differs first. */
function why({ kind, part, order, rows }) {
  const { cells } = rows.find(({ name }) => name === (kind === "part" ? part : kind));
  if (kind === "epoch") {
    const than = order > 0 ? ", is greater than " : ", is less than ";
    return ["its epoch, ", code(cells[0].says), than, code(cells[1].says)];
  }
  return kind === "part" ? whyPart(part, order, cells) : whyTail(order, cells);
}

/* The verdict on two versions, in words. */
function verdict(texts, { order, same, kind, system, ...its }) {
  const [one, other] = texts.map(code);
  if (same) return [element("strong", "", "Both are the same text"), "."];
  if (order === 0) {
    const said = [element("strong", "", one, " and ", other, " are equal in order, but not the same text"), "."];
    return kind === "none" ? [...said, " They differ after the plus alone, which doesn't count."] : said;
  }
  const said = element("strong", "", one, order > 0 ? " is newer than " : " is older than ", other);
  return kind === undefined ? [said, ` in the order of ${system}.`] : [said, ": ", ...why({ ...its, kind, order }), "."];
}

function headOf(name, decides) {
  const title = typeof name === "number" ? `part ${name + 1}` : name;
  const head = element("th", "", decides ? `${title} ◂ decides` : title);
  head.scope = "row";
  return head;
}

/* A piece in a cell of the table: what it says, and its bytes. */
function drawPiece(piece) {
  if (piece === null) return element("td");
  const words = { end: "the end", tail: `${TAILS[piece.shape] ?? "nothing"}${piece.says}` }[piece.name] ?? piece.says;
  const bytes = element("span", `piece ${piece.name}`, piece.hex);
  return words === "" ? element("td", "", bytes) : element("td", "", element("b", "", bdi("", words)), " ", bytes);
}

/* Draws the answer about two texts. In another scheme than mixed a key is one piece. */
export function drawPair(texts, answer) {
  const body = at("pieces").tBodies[0];
  at("pieces").hidden = answer.none !== undefined;
  [at("first"), at("second")].forEach((input, place) => (input.ariaInvalid = String(answer.none?.[place] ?? false)));
  if (answer.none !== undefined) {
    const said = texts.flatMap((text, place) => (answer.none[place] ? [quoted(text), " is no version. "] : []));
    at("verdict").replaceChildren(element("span", "wrong", "✗ ", ...said));
    body.replaceChildren();
    return;
  }
  const whyNot = (answer.whyNot ?? []).flatMap((sentence) => [" ", bdi("", sentence), "."]);
  at("verdict").replaceChildren(...verdict(texts, answer), ...whyNot);
  const { keys, kind, part } = answer;
  const rows = answer.rows ?? [{ name: "key", cells: keys.map((hex) => ({ name: "whole", says: "", hex })) }];
  body.replaceChildren(...rows.map(({ name, cells }) => {
    const decides = name === kind || name === part;
    return element("tr", decides ? "decides" : "", headOf(name, decides), ...cells.map(drawPiece));
  }));
}
