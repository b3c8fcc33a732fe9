/*
 * How the page shows a text that somebody wrote: cut where it is long, apart from the texts around it, and with each
 * character marked that isn't ASCII. Those that can't be seen, or turn the direction, stand there by their numbers.
 */
const [BEGINNING, ENDING] = [200, 100]; // characters that are shown of what is longer

// Controls, marks, blanks but the space, what is to be ignored, and the blocks that are written from right to left.
const UNSEEN =
  /[[\p{C}\p{M}\p{Z}\p{DI}\u2800\u0590-\u08FF\uFB1D-\uFDFF\uFE70-\uFEFF\u{10800}-\u{10FFF}\u{1E800}-\u{1EFFF}]--[ ]]/v;
const NOT_ASCII = /([^ -~])/v;

export const at = (id) => document.getElementById(id);

/* Makes an element with a class, and with children, which are elements or texts. */
export function element(name, className, ...children) {
  const made = document.createElement(name);
  if (className) made.className = className;
  made.append(...children);
  return made;
}

export const told = (number) => number.toLocaleString("en");
export const plural = (number, one, many = `${one}s`) => `${told(number)} ${number === 1 ? one : many}`;

/* The beginning and the end of a text, or all of it where it is short. No pair of surrogates is cut in two. */
function ends(text) {
  if (text.length <= BEGINNING + ENDING) return [text];
  return [text.slice(0, BEGINNING).replace(/[\uD800-\uDBFF]$/, ""), text.slice(-ENDING).replace(/^[\uDC00-\uDFFF]/, "")];
}

export const short = (text) => ends(text).join("…");

const numberOf = (character) => `U+${character.codePointAt(0).toString(16).toUpperCase().padStart(4, "0")}`;

function marked(character) {
  const mark = element("mark", "", UNSEEN.test(character) ? `⟨${numberOf(character)}⟩` : character);
  mark.title = numberOf(character);
  return mark;
}

/* A text as pieces: every second one is a character that isn't ASCII. The sign of a cut is none of the text. */
const pieces = (text) => text.split(NOT_ASCII).map((piece, place) => (place % 2 === 0 ? piece : marked(piece)));
const shown = (text) => ends(text).flatMap((end, place) => (place === 0 ? pieces(end) : ["…", ...pieces(end)]));

export const bdi = (className, text) => element("bdi", className, ...shown(text));
export const code = (text) => element("code", "", bdi("", text));
/* With quotes, so that blanks at its ends are seen. */
export const quoted = (text) => element("code", "", '"', bdi("", text), '"');
