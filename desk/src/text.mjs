// Words and numbers of a text, each with its place; and what is wrong with a text, with the place.

export const MOST_REPEATED = 4096, MOST_ENTRIES = 0xFFFF;
export const LABEL = "[A-Z]{1,6}";

// What is wrong, the line and the column, from 1, and how many characters are meant.
export class TextError extends Error {
  constructor(words, place = null) {
    super(words);
    this.place = place;
  }
}

export function placed(line, column, width = 1) {
  return { line, column, width };
}

// The lines of a text, as editors count them.
export function linesIn(text) {
  return text.replace(/^\uFEFF/, "").split(/\r\n|\r|\n/);
}

// The words of a line, with = alone.
export function wordsIn(text, line) {
  const word = (found) => ({ text: found[0], place: placed(line, found.index + 1, found[0].length) });
  return Array.from(text.matchAll(/=|[^ \t\f\v=]+/g), word);
}

export function isHex(text) {
  return /^[0-9A-Fa-f]+$/.test(text);
}

export function isLabel(text) {
  return new RegExp(`^${LABEL}$`).test(text) && !isHex(text);
}

export function number(word, most) {
  const limit = most.toString(16).toUpperCase();
  if (!isHex(word.text)) throw new TextError(`'${word.text}' is not a hex number, 0 to ${limit}`, word.place);
  const value = parseInt(word.text, 16);
  if (value > most) throw new TextError(`'${word.text}' is over ${limit}`, word.place);
  return value;
}

export function count(word, text = word.text) {
  if (!/^[0-9]+$/.test(text)) throw new TextError(`'${text}' is not a count: decimal digits are needed`, word.place);
  return parseInt(text, 10);
}

// Page numbers with their places; ranges are written out.
export function pagesOf(words) {
  return words.flatMap((word) => {
    const dash = word.text.indexOf("-");
    const [first, last] = dash < 0 ? [word.text, word.text] : [word.text.slice(0, dash), word.text.slice(dash + 1)];
    if (first === "" || last === "") throw new TextError(`'${word.text}' is no range, as 10-1F is`, word.place);
    const start = number({ text: first, place: word.place }, 0xFF), end = number({ text: last, place: word.place }, 0xFF);
    if (end < start) throw new TextError(`'${word.text}' is a falling range`, word.place);
    return Array.from({ length: end - start + 1 }, (_, n) => ({ value: start + n, place: word.place }));
  });
}

// Line words with their places; repeats are written out.
export function lineWordsOf(words) {
  const lines = [];
  for (const word of words) {
    if (word.text[0] !== "x") {
      lines.push({ value: number(word, 0xFFFF), place: word.place });
      continue;
    }
    const times = count(word, word.text.slice(1));
    if (lines.length === 0 || times < 1) throw new TextError(`'${word.text}' repeats nothing: a line word stands before it`, word.place);
    if (times > MOST_REPEATED) throw new TextError(`'${word.text}' repeats more than ${MOST_REPEATED} times`, word.place);
    const last = lines.at(-1).value;
    for (let n = 1; n < times; n++) lines.push({ value: last, place: word.place });
    if (lines.length > MOST_ENTRIES) throw new TextError(`more than ${MOST_ENTRIES} entries in a section`, word.place);
  }
  return lines;
}
