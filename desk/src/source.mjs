// The assembler's lines: put into the form that the library's assembler takes, and what it answers put beside the lines.
// A line may be indented, and its blanks may be tabs or many. ; begins a comment, and so does # at the line's beginning or between
// blanks. A label may stand for the word of .WORD: it is put into digits from the assembler's own table of labels.
import { MOST_SOURCE_LINES, SOURCE_LINE, hex } from "./layout.mjs";
import { diagnosed } from "./needed.mjs";
import { grouped } from "./words.mjs";
import { LABEL, TextError, isHex, isLabel, placed } from "./text.mjs";

const WORD_OF_LABEL = new RegExp(`^(?:${LABEL}: )?\\.WORD (${LABEL})$`);
const GIVEN_LABEL = new RegExp(`^(${LABEL}):`);

// A line as the assembler takes it, with the column, from 1, of each of its characters in the line that it was.
class SourceLine {
  constructor(text, columns, line) {
    this.text = text, this.columns = columns, this.line = line;
    this.label = GIVEN_LABEL.exec(text)?.[1] ?? null;
    this.said = /^[^ ]*: ?/.exec(text)?.[0].length ?? 0; // where it goes on after its label
    const wanted = WORD_OF_LABEL.exec(text)?.[1] ?? "";
    this.wanted = isLabel(wanted) ? wanted : null; // the label that stands for the word of .WORD
  }

  place(at, width = 1) {
    return placed(this.line, at < this.columns.length ? this.columns[at] : this.columns.at(-1) + 1, Math.max(1, width));
  }

  // The place of all that stands after its label.
  whole() {
    return this.place(this.said, this.text.length - this.said);
  }

  // Whether the line comes to words, rather than to a label or an origin alone.
  hasWords() {
    return this.said < this.text.length && !this.text.slice(this.said).startsWith(".ORG ");
  }

  wantedPlace() {
    return this.place(this.text.length - this.wanted.length, this.wanted.length);
  }
}

function withoutComment(text) {
  const code = text.split(";")[0];
  if (/^[ \t\f\v]*#/.test(code)) return "";
  const found = /(?<=[ \t\f\v])#(?=[ \t\f\v]|$)/.exec(code);
  return found ? code.slice(0, found.index) : code;
}

// A line as the assembler takes it, or null where nothing is left of it.
function sourceLine({ text: whole, line }) {
  let text = "";
  const columns = [];
  for (const piece of withoutComment(whole).matchAll(/[^ \t\f\v]+/g)) {
    if (text !== "") text += " ", columns.push(piece.index);
    text += piece[0];
    for (let n = 0; n < piece[0].length; n++) columns.push(piece.index + n + 1);
  }
  if (text === "") return null;
  const made = new SourceLine(text, columns, line), strange = /[^ -~]/.exec(text);
  if (strange) throw new TextError("a source has letters, digits and signs of ASCII alone", made.place(strange.index));
  if (text.length > SOURCE_LINE)
    throw new TextError(`a line has ${SOURCE_LINE} characters at most without its comment; here are ${text.length}`,
      made.place(SOURCE_LINE, text.length - SOURCE_LINE));
  return made;
}

export class Source {
  // Lines of a text, and the library that assembles them.
  constructor(lines, library, words) {
    this.library = library, this.words = words;
    this.lines = [];
    for (const one of lines) {
      const line = sourceLine(one);
      if (line === null) continue;
      if (this.lines.length === MOST_SOURCE_LINES)
        throw new TextError(`36: a source has ${grouped(MOST_SOURCE_LINES)} lines at most`, line.place(0));
      this.lines.push(line);
    }
  }

  // The lines with digits for the labels of .WORD; before they are known, 0000.
  texts(labels) {
    return this.lines.map((line) => {
      if (line.wanted === null) return line.text;
      if (labels && !labels.has(line.wanted)) throw new TextError(`26: no line gives the label ${line.wanted}`, line.wantedPlace());
      return line.text.slice(0, -line.wanted.length) + hex(labels ? labels.get(line.wanted) : 0);
    });
  }

  // The labels and their values, and the addresses at which lines with words and all lines begin, as the assembler tells them: after
  // the last line comes an empty one, which begins where that line ends.
  labels() {
    const told = this.library.labelsOf([...this.texts(null), ""].slice(0, MOST_SOURCE_LINES));
    if (told.why !== 0) throw this.refused(told.why, told.line);
    return {
      values: new Map(told.labels.filter((one) => one.label !== "").map((one) => [one.label, one.address])),
      addresses: told.labels.map((one) => one.address).filter((_, n) => this.lines[n]?.hasWords()),
      all: told.labels.map((one) => one.address),
    };
  }

  // Addresses and words.
  pairs(labels) {
    const told = this.library.assemble(this.texts(labels));
    if (told.why !== 0) throw this.refused(told.why, told.line);
    return told.pairs;
  }

  // The place of the line that has the word at an address; `all` are the lines' addresses.
  placeOf(address, all) {
    let found = null;
    this.lines.forEach((line, n) => {
      if (line.hasWords() && all[n] <= address && (found === null || all[found] <= all[n])) found = n;
    });
    return this.lines[found]?.whole() ?? null;
  }

  // ---- what is wrong with a line, and where; the number is the assembler's

  refused(why, at) {
    const line = this.lines[at];
    if (why === 24) return this.unknown(line);
    if (why === 25) return this.again(line);
    if (why === 26 || why === 27) return this.labelled(why, line);
    return new TextError(`${why}: ${this.words.of("refusal", why)}`, line.whole());
  }

  unknown(line) {
    const head = line.text.slice(0, line.said).trimEnd(), text = line.text.slice(line.said);
    if (head !== "" && (head === ":" || !isLabel(head.slice(0, -1)) || ["SP", "PC"].includes(head.slice(0, -1))))
      return new TextError("24: a label is one to six capitals, no hex number, not SP or PC", line.place(0, head.length));
    if (head !== "" && text !== "" && line.text[line.said - 1] !== " ")
      return new TextError("24: a blank stands after a label's colon", line.place(line.said));
    if (text[0] === ".") return directive(line, text);
    const { why, column, words } = diagnosed(this.library, text);
    return new TextError(`24 (${why}): ${words}`, line.place(line.said + column));
  }

  again(line) {
    const first = this.lines.find((other) => other.label === line.label);
    return new TextError(`25: the label ${line.label} is already given in line ${first.line}`, line.place(0, line.label.length));
  }

  // A label that is missing or out of reach: the first that the line names.
  labelled(why, line) {
    const given = new Set(this.lines.map((other) => other.label));
    for (const found of line.text.slice(line.said).matchAll(new RegExp(`(?<=[ ,@])(${LABEL})(?=,|$)`, "g"))) {
      if (!isLabel(found[1]) || ["SP", "PC"].includes(found[1]) || (why === 26) === given.has(found[1])) continue;
      const words = why === 26 ? "no line gives the label" : "out of reach: a branch goes 128 words back to 127 ahead, SOB 0 to 63 back:";
      return new TextError(`${why}: ${words} ${found[1]}`, line.place(line.said + found.index, found[1].length));
    }
    return new TextError(`${why}: ${this.words.of("refusal", why)}`, line.place(line.said));
  }
}

function directive(line, text) {
  const name = text.split(" ")[0], value = text.slice(name.length + 1);
  if (name !== ".WORD" && name !== ".ORG")
    return new TextError("24: .WORD and .ORG begin with a dot, and nothing else", line.place(line.said, name.length));
  const example = isHex(value) && value.length <= 4 ? value.toUpperCase().padStart(4, "0") : "0080";
  const at = Math.min(line.said + name.length + 1, line.text.length);
  return new TextError(`24: four hex digits are needed: ${name} ${example}`, line.place(at, value.length));
}
