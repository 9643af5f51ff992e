// The text of a job, line by line: its own lines, the board, the recorder's scans; every other line is the assembler's.
import { BENCH_BOARD, CHANNELS, SETTINGS } from "./layout.mjs";
import { MOST_ENTRIES, TextError, count, isLabel, lineWordsOf, linesIn, number, pagesOf, placed, wordsIn } from "./text.mjs";

const MOST_READING = 0x7FFF;

export class JobText {
  constructor() {
    this.pages = [], this.words = [], this.lines = [], this.readOnly = null;
    this.rest = [], this.cuts = [];
    this.scans = [], this.saidLines = new Map();
    this.source = []; // the assembler's lines: text and line number
    this.board = [...BENCH_BOARD], this.boardPlaces = [];
    this.begun = false;
  }

  take(line, at) {
    const text = line.split(";")[0], words = wordsIn(text.split("#")[0], at);
    if (words.length > 0 && (words[0].text in KINDS || words.slice(1).some((word) => word.text === "="))) {
      this.begun = true;
      this[KINDS[words[0].text] ?? "takeWords"](words);
    } else if (words.length > 0 && /^[0-9]/.test(words[0].text)) {
      throw new TextError("an address, =, and words are needed", words.at(-1).place);
    } else if (words.length > 0 && words[0].text === "=") {
      throw new TextError("an address is needed before =", words[0].place);
    } else if (/[^ \t\f\v]/.test(text) && !/^[ \t\f\v]*#/.test(text)) {
      this.begun = true;
      this.source.push({ text, line: at });
    }
  }

  // pages 00 04 10-1F
  takePages(words) {
    add(this.pages, pagesOf(words.slice(1)), words);
  }

  // read-only 10-1F
  takeReadOnly(words) {
    this.readOnly ??= [];
    add(this.readOnly, pagesOf(words.slice(1)), words);
  }

  // lines 0000 x12 0008
  takeLines(words) {
    add(this.lines, lineWordsOf(words.slice(1)), words);
  }

  // 0080 = 09BF START; a label stands for its address, once it is known
  takeWords(words) {
    if (words[1].text !== "=" || words.length < 3 || words.slice(2).some((word) => word.text === "=")) {
      const wrong = words.slice(1).find((word) => word.text !== "=") ?? words.at(-1);
      throw new TextError("an address, =, and words are needed", wrong.place);
    }
    const start = number(words[0], 0xFFFF);
    const entries = words.slice(2).map((word, n) => {
      const address = start + 2 * n & 0xFFFF, begins = n === 0;
      if (isLabel(word.text)) return { value: 0, label: word.text, address, begins, place: word.place };
      return { value: number(word, 0xFFFF), address, begins, place: word.place };
    });
    add(this.words, entries, words);
  }

  // bytes 00 FF, after the last section
  takeBytes(words) {
    this.rest.push(...words.slice(1).map((word) => ({ value: number(word, 0xFF), place: word.place })));
  }

  // cut 3: leaves out the last 3 bytes
  takeCut(words) {
    if (words.length !== 2) throw new TextError("cut, and one count", words[0].place);
    this.cuts.push({ value: count(words[1]), place: words[1].place });
  }

  // scan 205 -- .. lines 0000 x40
  takeScan(words) {
    const named = words.findIndex((word) => word.text === "lines"), at = named < 0 ? words.length : named;
    if (at !== CHANNELS + 1)
      throw new TextError(`a scan has ${CHANNELS} channels; here are ${at - 1}`, words[at > CHANNELS + 1 ? CHANNELS + 1 : at - 1].place);
    this.scans.push({ channels: words.slice(1, at).map(channelOf), lines: this.scanLines(words.slice(at + 1)), line: words[0].place.line });
  }

  // The line words of a scan; scans that say the same have the same list.
  scanLines(words) {
    const said = words.map((word) => word.text).join(" ");
    if (!this.saidLines.has(said)) this.saidLines.set(said, lineWordsOf(words).map((one) => one.value));
    return this.saidLines.get(said);
  }

  takeMicrom(words) {
    if (words.length !== 2 || !["yes", "no"].includes(words[1].text)) throw new TextError("microm yes, or microm no", words.at(-1).place);
    this.set(SETTINGS.microm, words[1].text === "yes" ? 1 : 0, words[1]);
  }

  // jumpers up 1 halt 2
  takeJumpers(words) {
    const names = words.slice(1).filter((_, n) => n % 2 === 0);
    if (words.length < 3 || words.length % 2 === 0 || names.some((name) => !["up", "halt"].includes(name.text)))
      throw new TextError("jumpers up N, halt N, or both, N from 0 to 3", words.at(-1).place);
    names.forEach((name, n) => {
      const word = words[2 * n + 2];
      this.set(name.text === "up" ? SETTINGS.up : SETTINGS.halt, number(word, 0xFF), word);
    });
  }

  // external 2F
  takeExternal(words) {
    if (words.length !== 2) throw new TextError("external, and one hex number, 0 to 3F", words.at(-1).place);
    this.set(SETTINGS.external, number(words[1], 0xFF), words[1]);
  }

  set(setting, value, word) {
    if (this.boardPlaces[setting]) throw new TextError("this setting of the board is given twice", word.place);
    this.board[setting] = value;
    this.boardPlaces[setting] = word.place;
  }
}

const KINDS = Object.assign(Object.create(null), {
  "pages": "takePages", "read-only": "takeReadOnly", "lines": "takeLines", "bytes": "takeBytes", "cut": "takeCut", "scan": "takeScan",
  "microm": "takeMicrom", "jumpers": "takeJumpers", "external": "takeExternal",
});

function add(section, entries, words) {
  if (section.length + entries.length > MOST_ENTRIES) throw new TextError(`more than ${MOST_ENTRIES} entries in a section`, words[0].place);
  for (const one of entries) section.push(one);
}

// A reading in tenths of a degree, or null for no card.
function channelOf(word) {
  if (word.text === "--") return null;
  if (!/^-?[0-9]+$/.test(word.text))
    throw new TextError(`'${word.text}' is no reading and not --: tenths of a degree are needed, as -37`, word.place);
  const value = parseInt(word.text, 10);
  if (Math.abs(value) > MOST_READING) throw new TextError(`'${word.text}' is not from -${MOST_READING} to ${MOST_READING}`, word.place);
  return value === 0 ? 0 : value;
}

// What the lines of a text come to.
export function readLines(text) {
  const job = new JobText(), lines = linesIn(text), zero = text.indexOf("\0");
  if (zero >= 0) {
    const before = linesIn(text.slice(0, zero));
    throw new TextError("no text: a byte is 00", placed(before.length, before.at(-1).length + 1));
  }
  lines.forEach((line, n) => job.take(line, n + 1));
  return job;
}
