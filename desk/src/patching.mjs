// A job and its patch as one text, which reads to the same words: what the patch writes over is taken out of the job's own lines.
import { SETTINGS, hex } from "./layout.mjs";
import { jobOf, patchOf } from "./job.mjs";
import { readLines } from "./jobtext.mjs";
import { Source } from "./source.mjs";
import { TextError, isLabel, linesIn } from "./text.mjs";

const LETTERS = [..."QXZJKVWYUHGLMNOPRSTABCDEFI"];

// The one text of a text, a patch, and a board; or a TextError where that can't be.
export function joinedText(text, patch, board, library, words) {
  const job = jobOf(text, patch, library, words), lines = linesIn(text);
  while (lines.at(-1) === "") lines.pop();
  const taken = new Set(job.patch.map(([address]) => address));
  if (taken.size > 0) withoutWords(lines, text, taken), withoutSource(lines, text, taken, job, library, words);
  withBoard(lines, text, board);
  if (patch.trim() !== "") lines.push("; the patch", ".ORG 0000", ...linesIn(renamed(text, patch, library, words).trimEnd()));
  const whole = lines.flat().join("\n") + "\n";
  if (!readsTo(whole, job.bytes, library, words))
    throw new TextError("the job and its patch don't go into one text: save the desk for later, or put the patch into the job by hand");
  return whole;
}

function readsTo(text, bytes, library, words) {
  try {
    const again = jobOf(text, "", library, words);
    return again.bytes.length === bytes.length && again.bytes.every((byte, n) => byte === bytes[n]);
  } catch (why) {
    if (why instanceof TextError) return false;
    throw why;
  }
}

// The patch with other names for labels that the job gives as well.
function renamed(text, patch, library, words) {
  const own = new Source(readLines(text).source, library, words).lines.map((line) => line.label);
  const given = patchOf(patch, library, words).lines.map((line) => line.label), used = new Set([...own, ...given]);
  let made = patch;
  for (const label of given.filter((one) => one !== null && own.includes(one))) {
    const free = LETTERS.map((letter) => label.slice(0, 5) + letter).find((name) => !used.has(name) && isLabel(name)) ?? label;
    used.add(free);
    made = made.replace(new RegExp(`\\b${label}\\b`, "g"), free);
  }
  return made;
}

const said = (one) => `${hex(one.address)} = ${one.label ?? hex(one.value)}`;
const over = (line) => `; under the patch: ${line.trim()}`;

// Lines ADDRESS = WORDS of which the patch writes over some words keep the others.
function withoutWords(lines, text, taken) {
  const byLine = new Map();
  for (const one of readLines(text).words) byLine.set(one.place.line, [...(byLine.get(one.place.line) ?? []), one]);
  for (const [line, entries] of byLine)
    if (entries.some((one) => taken.has(one.address)))
      lines[line - 1] = [over(lines[line - 1]), ...entries.filter((one) => !taken.has(one.address)).map(said)];
}

// So do the assembler's lines: what is left of them are words, and the origin goes on where it was.
function withoutSource(lines, text, taken, job, library, words) {
  const own = new Source(readLines(text).source, library, words), told = own.labels(), pairs = own.pairs(job.labels);
  own.lines.forEach((line, n) => {
    if (!line.hasWords()) return;
    const mine = pairs.filter(([address]) => address >= told.all[n] && address < told.all[n + 1]);
    if (!mine.some(([address]) => taken.has(address))) return;
    const left = mine.filter(([address]) => !taken.has(address)), at = line.line - 1;
    const kept = left.flatMap(([address, word]) => [`.ORG ${hex(address)}`, `.WORD ${hex(word)}`]);
    lines[at] = [over(lines[at]), ...(line.label ? [`${line.label}:`] : []), ...kept, `.ORG ${hex(mine.at(-1)[0] + 2 & 0xFFFF)}`];
  });
}

// The board's lines, where the board is not the text's.
function withBoard(lines, text, board) {
  const job = readLines(text);
  if (board.every((value, n) => value === job.board[n])) return;
  const own = new Set(job.boardPlaces.filter((place) => place).map((place) => place.line - 1));
  for (const at of own) lines[at] = `; was: ${lines[at].trim()}`;
  lines.push(`microm ${board[SETTINGS.microm] === 1 ? "yes" : "no"}`);
  lines.push(`jumpers up ${board[SETTINGS.up]} halt ${board[SETTINGS.halt]}`, `external ${hex(board[SETTINGS.external], 2)}`);
}
