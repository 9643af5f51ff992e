// A job, from its text with a patch beside it, or from its bytes: what the library is given, and where in the text it refuses it.
import { BENCH_BOARD, SIZES, hex } from "./layout.mjs";
import { readLines } from "./jobtext.mjs";
import { Source } from "./source.mjs";
import { TextError, linesIn } from "./text.mjs";

const two = (word) => [word & 0xFF, word >> 8];
const ENCODED = {
  pages: (one) => [one.value],
  words: (one) => [...two(one.address), ...two(one.value)],
  lines: (one) => two(one.value),
  readOnly: (one) => [one.value],
};
const SECTIONS = Object.keys(ENCODED);

// The bytes of sections; one that is null is left out.
function bytesOf(sections) {
  const parts = [];
  for (const name of SECTIONS) {
    if (sections[name] === null) continue;
    parts.push(two(sections[name].length));
    for (const one of sections[name]) parts.push(ENCODED[name](one));
  }
  return parts.flat();
}

// The words of a patch among others, by address: at one address the patch's word stands, so that what doesn't rise still doesn't.
function patched(words, patch) {
  const by = new Map(patch.map((one) => [one.address, one])), own = new Set(words.map((one) => one.address));
  const kept = words.map((one) => by.get(one.address) ?? one), added = patch.filter((one) => !own.has(one.address));
  const merged = [];
  let n = 0;
  for (const one of kept) {
    while (n < added.length && added[n].address < one.address) merged.push(added[n++]);
    merged.push(one);
  }
  return merged.concat(added.slice(n));
}

// The words of a source as entries of a job, each with the place of its line.
function entries({ source, all, pairs }, inPatch) {
  return pairs.map(([address, value]) => {
    return { address, value, inPatch, assembled: true, get place() { return source.placeOf(address, all); } };
  });
}

// { bytes, scans, board, labels, starts .. } of a text and the text of a patch, or a TextError; `inPatch` tells whose line.
export function jobOf(text, patchText, library, words) {
  const job = readLines(text);
  if (!job.begun && patchText.trim() === "") throw new TextError("no line of the text says anything");
  const own = new Source(job.source, library, words), told = own.labels();
  const beside = patchOf(patchText, library, words);
  const labels = new Map([...beside.labels, ...told.values]);
  for (const one of job.words)
    if (one.label !== undefined) {
      if (!labels.has(one.label)) throw new TextError(`no line gives the label ${one.label}`, one.place);
      one.value = labels.get(one.label);
    }
  const ownPairs = own.pairs(labels), assembled = new Set(ownPairs.map(([address]) => address));
  const twice = job.words.find((one) => assembled.has(one.address));
  if (twice) throw new TextError(`an assembler line has a word at ${hex(twice.address)} too`, twice.place);
  const mine = entries({ source: own, all: told.all, pairs: ownPairs }, false);
  const all = patched(patched(job.words, mine), entries(beside, true));
  const sections = { pages: job.pages, words: all, lines: job.lines, readOnly: job.readOnly };
  const over = new Set(beside.pairs.map(([address]) => address)), begin = job.words.filter((one) => one.begins).map((one) => one.address);
  const starts = [...[...begin, ...told.addresses].filter((address) => !over.has(address)), ...beside.addresses];
  const bytes = wholeBytes(sections, job), { scans, board } = job;
  const made = { sections, bytes, scans, board, labels, starts, patch: beside.pairs, patched: over.size, unpatched: false };
  refuseByNumber(made, job, library, words);
  return made;
}

// The labels, the addresses of its lines, and the addresses and words of a patch.
export function patchOf(text, library, words) {
  try {
    const source = new Source(linesIn(text).map((line, n) => ({ text: line, line: n + 1 })), library, words), told = source.labels();
    const pairs = source.pairs(told.values);
    return { source, labels: told.values, addresses: told.addresses, all: told.all, pairs, lines: source.lines };
  } catch (why) {
    if (why instanceof TextError) why.inPatch = true;
    throw why;
  }
}

// Whether a text has lines of the assembler alone: a patch, and no job.
export function isPatch(text) {
  try {
    const { source, pages, words, lines, readOnly, rest, cuts, scans, boardPlaces } = readLines(text);
    return source.length > 0 && [pages, words, lines, readOnly ?? [], rest, cuts, scans, boardPlaces].every((one) => one.length === 0);
  } catch (why) {
    if (why instanceof TextError) return false;
    throw why;
  }
}

export function wholeBytes(sections, job) {
  let bytes = bytesOf(sections).concat(job.rest.map((one) => one.value));
  for (const cut of job.cuts) {
    if (cut.value > bytes.length) throw new TextError(`a cut past the end: ${bytes.length} bytes are left`, cut.place);
    bytes = bytes.slice(0, bytes.length - cut.value);
  }
  if (bytes.length > SIZES.job) throw new TextError(`the job has ${bytes.length} bytes, and a desk's at most ${SIZES.job}`);
  return Uint8Array.from(bytes);
}

// Throws where the library refuses the job or its board, with the library's number and the place in the text.
function refuseByNumber(made, job, library, words) {
  const why = library.jobRefusal(made.bytes);
  if (why !== 0) {
    const entry = entryOf(made.sections, why, library), place = entry?.place ?? job.rest[0]?.place ?? job.cuts[0]?.place ?? null;
    const refused = new TextError(`refused: ${words.refusal(why)}${entry?.assembled ? `: ${hex(entry.address)}` : ""}`, place);
    refused.inPatch = entry?.inPatch === true;
    throw refused;
  }
  const refused = boardRefusal(library, job.board);
  if (refused === 0) return;
  const at = job.board.findIndex((value, n) => boardRefusal(library, BENCH_BOARD.map((one, k) => (k === n ? value : one))) !== 0);
  throw new TextError(`refused: ${words.refusal(refused)}`, job.boardPlaces[at] ?? null);
}

// A power-up of a state and an image beside the desk's tells whether a board is refused.
function boardRefusal(library, board) {
  library.trialSettings.set(board);
  return library.calls.wd16_power_up(...library.lent("trialState", "trialImage", "trialMap", "trialSettings"));
}

// The entry at which the library's reader stops: the last of the fewest entries, in the order of reading, that it refuses alike.
function entryOf(sections, why, library) {
  const order = SECTIONS.flatMap((name) => (sections[name] ?? []).map((one) => [name, one]));
  const alike = (count) => {
    const part = { pages: [], words: [], lines: [], readOnly: null };
    for (const [name, one] of order.slice(0, count)) (part[name] ??= []).push(one);
    return library.jobRefusal(bytesOf(part)) === why;
  };
  if (!alike(order.length)) return null;
  let low = 0, high = order.length; // refused alike with the first `high` entries, and not with the first `low`
  while (high - low > 1) {
    const middle = low + high >> 1;
    if (alike(middle)) high = middle;
    else low = middle;
  }
  return order[high - 1]?.[1] ?? null;
}

// Numbers in runs: 00-0F 20, or 0000 x12 0008.
export function pageRanges(pages) {
  const out = [];
  pages.forEach((page, n) => {
    if (n > 0 && pages[n - 1] === page - 1) out.at(-1)[1] = page;
    else out.push([page, page]);
  });
  return out.map(([first, last]) => (first === last ? hex(first, 2) : `${hex(first, 2)}-${hex(last, 2)}`)).join(" ");
}

export function lineRuns(lines) {
  const out = [];
  for (const line of lines) {
    if (out.length > 0 && out.at(-1)[0] === line && out.at(-1)[1] < 4096) out.at(-1)[1]++;
    else out.push([line, 1]);
  }
  return out.map(([line, times]) => hex(line) + (times > 1 ? ` x${times}` : "")).join(" ");
}

// The text of a job that came as bytes, once the library has laid it out in an image and a map.
export function textOf(image, map, lines) {
  const pages = (least) => Array.from(map.keys()).filter((page) => map[page] >= least);
  const rows = [`pages ${pageRanges(pages(1))}`];
  if (pages(2).length > 0) rows.push(`read-only ${pageRanges(pages(2))}`);
  let row = null;
  for (let address = 0; address < 65536; address += 2) {
    const word = image[address] + 256 * image[address + 1];
    if (word === 0) row = null;
    else if (row !== null && rows[row].length < 60) rows[row] += ` ${hex(word)}`;
    else row = rows.push(`${hex(address)} = ${hex(word)}`) - 1;
  }
  if (lines.length > 0) rows.push(`lines ${lineRuns(lines)}`);
  return rows.join("\n") + "\n";
}
