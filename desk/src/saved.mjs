// Half a shift now, half later: all that the desk has, in one file, and what is read of such a file.
import { CHANNELS, SIZES, hex } from "./layout.mjs";
import { lineRuns } from "./job.mjs";
import { History } from "./history.mjs";
import { TextError, lineWordsOf, wordsIn } from "./text.mjs";

const KIND = "hitchbriar desk", FORMAT = 2;

// The text of the file. `given` has the version of the page and the layout of the library's buffers; `open` the texts of the job and of
// the patch as they stand in their tabs, loaded or not, and the tab that is open.
export function savedText(desk, stops, limits, open, given) {
  const { library, job } = desk, bytes = (name) => hexOf(library[name]);
  return JSON.stringify({
    kind: KIND, format: FORMAT, layout: given.layout, version: given.version,
    name: desk.name, text: desk.text, patch: desk.patch, lines: lineRuns(desk.lines), taken: desk.taken, steps: desk.steps,
    state: bytes("state"), map: Array.from(library.map).join(""), settings: bytes("settings"), recorder: bytes("recorder"),
    image: bytes("image"),
    plugged: Array.from(desk.plugged).join(""), switches: desk.switches, useOwn: desk.useOwn,
    scans: desk.scans.map(({ channels, lines, line }) => ({ channels, lines: lineRuns(lines), line })),
    scansMade: desk.scansMade, rows: desk.rows,
    labels: [...desk.labels], starts: [...desk.starts], written: [...desk.written], hit: desk.hit, log: desk.log.entries,
    job: { bytes: hexOf(job.bytes), patched: job.patched, unpatched: job.unpatched }, stops, limits, open,
  }, null, 1) + "\n";
}

// Puts a saved desk back; throws a TextError where the file is none, and then nothing is changed. Answers the stops, the limits and what
// was open.
export function bringBack(desk, text, given) {
  const file = parsed(text, given), { library } = desk;
  const lent = { state: bytesFrom(file.state, "state"), image: bytesFrom(file.image, "image"), map: digits(file.map, "map"),
    settings: bytesFrom(file.settings, "settings"), recorder: bytesFrom(file.recorder, "recorder") };
  refuse(library, lent, desk.words);
  const next = {
    name: word(file.name, "name"), text: word(file.text, "text"), patch: word(file.patch, "patch"), lines: lineWords(file.lines),
    taken: whole(file.taken, "taken"), steps: whole(file.steps, "steps"), plugged: digits(file.plugged, "plugged"),
    switches: whole(file.switches, "switches"), useOwn: file.useOwn === true, scans: list(file.scans, "scans").map(scanFrom),
    scansMade: whole(file.scansMade, "scansMade"), rows: list(file.rows, "rows").map(channels),
    labels: new Map(list(file.labels, "labels").map(labelled)), starts: new Set(addresses(file.starts, "starts")),
    written: new Set(addresses(file.written, "written")), hit: file.hit === null ? null : whole(file.hit, "hit"), job: jobFrom(file.job),
  };
  const stops = stopsFrom(file.stops), limits = limitsFrom(file.limits);
  const log = list(file.log, "log").map(entryFrom), open = openFrom(file.open);
  if (next.taken > next.lines.length || next.scansMade > next.scans.length) throw wrong("taken or scansMade");
  for (const [name, bytes] of Object.entries(lent)) library[name].set(bytes);
  Object.assign(desk, next, { history: new History() });
  desk.log.entries = log;
  desk.done("brought back from a file");
  return { stops, limits, open };
}

function parsed(text, given) {
  let file;
  try {
    file = JSON.parse(text);
  } catch (why) {
    throw new TextError(`no saved desk: ${why.message}`);
  }
  if (file === null || file.kind !== KIND) throw new TextError("no saved desk: it does not say that it is one");
  if (file.format !== FORMAT || file.layout !== given.layout)
    throw new TextError(`a saved desk of another layout: format ${file.format}, layout ${file.layout}; ` +
      `this page has format ${FORMAT}, layout ${given.layout}`);
  return file;
}

// A run over no line words, on buffers beside the desk's, tells whether the library takes what the file has.
function refuse(library, lent, words) {
  library.trialState.set(lent.state), library.trialImage.set(lent.image);
  library.trialMap.set(lent.map), library.trialSettings.set(lent.settings);
  const beside = library.lent("trialState", "tally", "trialImage", "trialMap", "trialSettings");
  const why = library.calls.wd16_run(...beside, library.at.lines, 0);
  if (why !== 0) throw new TextError(`the saved desk is refused: ${words.refusal(why)}`);
}

function wrong(what) {
  return new TextError(`the saved desk's ${what} can't be read`);
}

function hexOf(bytes) {
  return Array.from(bytes, (byte) => hex(byte, 2)).join("");
}

function bytesFrom(text, name) {
  if (typeof text !== "string" || text.length !== 2 * SIZES[name] || /[^0-9A-F]/.test(text)) throw wrong(name);
  return Uint8Array.from({ length: SIZES[name] }, (_, n) => parseInt(text.slice(2 * n, 2 * n + 2), 16));
}

function digits(text, what) {
  if (typeof text !== "string" || text.length !== SIZES.map || /[^0-9]/.test(text)) throw wrong(what);
  return Uint8Array.from(text, Number);
}

function word(value, what) {
  if (typeof value !== "string") throw wrong(what);
  return value;
}

function whole(value, what) {
  if (!Number.isSafeInteger(value) || value < 0) throw wrong(what);
  return value;
}

function list(value, what) {
  if (!Array.isArray(value)) throw wrong(what);
  return value;
}

function addresses(values, what) {
  if (!list(values, what).every((value) => Number.isInteger(value) && value >= 0 && value <= 0xFFFF)) throw wrong(what);
  return values;
}

function labelled(pair) {
  if (!Array.isArray(pair) || pair.length !== 2) throw wrong("labels");
  return [word(pair[0], "labels"), addresses([pair[1]], "labels")[0]];
}

function stopsFrom(stops) {
  return { causes: list(stops?.causes, "stops"), addresses: addresses(stops.addresses, "stops"), writes: addresses(stops.writes, "stops") };
}

// Limits by channel, in tenths.
function limitsFrom(limits) {
  const good = ([channel, limit]) => Number(channel) < CHANNELS && Number.isInteger(limit);
  if (typeof limits !== "object" || limits === null || !Object.entries(limits).every(good)) throw wrong("limits");
  return limits;
}

// The job's bytes, as the check of a trace takes them.
function jobFrom(job) {
  const { bytes, patched, unpatched } = job ?? {};
  if (typeof bytes !== "string" || bytes.length > 2 * SIZES.job || !/^([0-9A-F]{2})*$/.test(bytes)) throw wrong("job");
  const read = Uint8Array.from(bytes.match(/../g) ?? [], (two) => parseInt(two, 16));
  return { bytes: read, patched: whole(patched, "job"), unpatched: unpatched === true };
}

// A line of what happened.
function entryFrom(entry) {
  const { step, at, words, bad, changes } = entry ?? {}, place = at === null ? null : addresses([at], "log")[0];
  return { step: whole(step, "log"), at: place, words: word(words, "log"), bad: bad === true, changes: word(changes, "log") };
}

function openFrom(open) {
  return { job: word(open?.job, "open"), patch: word(open.patch, "open"), tab: word(open.tab, "open") };
}

function lineWords(text) {
  return lineWordsOf(wordsIn(word(text, "lines"), 1)).map((one) => one.value);
}

function channels(values) {
  const good = (value) => value === null || Number.isInteger(value);
  if (!Array.isArray(values) || values.length !== CHANNELS || !values.every(good)) throw wrong("rows");
  return values;
}

function scanFrom(one) {
  return { channels: channels(one?.channels), lines: lineWords(one?.lines), line: one?.line ?? 0 };
}
