// The desk without its page: a job on the library's buffers, what a technician does to it, and what is told of that.
import { BENCH_BOARD, CAUSE, LINE, MODE, PAGE, REGISTERS, STATE, even, hex, pageOf, putWord, wordAt } from "./layout.mjs";
import { History } from "./history.mjs";
import { Log, changesIn, changedWords } from "./log.mjs";
import { jobOf, patchOf } from "./job.mjs";
import { TextError } from "./text.mjs";
import { counted, isBlank } from "./words.mjs";

const KEPT = ["state", "image", "map", "settings", "recorder"];

export class Desk {
  constructor(library, words) {
    this.library = library, this.words = words, this.log = new Log();
    this.name = "", this.text = "", this.patch = "", this.job = null;
    this.switches = 0, this.useOwn = true;
    this.before = { state: library.state.slice(), image: library.image.slice() };
  }

  // ---- a job

  // Reads a job's text and its patch, and powers up. Throws a TextError where they are wrong, and then nothing is changed.
  load(name, text, patch = "") {
    const made = jobOf(text, patch, this.library, this.words);
    this.name = name, this.text = text, this.patch = patch, this.job = made;
    this.lines = this.library.readJob(made.bytes).lines;
    this.library.settings.set(made.board);
    this.library.recorder.fill(0);
    this.plugged = this.library.map.slice();
    this.taken = 0, this.scansMade = 0, this.rows = [], this.switches = 0, this.useOwn = true;
    this.scans = made.scans, this.labels = made.labels;
    this.written = new Set(made.starts.map(even)); // where lines of the text and of the patch begin
    this.starts = new Set(this.written); // and where steps began
    this.history = new History();
    this.log.clear();
    this.powerUp("loaded and powered up");
  }

  // What a text and its patch come to, with nothing changed.
  reread(text, patch) {
    return jobOf(text, patch, this.library, this.words);
  }

  powerUp(why = "power-up") {
    this.library.powerUp();
    this.steps = 0, this.hit = null;
    if (why === "power-up") this.taken = 0;
    this.log.clear();
    this.done(why);
  }

  // What is done beside steps is told and kept, and can be undone.
  done(why) {
    this.log.add(this.steps, null, why);
    this.history.begin(this.kept(), why);
    this.mark();
  }

  // ---- states kept and brought back

  kept() {
    const buffers = KEPT.map((name) => [name, this.library[name].slice()]);
    const { taken, steps, scansMade, job, patch, labels, written } = this, plugged = this.plugged.slice();
    return { ...Object.fromEntries(buffers), plugged, taken, steps, scansMade, rows: this.rows.length, job, patch, labels, written };
  }

  bring(kept) {
    for (const name of KEPT) this.library[name].set(kept[name]);
    this.plugged.set(kept.plugged);
    this.taken = kept.taken, this.steps = kept.steps, this.scansMade = kept.scansMade, this.rows.length = kept.rows;
    this.job = kept.job, this.patch = kept.patch, this.labels = kept.labels, this.written = kept.written;
  }

  // From here on what changes is marked.
  mark() {
    this.before.state.set(this.library.state);
    this.before.image.set(this.library.image);
  }

  changed() {
    return changedWords(this.before.image, this.library.image);
  }

  // ---- the processor, as it is shown

  get pc() {
    return wordAt(this.library.state, STATE.pc);
  }

  get mode() {
    return this.library.state[STATE.mode];
  }

  get cause() {
    return this.library.state[STATE.cause];
  }

  register(n) {
    return wordAt(this.library.state, 2 * n);
  }

  // The address that the last step told, or null.
  get told() {
    return this.library.state[STATE.tells] === 1 ? wordAt(this.library.state, STATE.address) : null;
  }

  // ---- line words: the job's, as long as there are any, then the switches'

  ownLeft() {
    return this.useOwn ? this.lines.length - this.taken : 0;
  }

  nextLines(count) {
    const own = Math.min(this.ownLeft(), count), lines = this.lines.slice(this.taken, this.taken + own);
    while (lines.length < count) lines.push(this.switches);
    return lines;
  }

  // Steps over these line words were made.
  made(lines) {
    const own = Math.min(this.ownLeft(), lines.length);
    lines.forEach((word, n) => this.history.add(word, 1, n < own));
    this.taken += own, this.steps += lines.length;
    if (this.history.full()) this.history.begin(this.kept(), null);
  }

  // Runs over the job's line words that are left, whatever is to come first otherwise.
  runOwn() {
    const kept = this.useOwn;
    this.useOwn = true;
    const lines = this.nextLines(this.ownLeft());
    if (lines.length > 0 && this.library.run(lines) === 0) this.made(lines);
    this.useOwn = kept;
  }

  flip(switched) {
    this.switches ^= switched;
  }

  setDevice(code) {
    this.switches = this.switches % LINE.device | code * LINE.device;
  }

  // ---- steps

  // One step, told in the log; answers the number of a refusal.
  step() {
    const from = this.here(), lines = this.nextLines(1);
    this.mark();
    const why = this.library.step(lines[0]);
    if (why !== 0) return why;
    this.made(lines);
    this.logStep(from);
    return 0;
  }

  // Where a step begins, what stands there, and what stands after it.
  here() {
    const { text, next } = this.library.listLine(even(this.pc));
    return { at: this.pc, text, next, wasHalted: this.mode === MODE.powerFail };
  }

  // Runs the steps of a part again from its kept state, the last by itself, and answers where that began.
  rerun(part) {
    const lists = [...part.lists()], last = lists.at(-1)?.pop();
    this.bring(part.kept);
    for (const list of lists) this.library.run(list);
    this.mark();
    const from = this.here();
    if (last !== undefined) this.library.step(last);
    this.taken = part.kept.taken + part.ownSteps(), this.steps = part.kept.steps + part.steps;
    return from;
  }

  // The last step of a run again, to see where it began and what it changed.
  again() {
    return this.rerun(this.history.lastPart());
  }

  // Tells the last step, from where it began.
  logStep(from) {
    this.starts.add(even(from.at));
    this.hit = this.told === null ? null : pageOf(this.told);
    const bad = isBlank(this.cause) || this.cause === CAUSE.lock;
    const straight = this.cause === CAUSE.nothing ? this.pc : from.next, changes = changesIn(this.before, this.library, straight);
    this.log.add(this.steps - 1, from.at, this.inWords(from.text, from.wasHalted), bad, changes);
  }

  // What the last step was.
  inWords(text, wasHalted) {
    if (this.cause === CAUSE.opCode) return wasHalted ? "the power is back" : text;
    const doing = this.cause === CAUSE.blankOpCode ? `${text}: ` : "";
    const where = this.told === null ? "" : `: ${this.words.blank(this.told, this.library.map)}`;
    return `${doing}${this.words.cause(this.cause)}${where}`;
  }

  // Where the last step began, if it met a blank or locked; else null.
  get badAt() {
    const last = this.log.entries.findLast((entry) => entry.at !== null);
    return last?.bad && last.step === this.steps - 1 ? even(last.at) : null;
  }

  // Takes the last step back, or what was done since it; answers in words what was undone, "" for a step, or null for nothing.
  back() {
    const found = this.history.back();
    if (found === null) return null;
    const { part, undone } = found;
    this.rerun(part);
    this.hit = this.told === null ? null : pageOf(this.told);
    this.log.backTo(this.steps, undone !== null);
    return undone ?? "";
  }

  // ---- the board

  // A pulled card keeps what it holds, and comes back as it was; one that was never there is a new one.
  pull(page) {
    const { map } = this.library;
    if (map[page] !== PAGE.unfitted) {
      this.plugged[page] = map[page];
      map[page] = PAGE.unfitted;
    } else map[page] = this.plugged[page] === PAGE.readOnly ? PAGE.readOnly : PAGE.fitted;
    this.done(`page ${hex(page, 2)} ${map[page] === PAGE.unfitted ? "pulled" : "plugged in"}`);
  }

  // Whether every card is as the job has it.
  hasItsCards() {
    this.library.jobRefusal(this.job.bytes);
    return this.library.map.every((kind, page) => kind === this.library.trialMap[page]);
  }

  // Makes a fitted page read-only, or writable again.
  protect(page) {
    const { map } = this.library;
    if (map[page] === PAGE.unfitted) return false;
    map[page] = map[page] === PAGE.fitted ? PAGE.readOnly : PAGE.fitted;
    this.done(`page ${hex(page, 2)} ${map[page] === PAGE.fitted ? "writable" : "read-only"}`);
    return true;
  }

  setBoard(setting, value, why) {
    this.library.settings[setting] = value;
    this.done(why);
  }

  isBench() {
    return BENCH_BOARD.every((value, n) => this.library.settings[n] === value);
  }

  // Changes a word of the image; where nothing is fitted nothing can be changed.
  poke(address, word) {
    if (this.library.map[pageOf(address)] === PAGE.unfitted) return false;
    const was = wordAt(this.library.image, address);
    if (was === word) return true;
    putWord(this.library.image, address, word);
    this.done(`${hex(address)} changed by hand from ${hex(was)} to ${hex(word)}`);
    return true;
  }

  setRegister(n, word) {
    putWord(this.library.state, 2 * n, word);
    this.done(`${REGISTERS[n]} changed by hand to ${hex(word)}`);
  }

  // Assembles a patch into the image; throws a TextError where it is wrong. Answers the words, and those that hang in the air.
  assemble(source) {
    const { labels, addresses, pairs } = patchOf(source, this.library, this.words);
    const missing = pairs.filter(([address]) => this.library.map[pageOf(address)] === PAGE.unfitted).map(([address]) => address);
    if (missing.length > 0) return { missing, count: pairs.length };
    for (const [address, word] of pairs) putWord(this.library.image, address, word);
    this.patch = source, this.job = this.jobWith(source);
    this.labels = new Map([...this.labels, ...labels]);
    const over = new Set(pairs.map(([address]) => address)), begin = addresses.map(even);
    this.written = new Set([...[...this.written].filter((address) => !over.has(address)), ...begin]);
    this.starts = new Set([...[...this.starts].filter((address) => !over.has(address)), ...begin]);
    this.done(`a patch of ${counted(pairs.length, "word")} put into the image`);
    return { missing, count: pairs.length };
  }

  // The job with a patch that was put into the image; where that makes none, as on a card that the job's text doesn't fit, the job as
  // it was.
  jobWith(patch) {
    try {
      return this.reread(this.text, patch);
    } catch (why) {
      if (why instanceof TextError) return { ...this.job, unpatched: true };
      throw why;
    }
  }
}
