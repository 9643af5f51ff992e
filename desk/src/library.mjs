// The library in WebAssembly: its calls, over buffers in its memory. Every call answers its number: 0, or that of its refusal.
import { CHANNELS, LAST_WORD, MODE, MOST_LINES, PAGE, REPORT, SIZES, SOURCE_LINE, STATE, putWord, wordAt } from "./layout.mjs";

export class Library {
  constructor(bytes) {
    this.calls = new WebAssembly.Instance(new WebAssembly.Module(bytes), {}).exports;
    let at = this.calls.__heap_base.value + 7 & ~7;
    this.at = {};
    for (const [name, size] of Object.entries(SIZES)) {
      this.at[name] = at;
      at = at + size + 7 & ~7;
    }
    const missing = at - this.calls.memory.buffer.byteLength;
    if (missing > 0) this.calls.memory.grow(Math.ceil(missing / 65536));
    for (const [name, size] of Object.entries(SIZES)) this[name] = new Uint8Array(this.calls.memory.buffer, this.at[name], size);
  }

  // Pointers and lengths, as C's functions take them.
  lent(...names) {
    return names.flatMap((name) => [this.at[name], SIZES[name]]);
  }

  // ---- the processor

  powerUp() {
    return this.calls.wd16_power_up(...this.lent("state", "image", "map", "settings"));
  }

  step(line) {
    return this.calls.wd16_step(...this.lent("state", "image", "map", "settings"), line);
  }

  // Over line words, 4,096 at most; the tally is left.
  run(lines) {
    this.putLines(lines);
    return this.calls.wd16_run(...this.lent("state", "tally", "image", "map", "settings"), this.at.lines, lines.length);
  }

  // The same up to the first step that one asks for; `stopped` is left.
  runUntil(lines, until) {
    this.putLines(lines);
    return this.calls.wd16_run_until(...this.lent("state", "stopped", "image", "map", "settings"), this.at.lines, lines.length, until);
  }

  // A step of a state and an image beside the desk's, over the desk's map or a map beside it.
  trialStep(line, image = "trialImage", map = "trialMap") {
    return this.calls.wd16_step(...this.lent("trialState", image, map, "settings"), line);
  }

  // PS with bits 15 and 14 clear, as the processor itself stores it: SSTS R0 is executed beside the desk, on quiet lines.
  statusWord() {
    this.readText("SSTS R0");
    const opCode = wordAt(this.words, 0);
    this.trialState.set(this.state);
    this.trialState[STATE.mode] = MODE.running;
    putWord(this.trialState, STATE.pc, 0);
    this.trialMap.fill(PAGE.fitted);
    putWord(this.trialImage, 0, opCode);
    this.trialStep(0);
    return wordAt(this.trialState, 0);
  }

  putLines(lines) {
    for (let n = 0; n < lines.length; n++) putWord(this.lines, 2 * n, lines[n]);
  }

  // ---- the text

  // The listing's line at an address, of a stretch that ends at another: its words, its text, and the next line's address or null.
  listLine(first, last = LAST_WORD) {
    const why = this.calls.wd16_list_line(...this.lent("image", "map"), first, last, ...this.lent("text", "answer"));
    if (why !== 0) return { why };
    const parts = latin(this.text, wordAt(this.answer, 0)).split(" ");
    let words = 1;
    while (words < parts.length - 1 && /^[0-9A-F]{4}$/.test(parts[words])) words++;
    const next = wordAt(this.answer, 4) === 1 ? null : wordAt(this.answer, 2);
    return { why, address: first, words: parts.slice(1, words), text: parts.slice(words).join(" "), next };
  }

  // The number of a text that is read, and the column of its refusal, from 0.
  readText(text) {
    bytesOf(text).forEach((byte, n) => { this.trialImage[n] = byte; });
    const why = this.calls.wd16_read_text(this.at.trialImage, text.length, ...this.lent("words", "answer"));
    return { why, column: wordAt(this.answer, 4) };
  }

  // ---- the assembler, over lines of up to 32 characters

  putSource(lines) {
    this.source.fill(0x20);
    lines.forEach((line, n) => this.source.set(bytesOf(line), SOURCE_LINE * n));
    return [this.at.source, SOURCE_LINE * lines.length];
  }

  // Its number, with the line of a refusal, from 0, and else the addresses and words.
  assemble(lines) {
    const why = this.calls.wd16_assemble(...this.putSource(lines), ...this.lent("section", "answer"));
    if (why !== 0) return { why, line: wordAt(this.answer, 4) };
    const pairs = [];
    for (let at = 2; at < wordAt(this.answer, 0); at += 4) pairs.push([wordAt(this.section, at), wordAt(this.section, at + 2)]);
    return { why, pairs };
  }

  // Its number, with the line of a refusal, and else each line's address and label or "".
  labelsOf(lines) {
    const why = this.calls.wd16_labels(...this.putSource(lines), ...this.lent("labels", "answer"));
    if (why !== 0) return { why, line: wordAt(this.answer, 4) };
    const one = (line, n) => ({ label: line.slice(0, wordAt(this.labels, 4 * n)), address: wordAt(this.labels, 4 * n + 2) });
    return { why, labels: lines.map(one) };
  }

  // ---- jobs and traces

  // Lays a job out in the image and the map, and answers its line words. A refused job changes nothing.
  readJob(bytes) {
    this.job.set(bytes);
    const why = this.calls.wd16_read_job(this.at.job, bytes.length, ...this.lent("image", "map"), this.at.lines, MOST_LINES,
      ...this.lent("answer"));
    return { why, lines: why === 0 ? Array.from({ length: wordAt(this.answer, 0) }, (_, n) => wordAt(this.lines, 2 * n)) : [] };
  }

  // The number of a job's bytes alone: the image and the map that the reader is lent are those beside the desk's.
  jobRefusal(bytes) {
    this.job.set(bytes);
    return this.calls.wd16_read_job(this.at.job, bytes.length, ...this.lent("trialImage", "trialMap"), this.at.lines, MOST_LINES,
      ...this.lent("answer"));
  }

  checkTrace(job, trace) {
    this.job.set(job);
    this.trace.set(trace);
    const why = this.calls.wd16_check_trace(this.at.job, job.length, this.at.trace, trace.length, ...this.lent("verdict"));
    return { why, found: wordAt(this.verdict, 0), step: wordAt(this.verdict, 2), field: wordAt(this.verdict, 4) };
  }

  // ---- the recorder

  scan(lines, channels) {
    this.putLines(lines);
    channels.forEach((value, n) => {
      this.cards[n] = value === null ? 0 : 1;
      putWord(this.readings, 2 * n, value ?? 0);
    });
    return this.calls.wd16_scan(...this.lent("state", "tally", "image", "map", "settings"), this.at.lines, lines.length,
      ...this.lent("cards"), this.at.readings, CHANNELS, ...this.lent("recorder"));
  }

  reportOf(channel) {
    this.channel[0] = channel;
    const why = this.calls.wd16_report(...this.lent("recorder", "channel", "report"));
    const view = new DataView(this.calls.memory.buffer, this.at.report, SIZES.report);
    return { why, readings: view.getUint16(REPORT.readings, true), blanks: view.getUint16(REPORT.blanks, true),
      lowest: view.getInt16(REPORT.lowest, true), highest: view.getInt16(REPORT.highest, true), sum: view.getInt32(REPORT.sum, true) };
  }
}

function latin(bytes, length) {
  return String.fromCharCode(...bytes.subarray(0, length));
}

function bytesOf(text) {
  return Array.from(text, (character) => character.charCodeAt(0));
}
