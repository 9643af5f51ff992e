// What happened, in words: a line for each step that was made by itself, and for what else was done; and what a step changed.
import { INDICATORS, REGISTERS, STATE, hex, wordAt } from "./layout.mjs";

const MOST_KEPT = 1000;

export class Log {
  constructor() {
    this.clear();
  }

  clear() {
    this.entries = [];
  }

  // The number of the step, where it began, what it was, whether it is bad, and what it changed.
  add(step, at, words, bad = false, changes = "") {
    this.entries.push({ step, at, words, bad, changes });
    if (this.entries.length > MOST_KEPT) this.entries.shift();
  }

  // Leaves what was before a step. Where something beside a step was undone, its own entry goes as well, which is the last.
  backTo(step, last) {
    if (last) this.entries.pop();
    else this.entries = this.entries.filter((entry) => entry.step < step || (entry.step === step && entry.at === null));
  }
}

// The addresses of the words that differ in two images.
export function changedWords(before, after) {
  const eight = (bytes) => new BigUint64Array(bytes.buffer, bytes.byteOffset, 8192);
  const [old, now] = [eight(before), eight(after)], found = [];
  for (let n = 0; n < 8192; n++) {
    if (old[n] === now[n]) continue;
    for (let at = 8 * n; at < 8 * n + 8; at += 2) if (wordAt(before, at) !== wordAt(after, at)) found.push(at);
  }
  return found;
}

// What a step changed, in a line: R2=C000 PC=0090 N=1 000E:=4F08. PC is told where it is not `straight`, at the next op code.
export function changesIn(before, after, straight) {
  const parts = [];
  for (let n = 0; n < 7; n++) {
    const now = wordAt(after.state, 2 * n);
    if (wordAt(before.state, 2 * n) !== now) parts.push(`${REGISTERS[n]}=${hex(now)}`);
  }
  const pc = wordAt(after.state, STATE.pc);
  if (pc !== straight) parts.push(`PC=${hex(pc)}`);
  const was = before.state[STATE.indicators], is = after.state[STATE.indicators];
  for (const [name, bit] of INDICATORS) if ((was ^ is) & bit) parts.push(`${name}=${is & bit ? 1 : 0}`);
  if (before.state[STATE.i2] !== after.state[STATE.i2]) parts.push(`I2=${after.state[STATE.i2]}`);
  for (const address of changedWords(before.image, after.image)) parts.push(`${hex(address)}:=${hex(wordAt(after.image, address))}`);
  return parts.join(" ");
}
