// What was done, so that it can be undone: kept states, and the line words of the steps after each. A step is taken back by running
// again from the kept state before it; that such a run is the same run is proved (the law of halves).
import { MOST_LINES } from "./layout.mjs";

const MOST_STEPS = 65536, MOST_PARTS = 128;

// A kept state, why it was kept (words, or null where only the steps were many), and the steps from it: runs of one line word, of the
// job's own or of the switches.
class Part {
  constructor(kept, why) {
    this.kept = kept, this.why = why;
    this.runs = [], this.steps = 0;
  }

  add(word, count, own) {
    const last = this.runs.at(-1);
    if (last && last.word === word && last.own === own) last.count += count;
    else this.runs.push({ word, count, own });
    this.steps += count;
  }

  // Leaves the first steps alone.
  cut(steps) {
    let over = this.steps - steps;
    while (over > 0) {
      const last = this.runs.at(-1), less = Math.min(over, last.count);
      last.count -= less, over -= less;
      if (last.count === 0) this.runs.pop();
    }
    this.steps = steps;
  }

  // The line words of the steps, in lists that a run takes.
  * lists() {
    let list = [];
    for (const { word, count } of this.runs)
      for (let n = 0; n < count; n++) {
        list.push(word);
        if (list.length === MOST_LINES) yield list, list = [];
      }
    if (list.length > 0) yield list;
  }

  ownSteps() {
    return this.runs.reduce((sum, run) => sum + (run.own ? run.count : 0), 0);
  }
}

export class History {
  constructor() {
    this.parts = [];
  }

  begin(kept, why) {
    this.parts.push(new Part(kept, why));
    if (this.parts.length > MOST_PARTS) this.parts.shift();
  }

  add(word, count, own) {
    this.parts.at(-1).add(word, count, own);
  }

  full() {
    return this.parts.at(-1).steps >= MOST_STEPS;
  }

  // The part that has the last step.
  lastPart() {
    const last = this.parts.at(-1);
    return last.steps === 0 && last.why === null && this.parts.length > 1 ? this.parts.at(-2) : last;
  }

  // Takes the last step, or what was done since it, back: the part that is to be run again, and in words what was undone, or null
  // where it was a step. Nothing where there is nothing left.
  back() {
    while (this.parts.length > 1 && this.parts.at(-1).steps === 0 && this.parts.at(-1).why === null) this.parts.pop();
    const last = this.parts.at(-1);
    if (last.steps > 0) {
      last.cut(last.steps - 1);
      return { part: last, undone: null };
    }
    if (this.parts.length === 1) return null;
    this.parts.pop();
    return { part: this.parts.at(-1), undone: last.why };
  }
}
