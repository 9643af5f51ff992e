// Runs of many steps, in slices between which the page can be used: how far it is, and whether it is to stop.
import { CAUSE, MODE, MOST_LINES, NONE, TALLY, even, pageOf, wordAt } from "./layout.mjs";
import { isBlank } from "./words.mjs";
import { writtenBy } from "./stops.mjs";

const SLICE = 25; // milliseconds
const WAITING_LINES = 16; // line words lent at a time while the processor waits, since the library then comes back after each step

const pause = () => new Promise((resolve) => setTimeout(resolve, 0));

export class Runner {
  constructor(desk) {
    this.desk = desk, this.running = false;
  }

  stop() {
    this.asked = true;
  }

  // Runs at most so many steps. Without stops all of them; with stops up to the first. Answers the steps made, how it ended (all,
  // asked, waits, address, write, blank, interrupt, lock, switch or refused), the blanks, and the first one's step and address.
  async run(most, stops, progress) {
    const { desk } = this, end = { steps: 0, how: null, blanks: 0, first: null, at: null };
    this.running = true, this.asked = false;
    desk.mark();
    const before = { state: desk.before.state.slice(), image: desk.before.image.slice() };
    try {
      while (end.how === null) {
        const until = performance.now() + SLICE;
        while (end.how === null && performance.now() < until) this.some(most, stops, end);
        progress(end.steps, most);
        if (end.how === null) await pause();
        if (this.asked && end.how === null) end.how = "asked";
      }
    } finally {
      this.running = false;
    }
    if (end.steps !== 1) desk.before = before; // what the whole run changed
    desk.hit = desk.told !== null ? pageOf(desk.told) : end.first !== null ? pageOf(end.first.address) : null;
    return end;
  }

  // Does work again and again until it answers that there is none left, or until it is to stop.
  async repeat(work, progress) {
    this.running = true, this.asked = false;
    try {
      for (let left = true; left && !this.asked;) {
        const until = performance.now() + SLICE;
        while (left && performance.now() < until) left = work();
        progress();
        if (left) await pause();
      }
    } finally {
      this.running = false;
    }
  }

  some(most, stops, end) {
    if (end.steps >= most) end.how = "all";
    else if (stops === null) this.plain(most, end);
    else if (stops.singly()) this.single(stops, end);
    else this.until(most, stops, end);
  }

  // Steps were made over these line words; blanks among them, and the first one's place and address.
  made(lines, end, blanks, place, address) {
    if (blanks > 0 && end.first === null) end.first = { step: this.desk.steps + place, address };
    end.blanks += blanks, end.steps += lines.length;
    this.desk.made(lines);
  }

  plain(most, end) {
    const { desk } = this, { library } = desk, lines = desk.nextLines(Math.min(most - end.steps, MOST_LINES));
    const why = library.run(lines);
    if (why !== 0) return this.refused(end, why);
    this.made(lines, end, wordAt(library.tally, TALLY.blanks), wordAt(library.tally, TALLY.first), wordAt(library.tally, TALLY.address));
  }

  until(most, stops, end) {
    const { desk } = this, { library } = desk, waits = desk.mode !== MODE.running && desk.mode !== MODE.locked;
    const lines = desk.nextLines(Math.min(most - end.steps, waits ? WAITING_LINES : MOST_LINES));
    const why = library.runUntil(lines, stops.until());
    if (why !== 0) return this.refused(end, why);
    const first = wordAt(library.stopped, TALLY.first);
    this.made(lines.slice(0, wordAt(library.stopped, TALLY.steps)), end, first === NONE ? 0 : wordAt(library.stopped, TALLY.blanks), first,
      wordAt(library.stopped, TALLY.address));
    end.how = this.ended(stops);
  }

  single(stops, end) {
    const { desk } = this, { library } = desk, lines = desk.nextLines(1), at = desk.pc;
    const watches = stops.writes.size > 0, before = desk.before;
    if (watches) desk.mark();
    const why = library.step(lines[0]);
    if (why !== 0) return this.refused(end, why);
    desk.starts.add(even(at));
    const blank = isBlank(desk.cause) ? 1 : 0;
    this.made(lines, end, blank, 0, desk.told ?? 0);
    const wrote = watches ? writtenBy(library, before, lines[0], stops.writes) : null;
    end.how = this.ended(stops);
    const here = desk.mode === MODE.running && stops.addresses.has(even(desk.pc));
    if (wrote !== null) end.how = "write", end.at = wrote;
    else if (end.how === null && here) end.how = "address", end.at = even(desk.pc);
  }

  // Why a run that may stop stops after the last step, or null.
  ended(stops) {
    const { desk } = this, asked = (name) => stops.causes.has(name);
    if (isBlank(desk.cause) && asked("blank")) return "blank";
    if (desk.cause === CAUSE.lock) return "lock";
    if ((desk.cause === CAUSE.i1 || desk.cause === CAUSE.i0) && asked("interrupt")) return "interrupt";
    if (desk.cause === CAUSE.i3 && asked("switch")) return "switch";
    // Nothing was done, and the line words to come are the switches': nothing will be.
    return desk.cause === CAUSE.nothing && desk.ownLeft() === 0 ? "waits" : null;
  }

  refused(end, why) {
    end.how = "refused", end.at = why;
  }
}
