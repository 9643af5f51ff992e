// The controls: a step, a step back, runs with their progress, power-up; and what each of them comes to in words.
import { CAUSE, hex } from "./layout.mjs";
import { Runner } from "./running.mjs";
import { at, tell } from "./elements.mjs";
import { howEnded } from "./ended.mjs";
import { opCodeAround } from "./listing.mjs";
import { counted, grouped } from "./words.mjs";

const MOST_TO_A_STOP = 1e9, MOST_STEPS = 1e9, BETWEEN_PROGRESS = 300; // milliseconds
const MADE_ALONE = ["blank", "lock", "interrupt", "switch", "write"]; // ends of a run whose last step is told by itself

export class ControlsView {
  // `refresh` shows the desk, with its listing around PC.
  constructor(desk, stops, refresh) {
    this.desk = desk, this.stops = stops, this.refresh = refresh, this.runner = new Runner(desk);
    at("step").onclick = () => this.step();
    at("back").onclick = () => this.back();
    at("power").onclick = () => this.powerUp();
    at("run").onclick = () => this.runCount();
    at("until").onclick = () => this.run(MOST_TO_A_STOP, stops);
    at("stop").onclick = () => this.runner.stop();
    at("count").onkeydown = (event) => { if (event.key === "Enter") this.runCount(); };
  }

  step() {
    const { desk } = this, was = hex(desk.pc), why = desk.step();
    if (why !== 0) return tell(`The step is refused: ${desk.words.refusal(why)}.`, true);
    this.refresh();
    const last = desk.log.entries.at(-1), within = this.within(), blank = desk.words.blank(desk.told ?? 0, desk.library.map);
    if (desk.cause === CAUSE.lock) tell(`The processor is locked up${desk.told === null ? "" : `: ${blank}`}. Only Power up helps.`, true);
    else if (desk.told === null) tell(`Step ${grouped(desk.steps - 1)} at ${was}: ${last.words}. ${last.changes}${within}`, within !== "");
    else tell(`A blank: ${blank}. What stands at ${was} was dropped, and PC is where location 0012 points.`, true);
  }

  // That PC has come into the midst of an op code, as the text has it.
  within() {
    const around = opCodeAround(this.desk, this.desk.pc);
    return around === null ? "" : `. PC is inside the op code at ${hex(around)}.`;
  }

  back() {
    const undone = this.desk.back();
    this.refresh();
    if (undone === null) tell("Nothing is left to take back.");
    else tell(undone === "" ? `Back: ${counted(this.desk.steps, "step")} made.` : `Undone: ${undone}.`);
  }

  powerUp() {
    this.desk.powerUp();
    this.refresh();
    tell("Powered up: memory and cards stay as they are, the job's line words begin anew.");
  }

  runCount() {
    const text = at("count").value.replace(/[ ,_]/g, ""), good = /^[0-9]{1,9}$/.test(text) && Number(text) > 0;
    at("count").classList.toggle("wrong", !good);
    if (!good) return tell(`'${at("count").value}' is no number of steps: 1 to ${grouped(MOST_STEPS - 1)} is needed.`, true);
    return this.run(Number(text), null);
  }

  // Runs so many steps, or up to a stop that was asked for.
  async run(most, asked) {
    const { desk } = this, from = desk.steps, place = desk.pc;
    this.busy(true);
    at("progress").removeAttribute("value"); // how far a run to a stop is, nobody knows
    let next = 0; // when it is told again how far the run is
    const end = await this.runner.run(most, asked, (done) => {
      if (asked === null) at("progress").max = most, at("progress").value = done;
      if (performance.now() < next) return;
      next = performance.now() + BETWEEN_PROGRESS;
      const far = asked === null ? `of ${grouped(most)} …` : "and no stop yet: Stop or Esc ends the run.";
      tell(`${grouped(done)} steps ${far}`);
    });
    this.busy(false);
    const last = this.log(from, place, end), [told, bad] = howEnded(desk, end, last);
    this.refresh();
    tell(told, bad);
    at(asked === null ? "run" : "until").focus();
  }

  // Tells a run in the log, and its last step by itself where that is what ended it; answers where that step began, or null.
  log(from, place, end) {
    const { desk } = this, last = MADE_ALONE.includes(end.how) && end.steps > 0 ? desk.again() : null;
    const steps = end.steps - (last === null ? 0 : 1), blanks = end.blanks - (end.how === "blank" ? 1 : 0);
    const met = blanks > 0 ? `, ${grouped(blanks)} met a blank` : "";
    if (steps > 0 || last === null) desk.log.add(from, place, `a run of ${counted(steps, "step")}${met}`, blanks > 0);
    if (last !== null) desk.logStep(last);
    return last;
  }

  // Does work again and again until there is none left, with the page in use.
  async repeat(work, progress) {
    const asked = document.activeElement;
    this.busy(true);
    await this.runner.repeat(work, progress);
    this.busy(false);
    asked.focus();
  }

  // While it runs, only Stop can be used.
  busy(on) {
    document.querySelector("main").inert = document.querySelector("header").inert = on;
    for (const control of document.querySelectorAll(".controls button, .controls input")) control.disabled = on;
    at("stop").disabled = !on;
    at("progress").hidden = !on;
    at("told").setAttribute("aria-live", on ? "off" : "polite"); // who listens hears how it ends, not each count
    if (on) at("stop").focus();
  }
}
