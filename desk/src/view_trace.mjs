// Another shop's trace: what the library finds in it, the first wrong step beside ours, and our own trace to save.
import { at, download, made, tell } from "./elements.mjs";
import { FIELDS, checkTrace, makeTrace } from "./trace.mjs";
import { SIZES, hex } from "./layout.mjs";
import { TextError } from "./text.mjs";
import { counted, grouped } from "./words.mjs";

export class TraceView {
  constructor(desk, refresh) {
    this.desk = desk, this.refresh = refresh;
    at("make").onclick = () => this.save();
  }

  clear() {
    at("verdict").replaceChildren();
  }

  save() {
    const trace = makeTrace(this.desk);
    if (trace === null) return tell("The trace that was made is not accepted by the library: nothing is saved.", true);
    download(`${this.desk.name.replace(/\.\w+$/, "")}.trace`, trace, "application/octet-stream");
    tell(`A trace of ${this.job()}: ${counted(this.desk.lines.length, "step")} from power-up on bench's board.`, this.desk.job.unpatched);
  }

  // The job that a trace is of. A patch on a card that the job's text doesn't fit makes no job.
  job() {
    const { name, job } = this.desk, patched = job.patched > 0 ? " with its patch" : "";
    return `the job ${name}${job.unpatched ? " without the patch: its text does not fit the patch's page" : patched}`;
  }

  // Checks the bytes of a trace against the loaded job.
  check(name, bytes) {
    if (bytes.length > SIZES.trace)
      return this.told(`${name} has ${grouped(bytes.length)} bytes; a trace has ${grouped(SIZES.trace)} at most.`, true);
    const found = checkTrace(this.desk, bytes), job = this.job();
    if (found.why !== 0) return this.told(`${name} is refused: ${this.desk.words.refusal(found.why)}.`, true);
    const accepted = `${name} is accepted: ${counted(found.count, "step")}, every field is the manual's (${job}, on bench's board).`;
    if (found.found === 0) return this.told(accepted, false);
    this.told(`${name} ${firstWrong(found, job)}`, true);
    at("verdict").append(this.beside(found));
  }

  told(words, bad) {
    at("verdict").replaceChildren(made("p", { className: bad ? "bad" : "good", textContent: words }));
    tell(words, bad);
  }

  beside({ step, ours, theirs }) {
    const wrong = (n) => theirs !== null && ours.after !== null && theirs[n] !== ours.after[n];
    const kind = (name, n) => (name !== "before" && wrong(n) ? "mono wrong" : "mono");
    const row = (name, values) => made("tr", {}, made("th", { textContent: name }),
      ...FIELDS.map((_, n) => made("td", { textContent: shown(values, n), className: kind(name, n) })));
    const heads = FIELDS.map((textContent, n) => made("th", { textContent, className: wrong(n) ? "wrong" : "" }));
    const table = made("table", { id: "beside", "aria-label": `step ${step}, theirs beside ours` },
      made("tr", {}, made("th"), ...heads), row("before", ours.from), row("theirs", theirs), row("ours", ours.after));
    const textContent = `Load the job anew and go to step ${step}`, onclick = () => this.show(step);
    const show = made("button", { id: "show-step", textContent, onclick });
    const line = ours.line === undefined ? "" : `, line word ${hex(ours.line)}`;
    const what = made("p", { className: "mono", textContent: `step ${step}, from 0: ${hex(ours.at)} ${ours.text}${line}` });
    return made("div", {}, what, table, show);
  }

  // The desk before that step, from power-up on.
  show(step) {
    const { desk } = this;
    try {
      desk.load(desk.name, desk.text, desk.job.unpatched ? "" : desk.patch);
    } catch (why) {
      if (!(why instanceof TextError)) throw why;
      return tell(`The job can't be loaded anew: ${why.message}.`, true);
    }
    for (let left = step; left > 0;) {
      const lines = desk.nextLines(Math.min(left, 4096));
      desk.library.run(lines), desk.made(lines);
      left -= lines.length;
    }
    desk.mark();
    this.refresh();
    const other = desk.isBench() ? "" : " The check is of bench's board, and this job has another.";
    tell(`The desk stands before step ${step}: Step makes it.${other}`);
  }
}

function shown(values, n) {
  return values === null ? "--" : n === FIELDS.length - 1 ? String(values[n]) : hex(values[n]);
}

function firstWrong({ step, field, ours, theirs }, job) {
  if (theirs === null) return `ends before step ${step}; ${job} has more.`;
  if (ours.after === null) return `goes on with a step ${step}; ${job} has none.`;
  return `is wrong at step ${step}: ${FIELDS[field]} is ${shown(theirs, field)}, right is ${shown(ours.after, field)} (${job}).`;
}
