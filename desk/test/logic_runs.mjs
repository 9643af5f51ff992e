// The part of logic.mjs that runs: stops, steps taken back, the recorder's pictures, traces, files saved and read.
import assert from "node:assert";
import fs from "node:fs";
import { CAUSE, PAGE, STATE, hex, wordAt } from "../src/layout.mjs";
import { picture } from "../src/picture.mjs";
import { averageDegrees, gapWords, gaps, limitOf, nextScan, over } from "../src/recorder.mjs";
import { Runner } from "../src/running.mjs";
import { bringBack, savedText } from "../src/saved.mjs";
import { Stops } from "../src/stops.mjs";
import { TextError } from "../src/text.mjs";
import { checkTrace, makeTrace } from "../src/trace.mjs";

export async function more({ given, words, newDesk, snapshot: of }) {
  let checks = 0;
  const desk = newDesk(), other = newDesk(), runner = new Runner(desk), quiet = () => {}, snapshot = (one = desk) => of(one);
  const load = (name, on = desk) => on.load(name, ...given.samples[name]);
  const same = (what, right, got) => (assert.deepStrictEqual(got, right, what), checks++);
  const thrown = (work) => {
    try {
      work();
    } catch (why) {
      if (why instanceof TextError) return why.message;
      throw why;
    }
    return "taken";
  };

  // A run to the first blank ends as its steps one by one; so does a plain run, with the blanks that its steps met.
  async function runs() {
    load("card-pulled.txt"), load("card-pulled.txt", other);
    const end = await runner.run(1e6, new Stops(), quiet);
    while (other.step() === 0 && other.cause !== CAUSE.blankOpCode);
    same("to the blank", [3, "blank", snapshot(other)], [end.steps, end.how, snapshot()]);
    same("the blank's page", 0xC0, desk.hit);
    load("card-pulled.txt"), load("card-pulled.txt", other);
    const plain = await runner.run(18, null, quiet);
    let blanks = 0;
    for (let n = 0; n < 18; n++) other.step(), blanks += other.cause === CAUSE.blankOpCode ? 1 : 0;
    same("a plain run", [18, "all", blanks, { step: 2, address: 0xC000 }], [plain.steps, plain.how, plain.blanks, plain.first]);
    same("its registers", other.library.state.slice(0, 19), desk.library.state.slice(0, 19));
    load("card-pulled.txt"), desk.step();
    same("the first blank's step", 2, (await runner.run(9, null, quiet)).first.step);
    load("card-pulled.txt");
    for (let n = 0; n < 3; n++) desk.step();
    same("what a step changed", [0x0C, 0x0E], desk.changed());
    load("card-fitted.txt"), desk.protect(0xC0), desk.pull(0xC0), desk.pull(0xC0);
    same("a read-only page comes back as one", PAGE.readOnly, desk.library.map[0xC0]);
  }

  async function stops() {
    const asked = new Stops();
    load("card-pulled.txt");
    asked.set({ causes: [], addresses: [0x90], writes: [] });
    same("at an address", ["address", 0x90, 3], await runner.run(1e6, asked, quiet).then((end) => [end.how, end.at, end.steps]));
    load("card-pulled.txt");
    asked.set({ causes: [], addresses: [], writes: [0x0C] });
    same("at a write", ["write", 0x0C, 3], await runner.run(1e6, asked, quiet).then((end) => [end.how, end.at, end.steps]));
    load("halt-switch.txt");
    asked.set({ causes: ["switch"], addresses: [], writes: [] });
    same("at the halt option", "switch", (await runner.run(1e6, asked, quiet)).how);
    load("interrupt-i0.txt");
    asked.set({ causes: ["interrupt"], addresses: [], writes: [] });
    same("at an interrupt", ["interrupt", CAUSE.i0], [(await runner.run(1e6, asked, quiet)).how, desk.cause]);
    load("lock-up.txt");
    same("at a lock-up", ["lock", 4], [(await runner.run(1e6, new Stops(), quiet)).how, desk.mode]);
    desk.load("w", "pages 00\n0016 = 0080\n0080 = 0007"); // WFI
    same("at a wait", ["waits", 1], [(await runner.run(1e6, new Stops(), quiet)).how, desk.mode]);
  }

  // A write is seen where it leaves what was there: after another write to its page, and where the word is read first.
  async function writes() {
    const asked = new Stops(), found = async (body, watch) => {
      desk.load("w", `pages 00 10\n0012 = START\n0016 = START\n.ORG 0080\nSTART: MOV #0100,SP\n${body}\nDONE: BR DONE`);
      asked.set({ causes: [], addresses: [desk.labels.get("DONE")], writes: [watch] });
      const end = await runner.run(1000, asked, quiet);
      return end.how === "write" ? hex(end.at) : end.how;
    };
    same("a clear of a zero", "00F0", await found("CLR @#00F0", 0xF0));
    same("a word to itself", "1000", await found("MOV @#1000,@#1000", 0x1000));
    same("a bit set of nothing", "1000", await found("BIS R0,@#1000", 0x1000));
    same("the second push of zeros", "00FA", await found("MOV #00FE,SP\nSAVE", 0xFA));
    same("another word alone", "address", await found("CLR @#1002", 0x1000));
    same("a read alone", "address", await found("MOV @#1000,R0", 0x1000));
  }

  // Steps taken back: each state on the way is as it was, across a pulled card, a change by hand, a patch, and a power-up.
  async function backwards() {
    load("card-pulled.txt");
    const seen = [snapshot()], step = ["step"];
    const acts = [step, step, step, ["pull", 0xC0], step, step, ["poke", 0x40, 0x1234], ["protect", 0], ["protect", 0],
      ["assemble", ".ORG 0040\nNOP"], step, ["setRegister", 3, 7], ["setBoard", 1, 2, "jumpers"], ["powerUp"], step];
    for (const [act, ...how] of acts) desk[act](...how), seen.push(snapshot());
    while (seen.length > 1) {
      seen.pop();
      assert.notStrictEqual(desk.back(), null);
      same(`back to ${seen.length}`, seen.at(-1), snapshot());
    }
    same("nothing before the start", null, desk.back());
    load("sob.txt");
    await runner.run(200000, null, quiet);
    const late = snapshot();
    for (let n = 0; n < 3; n++) desk.step();
    for (let n = 0; n < 3; n++) desk.back();
    same("back to a long run's end", late, snapshot());
    same("its steps", [200000, 17], [desk.steps, desk.taken]);
  }

  function recorder() {
    load("pulled-card.scans");
    for (let one; (one = nextScan(desk)) !== null;) desk.done(one.words);
    const report = desk.library.reportOf(4);
    same("channel 4", [8, 4, 59, 61, 481], [report.readings, report.blanks, report.lowest, report.highest, report.sum]);
    same("in degrees", "6.01", averageDegrees(report));
    same("its gap", [[[5, 8]], "5 to 8"], [gaps(desk.rows, 4), gapWords(desk.rows, 4)]);
    const every = Array.from({ length: 14 }, (_, n) => [n % 2 === 0 ? null : 5]);
    same("many gaps", "1, 3, 5, 7, 9, and 2 more times", gapWords(every, 0));
    same("over 5.0", { readings: 8, average: true }, over(report, desk.rows, 4, limitOf("5.0")));
    same("over a limit below zero", 8, over(report, desk.rows, 4, -10).readings);
    same("the average alone", { readings: 3, average: true }, over(report, desk.rows, 4, 60));
    same("limits", [null, 50, -185, NaN, NaN], ["", "5", "-18.5", "warm", "5.05"].map(limitOf));
    const drawn = picture(report, desk.rows, 4, 50);
    same("a dot for each reading", 8, drawn.split("h.01").length - 1);
    same("a gap for the missing cards", 1, drawn.split('class="gap"').length - 1);
    const told = "8 readings; from 5.9 to 6.1 degrees, average 6.01; no card in scan 5 to 8; " +
      "limit 5.0: 8 readings over it, the average is over it.";
    same("in words", true, drawn.includes(told));
    load("no-card.scans");
    while (nextScan(desk) !== null);
    const never = picture(desk.library.reportOf(15), desk.rows, 15, null);
    same("no dot, no number where no card ever was", [0, false], [never.split("h.01").length - 1, />-?[0-9]+\.[0-9]</.test(never)]);
    load("pulled-card.scans");
    const before = snapshot();
    desk.done(nextScan(desk).words), desk.back(), desk.back(), desk.back();
    same("a scan taken back", before, snapshot());
  }

  function traces() {
    load("example.txt");
    const before = snapshot(), good = fs.readFileSync("jobs/example.trace"), wrong = fs.readFileSync("jobs/example-wrong.trace");
    same("the trace that is made", good.toString("hex"), Buffer.from(makeTrace(desk)).toString("hex"));
    same("accepted", [0, 0, 3], Object.values((({ why, found, count }) => ({ why, found, count }))(checkTrace(desk, good))));
    const found = checkTrace(desk, wrong);
    same("the first wrong step", [1, 1, 8], [found.found, found.step, found.field]);
    same("theirs and ours", ["8F00", "0F00"], [hex(found.theirs[8]), hex(found.ours.after[8])]);
    desk.setBoard(1, 2, "other jumpers");
    same("on bench's board", "0F00", hex(checkTrace(desk, wrong).ours.after[8]));
    desk.back();
    const short = checkTrace(desk, Uint8Array.from([2, 0, ...good.subarray(2, 42)]));
    same("a step is missing", [2, 2, null], [short.found, short.step, short.theirs]);
    const long = checkTrace(desk, Uint8Array.from([4, 0, ...good.subarray(2), ...good.subarray(2, 22)]));
    same("a step too many", [2, 3, null], [long.found, long.step, long.ours.after]);
    same("refused", 29, checkTrace(desk, good.subarray(0, 9)).why);
    same("nothing is changed", before, snapshot());
  }

  // Lunch: what is saved and read again goes on as if there had been none.
  async function lunch() {
    load("pulled-card.scans"), load("pulled-card.scans", other);
    for (const one of [desk, other]) {
      for (let n = 0; n < 6; n++) one.done(nextScan(one).words);
      one.step(), one.pull(0x30), one.poke(0x3000, 0xBEEF), one.assemble(".ORG 00A0\nAFTER: BR AFTER");
    }
    const stops = new Stops();
    stops.addresses.add(0x90);
    const open = { job: "half a job", patch: "half a patch", tab: "patch" };
    const file = savedText(desk, stops, { 4: 50 }, open, given), fresh = newDesk();
    load("example.txt", fresh);
    const kept = bringBack(fresh, file, given);
    same("stops, limits, and what was open", { stops: stops.toJSON(), limits: { 4: 50 }, open }, kept);
    same("what happened, and its blank", [desk.log.entries, desk.hit], [fresh.log.entries.slice(0, -1), fresh.hit]);
    for (const one of [fresh, other]) {
      for (let n = 0; n < 3; n++) one.step();
      while (nextScan(one) !== null);
    }
    same("after lunch", snapshot(other), snapshot(fresh));
    same("and the pictures' readings", other.rows, fresh.rows);
    const was = snapshot(fresh), changed = (change) => JSON.stringify({ ...JSON.parse(file), ...change });
    const lost = (change) => thrown(() => bringBack(fresh, changed(change), given));
    const other99 = `a saved desk of another layout: format 2, layout 99; this page has format 2, layout ${given.layout}`;
    same("another layout", other99, lost({ layout: 99 }));
    same("another kind", "no saved desk: it does not say that it is one", lost({ kind: "shopping list" }));
    same("a bad map", `the saved desk is refused: ${words.refusal(3)}`, lost({ map: "9".repeat(256) }));
    same("a short image", "the saved desk's image can't be read", lost({ image: "00" }));
    same("no list", "the saved desk's rows can't be read", lost({ rows: [[1, 2]] }));
    const bad = [["stops", 3], ["stops", { causes: [], addresses: ["x"], writes: [] }], ["limits", { 99: 5 }], ["labels", [[1]]],
      ["starts", [-1]], ["written", 1], ["hit", "C0"], ["job", { bytes: "0" }], ["log", [{}]], ["open", null], ["scans", [{}]],
      ["steps", -1], ["text", 5], ["lines", "zz"]];
    for (const [name, value] of bad) same(`a bad ${name}`, true, /can't be read|not a hex number/.test(lost({ [name]: value })));
    same("a cut file", "no saved desk", thrown(() => bringBack(fresh, file.slice(0, 900), given)).slice(0, 13));
    same("nothing is changed by those", was, snapshot(fresh));
  }

  // A patch on a card that was plugged in by hand makes no job, but it runs, it is saved, and it is undone.
  function patchOnACard() {
    load("example.txt");
    const plain = makeTrace(desk);
    same("its cards are the job's", true, desk.hasItsCards());
    desk.pull(0x10), desk.assemble(".ORG 1000\nHERE: BR HERE");
    same("and one more", false, desk.hasItsCards());
    same("the trace is of the job without it", [true, Buffer.from(plain)], [desk.job.unpatched, Buffer.from(makeTrace(desk))]);
    const open = { job: desk.text, patch: desk.patch, tab: "cards" }, fresh = newDesk();
    load("sob.txt", fresh), bringBack(fresh, savedText(desk, new Stops(), {}, open, given), given);
    same("it is brought back", [snapshot(), ".ORG 1000\nHERE: BR HERE"], [snapshot(fresh), fresh.patch]);
    same("with its job", [true, Buffer.from(plain)], [fresh.job.unpatched, Buffer.from(makeTrace(fresh))]);
    load("example.txt"), desk.assemble(".ORG 0080\nMOVI 08,SP");
    const patched = makeTrace(desk);
    same("a patch of the job is in its trace", [1, "0008"], [desk.job.patched, hex(wordAt(patched, 2 + 12))]);
    load("example.txt", fresh), bringBack(fresh, savedText(desk, new Stops(), {}, open, given), given);
    same("after lunch too", Buffer.from(patched), Buffer.from(makeTrace(fresh)));
    desk.back();
    same("and not once it is undone", ["", Buffer.from(plain)], [desk.patch, Buffer.from(makeTrace(desk))]);
  }

  // A million steps, in slices, and stopped in between.
  async function million() {
    load("sob.txt");
    let slices = 0;
    const end = await runner.run(1e6, null, () => slices++);
    same("a million steps", [1e6, "all", true], [end.steps, end.how, slices >= 1]);
    const asked = runner.run(1e9, null, (done) => { if (done > 0) runner.stop(); });
    same("stopped", "asked", (await asked).how);
  }

  await runs(), await stops(), await writes(), await backwards();
  recorder(), traces(), await lunch(), patchOnACard(), await million();
  return checks;
}
