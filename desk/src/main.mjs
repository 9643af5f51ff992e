// The page: makes the desk and its views, and says what each control and key does.
import { Desk } from "./desk.mjs";
import { Editor } from "./editor.mjs";
import { Library } from "./library.mjs";
import { Stops } from "./stops.mjs";
import { TextError } from "./text.mjs";
import { BoardView } from "./view_board.mjs";
import { ControlsView } from "./view_controls.mjs";
import { ProcessorView } from "./view_processor.mjs";
import { RecorderView } from "./view_recorder.mjs";
import { TraceView } from "./view_trace.mjs";
import { Words, counted, grouped } from "./words.mjs";
import { at, download, tell } from "./elements.mjs";
import { bringBack, savedText } from "./saved.mjs";
import { MODE, hex } from "./layout.mjs";
import { joinedText } from "./patching.mjs";
import { readFile } from "./files.mjs";
import { makeAlarm, makeDrop, makeKeys, makeLeaving } from "./window.mjs";
import { goToTab, makeTabs, tabNow } from "./tabs.mjs";
import { isPatch, patchOf, textOf } from "./job.mjs";

const GIVEN = globalThis.GIVEN;
const FIRST = "card-pulled.txt";
const BEGINNING = "Step goes on by one step, Run to a stop to the first blank. Open… takes your own job; so does dropping its file here.";

const library = new Library(Uint8Array.from(atob(GIVEN.module), (character) => character.charCodeAt(0)));
const words = new Words(GIVEN.numbers), desk = new Desk(library, words), stops = new Stops();
const about = `Hitchbriar ${GIVEN.version}, ${GIVEN.proved ? "its module is proved" : "its module is NOT proved"}`;
const job = new Editor(at("job-editor"), "text of the job", () => load());
const patch = new Editor(at("patch-editor"), "text of the patch", () => assemble(), ".ORG 0080\nLOOP: SOB R0,LOOP");
const processor = new ProcessorView(desk, stops, show), board = new BoardView(desk, stops, show);
const controls = new ControlsView(desk, stops, showAtPc), { runner } = controls;
const recorder = new RecorderView(desk, about, show, (...work) => controls.repeat(...work)), trace = new TraceView(desk, show);

let safe = ""; // what was done, when it was last loaded, saved or brought back

const done = () => JSON.stringify([desk.steps, desk.log.entries.length, job.text, patch.text]);

function show() {
  processor.show(), board.show(), recorder.show();
  document.title = `${desk.name} · Hitchbriar desk`;
  showTexts();
}

function showAtPc() {
  processor.from = null;
  show();
}

// Whether what stands in the tabs Job and Patch is what the desk has; and which job that is, a sample or an own one.
function showTexts() {
  at("job-name").textContent = job.text === desk.text ? `${desk.name} is on the desk` : `not loaded yet: the desk has ${desk.name}`;
  at("put-back").hidden = job.text === desk.text;
  at("patch-name").textContent = patch.text.trim() === "" ? "" : patch.text === desk.patch ? "in the image. " : "not assembled yet. ";
  const isSample = job.text === GIVEN.samples[desk.name]?.[0];
  at("own-job").hidden = isSample;
  at("own-job").textContent = isSample ? "" : `${desk.name}${job.text === desk.text ? "" : ", text changed"}`;
  at("sample").value = isSample ? desk.name : "";
}

// ---- jobs and files

// Does what may be refused in words with a place; answers whether it was done.
function trying(editor, what, work) {
  try {
    work();
  } catch (why) {
    if (!(why instanceof TextError)) throw why;
    const where = why.inPatch ? patch : editor;
    tell(`${what}: ${why.place ? `line ${why.place.line}, column ${why.place.column}: ` : ""}${why.message}. Nothing was changed.`, true);
    if (where !== null) goToTab(where === patch ? "patch" : "job"), where.tell(why.message, why.place);
    return false;
  }
  return true;
}

function load(name = desk.name) {
  const other = name !== desk.name;
  if (!trying(job, name, () => desk.load(name, job.text, patch.text))) return showTexts();
  if (other) stops.forget(), recorder.limits = {};
  job.clear(), patch.clear(), trace.clear();
  if (desk.lines.length > 0) at("count").value = desk.lines.length; // Run then makes the whole job, as ./hitch run does
  safe = done();
  const what = `${name}${desk.job.patched === 0 ? "" : ` with its patch of ${counted(desk.job.patched, "word")}`} is loaded`;
  const locked = desk.mode === MODE.locked;
  const powered = locked ? ", and locked at power-up: the board can't fetch where it begins" : " and powered up";
  const scans = desk.scans.length === 0 ? "" : ` All scans, on the tab Recorder, makes its ${counted(desk.scans.length, "scan")}.`;
  tell(`${what}${powered}.${scans}`, locked);
  showAtPc();
}

// Loads another text and patch; answers whether that was done. Where it was not, the text stands in its tab with what is wrong, and the
// patch is the one that was there.
function loadOther(name, text, beside) {
  const kept = patch.text;
  job.text = text, patch.text = beside;
  load(name);
  if (desk.text === text && desk.name === name) return true;
  patch.text = kept;
  tell(`${at("told").textContent} The desk still has ${desk.name}.`, true);
  return false;
}

function sample(name) {
  if (loadOther(name, ...GIVEN.samples[name]) && desk.scans.length > 0) goToTab("recorder");
}

function assemble() {
  let told;
  if (!trying(patch, "The patch", () => { told = desk.assemble(patch.text); })) return;
  patch.clear();
  if (told.missing.length > 0)
    return tell(`Nothing is fitted at ${hex(told.missing[0])}, where the patch has a word: nothing was changed.`, true);
  tell(`${counted(told.count, "word")} of the patch put into the image. PC is where it was: Power up begins anew.`);
  show();
}

// What is opened: a job's text or bytes, a patch, a saved desk, or a trace of the job.
async function opened(file, isTrace = false) {
  if (runner.running) return tell("Stop the run first.", true);
  const read = await readFile(file, isTrace);
  if (read.wrong) return tell(read.wrong, true);
  if (read.kind === "trace") return trace.check(read.name, read.bytes), goToTab("trace");
  if (read.kind === "saved") return back(read);
  if (read.kind === "job" && isPatch(read.text)) return openedPatch(read);
  const text = read.kind === "job" ? read.text : textOfBytes(read);
  if (text === null) return;
  if (loadOther(read.name, text, "")) goToTab(desk.scans.length > 0 ? "recorder" : "job");
}

// A patch stands in its tab, and goes into the image of the job that is on the desk once it is assembled.
function openedPatch({ name, text }) {
  patch.text = text;
  goToTab("patch");
  if (trying(patch, name, () => patchOf(text, library, words)))
    tell(`${name} is a patch, and stands in the tab Patch: Assemble puts it into the image of ${desk.name}.`);
}

// A job's bytes are laid out by the library, beside the desk, and shown as text.
function textOfBytes({ name, bytes }) {
  const kept = desk.kept(), { why, lines } = bytes.length > library.job.length ? { why: 20 } : library.readJob(bytes);
  if (why !== 0) {
    tell(`${name} is no job: refused, ${words.refusal(why)}. Nothing was changed. A trace is opened on the tab Trace.`, true);
    return null;
  }
  const text = textOf(library.image, library.map, lines);
  desk.bring(kept);
  return text;
}

function back({ name, text }) {
  let kept;
  if (!trying(null, name, () => { kept = bringBack(desk, text, GIVEN); })) return;
  job.text = kept.open.job, patch.text = kept.open.patch;
  stops.set(kept.stops), recorder.limits = kept.limits;
  trace.clear(), goToTab(kept.open.tab);
  safe = done();
  const scans = desk.scans.length === 0 ? "" : ` and ${grouped(desk.scansMade)} of ${counted(desk.scans.length, "scan")}`;
  tell(`${name}: the desk is as it was saved, with ${desk.name} after ${counted(desk.steps, "step")}${scans}.`);
  showAtPc();
}

function saveJob() {
  let text;
  const cards = desk.hasItsCards() ? "" : " Cards that were pulled or plugged in by hand are not in it: its line pages is as it was.";
  if (trying(job, "The job", () => { text = joinedText(job.text, patch.text, [...library.settings], library, words); })) {
    download(desk.name.replace(/\.\w+$/, "") + (desk.scans.length > 0 ? ".scans" : ".txt"), text, "text/plain");
    tell(`The job is saved with its patch and its board, as one text.${cards}`);
  } else if (cards !== "") tell(`${at("told").textContent}${cards} Save desk for later keeps all of it.`, true);
}

function lunch() {
  const name = `${desk.name.replace(/\.\w+$/, "")}.desk.json`, open = { job: job.text, patch: patch.text, tab: tabNow() };
  download(name, savedText(desk, stops, recorder.limits, open, GIVEN), "application/json");
  tell(`The desk is saved as it stands, as ${name} among the downloads. Open… that file to go on.`);
  safe = done();
}

// ---- the page

function chooser(button, input, isTrace) {
  at(button).onclick = () => at(input).click();
  at(input).onchange = async () => {
    const file = at(input).files[0];
    if (file) await opened(file, isTrace);
    at(input).value = "";
  };
}

function start() {
  makeAlarm();
  at("about").textContent = about.replace("Hitchbriar ", "");
  at("about").className = GIVEN.proved ? "proved" : "unproved";
  at("samples").append(...Object.keys(GIVEN.samples).map((name) => new Option(name, name)));
  job.changed = patch.changed = showTexts;
  at("sample").onchange = () => (at("sample").value === "" ? showTexts() : sample(at("sample").value));
  chooser("open", "file", false), chooser("check", "trace-file", true);
  at("keys").onclick = () => at("help").showModal();
  at("put-back").onclick = () => (job.text = desk.text, tell(`The text of ${desk.name} is as the desk has it.`));
  at("load").onclick = () => load(), at("assemble").onclick = assemble, at("save-job").onclick = saveJob, at("lunch").onclick = lunch;
  makeKeys(makeTabs(), runner), makeDrop(opened), makeLeaving(() => done() !== safe);
  sample(FIRST in GIVEN.samples ? FIRST : Object.keys(GIVEN.samples)[0]);
  tell(`${at("told").textContent} ${BEGINNING}`);
}

start();
