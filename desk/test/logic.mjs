// The desk without its page, under node: node desk/test/logic.mjs MODULE
// Every sample of jobs/ against what stands beside it; refusals with their places; stops; steps taken back; files saved and read.
import assert from "node:assert";
import { execFileSync } from "node:child_process";
import { createHash } from "node:crypto";
import fs from "node:fs";
import { Desk } from "../src/desk.mjs";
import { NONE, TALLY, even, hex, wordAt } from "../src/layout.mjs";
import { Library } from "../src/library.mjs";
import { rowsAround, wayOf } from "../src/listing.mjs";
import { nextScan, reports, tableOf } from "../src/recorder.mjs";
import { TextError } from "../src/text.mjs";
import { Words } from "../src/words.mjs";
import { more } from "./logic_runs.mjs";
import { textChecks } from "./logic_texts.mjs";

process.chdir(new URL("../..", import.meta.url).pathname);
const asked = ["desk/build.py", "--module", process.argv[2], "--given"];
const given = JSON.parse(execFileSync("python3", asked, { maxBuffer: 1 << 24 }).toString());
const words = new Words(given.numbers), library = new Library(Buffer.from(given.module, "base64"));
const newDesk = () => new Desk(new Library(Buffer.from(given.module, "base64")), words);
const desk = new Desk(library, words);
let checks = 0;

function same(what, right, got) {
  assert.deepStrictEqual(got, right, what);
  checks++;
}

function load(name) {
  desk.load(name, ...given.samples[name]);
}

// bench's line: R0 to R5, SP, PC, PS, the mode, the blanks, the first one's place and its address.
function benchLine(tally) {
  const first = wordAt(tally, TALLY.first), none = first === NONE;
  return [...Array.from({ length: 8 }, (_, n) => hex(desk.register(n))), hex(library.statusWord()), desk.mode,
    hex(wordAt(tally, TALLY.blanks)), none ? "----" : hex(first), none ? "----" : hex(wordAt(tally, TALLY.address))].join(" ");
}

// All that a desk has, in short.
function snapshot(one = desk) {
  const { library: { state, image, map, settings, recorder } } = one;
  const digest = createHash("sha256").update(Buffer.concat([state, image, map, settings, recorder])).digest("hex");
  return `${digest} ${[one.steps, one.taken, one.scansMade, one.rows.length]}`;
}

function refusal(text, patch = "") {
  const before = snapshot();
  try {
    desk.load("x", text, patch);
  } catch (why) {
    if (!(why instanceof TextError)) throw why;
    same(`nothing is changed by ${text}`, before, snapshot());
    return `${why.inPatch ? "patch " : ""}${why.place ? `${why.place.line}:${why.place.column}+${why.place.width} ` : ""}${why.message}`;
  }
  return "taken";
}

// ---- every sample: its line, its listings, its table

function lines() {
  for (const name of Object.keys(given.samples).filter((one) => one.endsWith(".txt"))) {
    const right = fs.readFileSync(`jobs/${name.slice(0, -4)}.line`, "utf8").trim(), refused = /^REFUSED (\d+)/.exec(right);
    if (refused) {
      const told = refusal(...given.samples[name]).replace(/^\d+:\d+\+\d+ /, "");
      same(`${name} is refused`, `refused: ${words.refusal(Number(refused[1]))}`, told);
      continue;
    }
    load(name);
    same(`${name} runs`, 0, library.run(desk.lines));
    same(`${name}: line`, right, benchLine(library.tally));
  }
}

function listings() {
  for (const file of fs.readdirSync("jobs").filter((one) => one.endsWith(".list"))) {
    const [, name, first, last] = /^(.*)\.([0-9A-F]{4})-([0-9A-F]{4})\.list$/.exec(file);
    load(`${name}.txt`);
    let text = "";
    for (let at = parseInt(first, 16); at !== null;) {
      const line = library.listLine(at, parseInt(last, 16));
      text += [hex(at), ...line.words, line.text].join(" ") + "\n";
      at = line.next;
    }
    same(file, fs.readFileSync(`jobs/${file}`, "utf8"), text);
  }
}

function tables() {
  for (const name of Object.keys(given.samples).filter((one) => one.endsWith(".scans"))) {
    load(name);
    const told = [];
    for (let one; (one = nextScan(desk)) !== null;) told.push(one.words);
    const table = tableOf(reports(library)), right = fs.readFileSync(`jobs/${name.slice(0, -6)}.table`, "utf8");
    assert(right.includes(table), `${name}: table\n${table}`);
    checks++;
    for (const [, number, why] of right.matchAll(/^scan (\d+): .*refusal (\d+)/gm))
      same(`${name}: scan ${number}`, true, told.some((one) => one.startsWith(`Scan ${number} is refused`) && one.includes(`: ${why},`)));
  }
}

// ---- what is refused is told with its line and column, and changes nothing

function refusals() {
  load("card-pulled.txt");
  const cases = [
    ["pages 00\n0000 = zz", "2:8+2 'zz' is not a hex number, 0 to FFFF"],
    ["pages 00 05 05", `1:13+2 refused: ${words.refusal(13)}`],
    ["pages 00-FF 00", `1:13+2 refused: ${words.refusal(12)}`],
    ["pages 00\n0080 = 1\n0082 = 2\n\n0081 = 3", `5:8+1 refused: ${words.refusal(15)}`],
    ["pages 00\n0080 = 1 2 3\n  0082 = 4", `3:10+1 refused: ${words.refusal(16)}`],
    ["pages 00\n0000 = 1\n0100 = 1", `3:8+1 refused: ${words.refusal(17)}`],
    ["pages 00\nlines 0000 x5 0004 0000", `2:15+4 refused: ${words.refusal(19)}`],
    ["pages 00\nlines 0000 x4096 0000", `2:18+4 refused: ${words.refusal(18)}`],
    ["pages 00\nread-only 01", `2:11+2 refused: ${words.refusal(22)}`],
    ["pages 00\nbytes FF FF", `2:7+2 refused: ${words.refusal(12)}`],
    ["pages 00\nread-only 00\nbytes FF", `3:7+2 refused: ${words.refusal(20)}`],
    ["pages 00\ncut 1", `2:5+1 refused: ${words.refusal(11)}`],
    ["jumpers up 1 halt 4", `1:19+1 refused: ${words.refusal(35)}`],
    ["pages 00\nexternal 40", `2:10+2 refused: ${words.refusal(35)}`],
    ["microm maybe", "1:8+5 microm yes, or microm no"],
    ["external 1\nexternal 2", "2:10+1 this setting of the board is given twice"],
    ["pages 00\nscan 1 2 3", "2:10+1 a scan has 16 channels; here are 3"],
    ["pages 00\nscan 1 2 3 4 5 6 7 8 9 10 11 12 13 14 15 1x",
      "2:42+2 '1x' is no reading and not --: tenths of a degree are needed, as -37"],
    ["pages 00\n0016 = AWAY", "2:8+4 no line gives the label AWAY"],
    ["pages 00\n0080 = 1\n.ORG 0080\nNOP", "2:8+1 an assembler line has a word at 0080 too"],
    ["pages 00\n.ORG 0080\nSTART: MOV #5,R1", "3:14+1 24 (30): four hex digits are needed: #0005"],
    ["pages 00\n.ORG 0080\n  foo R1", "3:3+1 24 (9): foo is no mnemonic; letters are upper case"],
    ["pages 00\nBR HERE x", "2:8+1 24 (31): the text is whole before this; a comment begins with ; or with # between blanks"],
    ["pages 00\n.ORG 80", "2:6+2 24: four hex digits are needed: .ORG 0080"],
    ["pages 00\n\tLOOP: NOP\nLOOP: NOP", "3:1+4 25: the label LOOP is already given in line 2"],
    ["pages 00\nBR  AWAY ; away", "2:5+4 26: no line gives the label AWAY"],
    ["pages 00\n.ORG 0000\nA: NOP\n.ORG 0001\nNOP", `3:1+2 24: a label is one to six capitals, no hex number, not SP or PC`],
    ["pages 00\nTOP: NOP\n.ORG 0081\nNOP", `3:1+9 28: ${words.of("refusal", 28)}`],
    ["pages 00\nSOB R1,FAR\n.ORG 0090\nFAR: NOP",
      "2:8+3 27: out of reach: a branch goes 128 words back to 127 ahead, SOB 0 to 63 back: FAR"],
    ["pages 00\nMOV R0,R1 but this line is a lot too long", "2:33+9 a line has 32 characters at most without its comment; here are 41"],
    ["\n\n# nothing", "no line of the text says anything"],
    ["pages 00\u0000", "1:9+1 no text: a byte is 00"],
  ];
  for (const [text, right] of cases) same(JSON.stringify(text), right, refusal(text));
  same("of a patch", "patch 2:4+4 26: no line gives the label AWAY", refusal("pages 00", "NOP\nBR AWAY"));
  const all = ["\uFEFFpages 00 10-12\r", "read-only 12\r0016 = START # up", "microm no", "jumpers halt 2", ".ORG 0080",
    " START:\tBR  START ; ever", "T: .WORD START", "lines 0000 x3"].join("\n");
  same("one with all kinds of lines", "taken", refusal(all));
  same("its labels", [["START", 0x80], ["T", 0x82]], [...desk.labels]);
  same("its words", ["0080", "01FF", "0080"], [0x16, 0x80, 0x82].map((at) => hex(wordAt(library.image, at))));
  same("its board", [0, 3, 2, 0], [...library.settings]);
  same("its PS", "0B00", hex(library.statusWord()));
}

// ---- the listing around PC, and where a branch goes

function listingAround() {
  load("card-pulled.txt");
  for (let n = 0; n < 3; n++) desk.step();
  const rows = rowsAround(desk, null, 12), now = rows.findIndex((row) => row.address === even(desk.pc));
  same("PC is a line", true, now > 0);
  load("sob.txt");
  const sob = rowsAround(desk, 0x80, 6).find((row) => row.text.startsWith("SOB"));
  same("SOB goes to its label", 0x84, wayOf(desk, sob).target);
  const all = rowsAround(desk, 0x80, 6);
  same("labels stand at their lines", ["START", "AGAIN"], [all[0].label, all[1].label]);
  desk.load("w", "pages 00\n0016 = 0080\n.ORG 0080\nAGAIN: WFI\nBR AGAIN");
  desk.step();
  same("a branch's way while the processor waits", 0x80, wayOf(desk, rowsAround(desk, 0x82, 1)[0]).target);
  desk.load("w", "pages 00\n0016 = 0080\n.ORG 0080\nMOV #1234,R2");
  desk.setRegister(7, 0x82);
  const [cut, here] = rowsAround(desk, null, 9);
  same("PC in the midst of an op code", [".WORD B5C2", 0x82], [cut.text, here.address]);
  load("sob.txt"), desk.assemble(".ORG 0088\nSOB R1,04");
  const way = () => wayOf(desk, rowsAround(desk, 0x88, 1)[0]).words;
  same("into an op code", "→ 0082, inside the op code at 0080", way());
  for (let n = 0; n < 5; n++) desk.step();
  same("and still, once a step began there", "→ 0082, inside the op code at 0080", way());
  same("where a step went", ["R1=0004 PC=0082", "R2=0001"], desk.log.entries.slice(-3, -1).map((one) => one.changes).reverse());
  desk.assemble(".ORG 0080\nNOP\nNOP");
  same("at an op code of a patch", "→ 0082", way());
  load("card-pulled.txt");
  for (let n = 0; n < 3; n++) desk.step();
  same("the line that met the blank", 0x86, desk.badAt);
  desk.step(), same("is not marked after the next step", null, desk.badAt);
  load("sob.txt");
  rowsAround(desk, null, 9).forEach((row) => wayOf(desk, row));
  same("nothing is changed by looking", true, desk.history.parts.at(-1).steps === 0 && desk.steps === 0);
}

async function main() {
  lines(), listings(), tables(), refusals(), listingAround();
  checks += await more({ given, words, newDesk, snapshot });
  checks += textChecks({ given, words, newDesk });
  console.log(`${checks} checks, all right`);
}

await main();
