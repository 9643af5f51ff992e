// The part of logic.mjs with texts: a job and its patch as one text, patches, places of what is refused, texts that are long.
import assert from "node:assert";
import fs from "node:fs";
import { isPatch, jobOf, textOf } from "../src/job.mjs";
import { joinedText } from "../src/patching.mjs";
import { TextError } from "../src/text.mjs";

const LONG = 1 << 20, SECONDS = 8; // characters of a long text, and how long reading it may take on a busy machine

export function textChecks({ given, words, newDesk }) {
  let checks = 0;
  const desk = newDesk(), load = (name) => desk.load(name, ...given.samples[name]);
  const same = (what, right, got) => (assert.deepStrictEqual(got, right, what), checks++);
  const at = (place) => (place ? `${place.line}:${place.column}+${place.width} ` : "");
  const told = ({ place, message, inPatch }) => `${inPatch ? "patch " : ""}${at(place)}${message}`;
  const thrown = (work) => {
    try {
      work();
    } catch (why) {
      if (why instanceof TextError) return told(why);
      throw why;
    }
    return "taken";
  };
  const read = (job, beside = "") => jobOf(job, beside, desk.library, words);

  // A job with its patch and its board is one text, and reads to the same job; a job's bytes give a text that reads to them.
  function texts() {
    const text = ["pages 00", "0012 = 0090 0080 0080 # vectors", ".ORG 0080", "START: MOV #0005,R1", "AGAIN: ADD R1,R0", "INC R2",
      "SOB R1,AGAIN", "DONE: BR DONE", "lines 0000 x17", ""].join("\n");
    const patch = "ST: .ORG 0014\n.WORD 1234\n.ORG 0082\n.WORD 0009\n.ORG 0088\nNOP", board = [0, 1, 2, 0x2F];
    const joined = (job, beside, on) => joinedText(job, beside, on, desk.library, words);
    const inHex = ({ bytes }) => Buffer.from(bytes).toString("hex"), again = read(joined(text, patch, board));
    same("one text", inHex(read(text, patch)), inHex(again));
    same("its board", board, again.board);
    same("its labels", 0x84, again.labels.get("AGAIN"));
    const twice = ".ORG 00A0\nDONE: BR DONE\nAGAIN: BR AGAIN";
    same("labels that both give", inHex(read(text, twice)), inHex(read(joined(text, twice, [1, 3, 3, 0]))));
    const never = thrown(() => joined("pages 00\nMOV: BR MOV", ".ORG 00A0\nMOV: MOV R0,R1", [1, 3, 3, 0]));
    same("what doesn't go into one", "the job and its patch don't go into one text", never.slice(0, 44));
    for (const name of Object.keys(given.samples).filter((one) => !one.startsWith("refused"))) {
      load(name);
      const made = textOf(desk.library.image, desk.library.map, desk.lines);
      const kept = { image: desk.library.image.slice(), map: desk.library.map.slice(), lines: desk.lines };
      desk.load("again", made);
      same(`${name}: image from its bytes`, kept.image, desk.library.image.slice());
      same(`${name}: map and lines from its bytes`, [kept.map, kept.lines], [desk.library.map.slice(), desk.lines]);
      const right = read(...given.samples[name]), [job, beside] = given.samples[name];
      same(`${name} saved`, inHex(right), inHex(read(joined(job, beside, right.board))));
    }
  }

  // What is needed at an operand is what the library reads there.
  function operands() {
    const general = "an operand is needed, R1, @R1, (R1)+, @(R1)+, -(R1), @-(R1), 1234(R1), @1234(R1), #1234, @#1234 or a label";
    const cases = [
      ["SOB R1,4", "8+1 24 (30): two hex digits are needed: 04"],
      ["SOB R1,40", "8+1 24 (30): two hex digits are needed, 00 to 3F, or a label"],
      ["BR 4", "5+1 24 (32): two hex digits are needed: 04"],
      ["BR #4", "4+1 24 (30): two hex digits are needed, 00 to FF, or a label"],
      ["MOV @7(R1),R0", "7+1 24 (30): four hex digits are needed: @0007(R1)"],
      ["BR #0004", "4+1 24 (30): two hex digits are needed, 00 to FF, or a label"],
      ["ADDI 11,R1", "7+1 24 (30): two hex digits are needed, 01 to 10"],
      ["LCC R1", "5+1 24 (30): a hex digit is needed, 0 to F"],
      ["SAVS #1234", "6+1 24 (30): four hex digits are needed, 0000 to FFFF"],
      ["IAK R9", "6+1 24 (30): a register is needed, R0 to R5, SP or PC"],
      ["MOV R1,R9", `9+1 24 (30): ${general}`],
      ["MOV R9,R1", `6+1 24 (30): ${general}`],
      ["JMP R1", `5+1 24 (30): ${general.replace(" R1,", "")}`],
      ["MOV AWAY,R9", `11+1 24 (30): ${general}`],
    ];
    for (const [text, right] of cases) same(text, `2:${right}`, thrown(() => read(`pages 00\n${text}\n`)));
  }

  // A word of an assembler's line that the job's reader refuses is told at its line, in the text or in the patch.
  function places() {
    const why = `refused: ${words.refusal(17)}`;
    same("a line of the text", `4:7+3 ${why}: 1002`, thrown(() => read("pages 00\n.ORG 1000\n.ORG 1002\nHERE: NOP\n.ORG 2000\nNOP")));
    same("a line of the patch", `patch 3:1+9 ${why}: 4000`, thrown(() => read("pages 00", "NOP\n.ORG 4000\nMOV R0,R1")));
    const both = thrown(() => read("pages 00\n4000 = 1", ".ORG 4000\nNOP"));
    same("a word that the patch takes the place of", `patch 2:1+3 ${why}: 4000`, both);
  }

  function patches() {
    const files = fs.readdirSync("jobs").filter((one) => one.endsWith(".asm"));
    same("there are patches", true, files.length > 0);
    for (const name of files) same(`${name} is a patch`, true, isPatch(fs.readFileSync(`jobs/${name}`, "utf8")));
    for (const [name, [text]] of Object.entries(given.samples)) same(`${name} is no patch`, false, isPatch(text));
    same("others", [false, false, true], ["", "; nothing", "START: foo"].map(isPatch));
  }

  // Texts that are as long as the page takes them, each read or refused in seconds.
  function longTexts() {
    const lines = ["0080 = 1", "lines 0000", "pages 00", ";", "NOP", "bytes FF", "cut 1", `scan${" 1".repeat(16)} lines 0000 x4096`];
    for (const line of lines) {
      const begun = performance.now(), told = thrown(() => read(`pages 00\n${`${line}\n`.repeat(LONG / (line.length + 1))}`));
      const took = performance.now() - begun;
      assert(took < SECONDS * 1000, `${line} again and again: ${told.slice(0, 80)} took ${took} ms`);
      checks++;
    }
  }

  // No module is long, and none needs anything but the others.
  function modules() {
    for (const file of fs.readdirSync("desk/src")) {
      const text = fs.readFileSync(`desk/src/${file}`, "utf8");
      same(`${file} has 300 lines at most`, true, text.split("\n").length <= 300);
      const imported = Array.from(text.matchAll(/^import .* from "(.*)";$/gm), (found) => found[1]);
      same(`${file} imports its neighbours`, [], imported.filter((one) => !/^\.\/\w+\.mjs$/.test(one)));
    }
  }

  modules(), texts(), operands(), places(), patches(), longTexts();
  return checks;
}
