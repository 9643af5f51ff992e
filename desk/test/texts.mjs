// What the desk makes of texts, for texts.py: a text as JSON a line on standard input, what is made of it as JSON a line.
import fs from "node:fs";
import { readLines } from "../src/jobtext.mjs";
import { wholeBytes } from "../src/job.mjs";
import { Source } from "../src/source.mjs";
import { TextError } from "../src/text.mjs";

const NO_CARD = 0x8000;

function told(text) {
  try {
    const job = readLines(text), source = new Source(job.source).lines.map((line) => [line.text, line.line, line.columns]);
    const bytes = job.words.some((one) => one.label !== undefined) ? "labels" : Buffer.from(wholeBytes(job, job)).toString("hex");
    const scans = job.scans.map(({ channels, lines }) => [channels.map((value) => (value === null ? NO_CARD : value & 0xFFFF)), lines]);
    return { bytes, source, board: job.board, scans };
  } catch (why) {
    if (!(why instanceof TextError)) throw why;
    return { error: why.message, place: why.place && [why.place.line, why.place.column, why.place.width] };
  }
}

for (const line of fs.readFileSync(0, "utf8").split("\n")) console.log(JSON.stringify(told(JSON.parse(line))));
