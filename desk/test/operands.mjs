// What the desk tells of wrong op codes, for operands.py: an op code a line on standard input; as JSON a line its number, column and
// words, or null where the assembler takes it or its labels alone are wrong.
import fs from "node:fs";
import { Library } from "../src/library.mjs";
import { diagnosed } from "../src/needed.mjs";

const library = new Library(fs.readFileSync(process.argv[2])), NO_TEXT = 24;

for (const line of fs.readFileSync(0, "utf8").split("\n")) {
  const { why, column, words } = diagnosed(library, line);
  console.log(JSON.stringify(library.assemble([line]).why === NO_TEXT ? [why, column, words] : null));
}
