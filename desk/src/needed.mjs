// What is needed where the text of an op code is refused: what could stand there is tried, and the library says what it reads.
import { LABEL, isLabel } from "./text.mjs";

const ALIASES = [["BHIS ", "BCC "], ["BLO ", "BCS "], ["CALL ", "JSR PC,"], ["JMP ", "LEA PC,"]];
const FORMS = ["R1", "@R1", "(R1)+", "@(R1)+", "-(R1)", "@-(R1)", "1234(R1)", "@1234(R1)", "#1234", "@#1234"];
const HEX = [..."0123456789ABCDEF"];
const NUMBERS = [["a hex digit is", HEX], ["two hex digits are", HEX.flatMap((one) => HEX.map((two) => one + two))],
  ["four hex digits are", ["0000", "FFFF"]]];
const COMMENT = "a comment begins with ; or with # between blanks";

// The number, the column and what is needed, for the text of an op code that the assembler refuses.
export function diagnosed(library, text) {
  const { why, column, head } = furthest(library, text);
  return { why, column, words: needed(library, why, text, column, head) };
}

// The library's number and column, and its text before the operand that the column is in. It has no labels and aliases: each label
// stands as a branch's field or as a relative operand, whichever gets further.
function furthest(library, text) {
  const tries = ["00", "0000(PC)"].map((stands) => {
    const { plain, columns } = plainText(text, stands), { why, column } = library.readText(plain);
    const at = why === 0 ? plain.indexOf(" ") + 1 : column, head = plain.slice(0, operandAt(plain, at));
    if (why === 0) return { why: 30, column: Math.min(text.length, text.indexOf(" ") + 1), head };
    return { why, column: columns[column] ?? text.length, head };
  });
  return tries[1].column >= tries[0].column ? tries[1] : tries[0];
}

// The text with what stands for its labels and an alias's own name, and for each character the column in the text.
function plainText(text, stands) {
  let plain = "";
  const columns = [], add = (part, column) => { for (const character of part) plain += character, columns.push(column); };
  const alias = ALIASES.find(([name]) => text.startsWith(name));
  if (alias) add(alias[1], 0);
  const operands = new RegExp(`(?<=[ ,]@?)(${LABEL})(?=[ ,]|$)`, "g");
  let at = alias ? alias[0].length : 0;
  for (const found of text.matchAll(operands)) {
    if (!isLabel(found[1]) || ["SP", "PC"].includes(found[1]) || found.index < at) continue;
    for (; at < found.index; at++) add(text[at], at);
    add(stands, at);
    at += found[1].length;
  }
  for (; at < text.length; at++) add(text[at], at);
  return { plain, columns };
}

// Where the operand begins that a column is in.
function operandAt(text, column) {
  return Math.max(text.lastIndexOf(",", column - 1), text.lastIndexOf(" ", column - 1)) + 1;
}

function needed(library, why, text, column, head) {
  if (why === 9) return `${text.split(" ")[0]} is no mnemonic${/[a-z]/.test(text) ? "; letters are upper case" : ""}`;
  if (why === 31) return `the text is whole before this; ${COMMENT}`;
  const operand = text.slice(operandAt(text, column)).split(/[, ]/)[0];
  if (/^[0-9A-F]$/.test(operand) && takes(library, head, `0${operand}`)) return `two hex digits are needed: 0${operand}`;
  if (why === 32) return "the line ends too early: something is missing after it";
  const [, sign, digits, rest] = /^(@?#?)([0-9A-Fa-f]{0,8})(.*)$/.exec(operand);
  const four = `${sign}${digits.toUpperCase().slice(-4).padStart(4, "0")}${rest}`;
  if (four !== operand && (sign.endsWith("#") || digits !== "") && takes(library, head, four)) return `four hex digits are needed: ${four}`;
  if (/[a-z]/.test(text[column] ?? "")) return "letters are upper case";
  if (text[column] === " ") return "no blank stands here";
  return operandsAfter(library, head);
}

// What may stand after the beginning of a text.
function operandsAfter(library, head) {
  const label = ["", ",R1"].some((tail) => library.assemble([`X: ${head}X${tail}`]).why === 0) ? ["a label"] : [];
  for (const [words, all] of NUMBERS) {
    const good = all.filter((digits) => takes(library, head, digits));
    if (good.length > 0) return [`${words} needed, ${good[0]} to ${good.at(-1)}`, ...label].join(", or ");
  }
  const forms = FORMS.filter((form) => takes(library, head, form));
  if (forms.length === 0) return "nothing can stand here";
  if (forms.length === 1) return "a register is needed, R0 to R5, SP or PC";
  const all = [...forms, ...label];
  return `an operand is needed, ${all.slice(0, -1).join(", ")} or ${all.at(-1)}`;
}

// Whether the library reads a text's beginning with an operand after it, as the whole or up to the comma of another.
function takes(library, head, operand) {
  const text = head + operand;
  return library.readText(text).why === 0 || library.readText(`${text},`).column > text.length;
}
