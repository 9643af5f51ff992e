// How a run ended, in words.
import { MODE, hex } from "./layout.mjs";
import { counted, grouped } from "./words.mjs";

// Of what Runner.run answers, and of where its last step began, or null: the words, and whether they are bad.
export function howEnded(desk, end, last) {
  const { words, library: { map } } = desk, steps = counted(end.steps, "step"), step = grouped(desk.steps - 1);
  const blank = () => words.blank(desk.told ?? end.first.address, map), locked = desk.mode === MODE.locked;
  switch (end.how) {
    case "refused": return [`The run is refused: ${words.refusal(end.at)}.`, true];
    case "blank": return [`Step ${step}, ${last === null ? "" : `${last.text} at ${hex(last.at)} met a blank: `}${blank()}.`, true];
    case "lock": return [`The processor is locked up${desk.told === null ? "" : `: ${blank()}`}. Only Power up helps.`, true];
    case "interrupt": return [`${words.cause(desk.cause)} was taken in step ${step}.`, false];
    case "switch": return [`The halt option was taken in step ${step}.`, false];
    case "address": return [`Stopped at ${hex(end.at)} after ${steps}.`, false];
    case "write": return [`Stopped after ${steps}: ${hex(end.at)} was written by ${last.text} at ${hex(last.at)}.`, false];
    case "waits": return [`After ${steps} the processor is ${words.mode(desk.mode)}. Set a line switch, then run on.`, false];
    case "asked": return [`Stopped after ${steps}; ${blanksIn(end)}.`, end.blanks > 0];
    default: return [`${steps} made; ${blanksIn(end)}${locked ? "; the processor is locked up" : ""}.`, end.blanks > 0 || locked];
  }
}

function blanksIn({ blanks, first }) {
  if (blanks === 0) return "no step met a blank";
  return `${counted(blanks, "step")} met a blank, the first was step ${grouped(first.step)}, at ${hex(first.address)}`;
}
