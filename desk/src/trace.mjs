// Another shop's trace of a job, held by the library against the processor; its first wrong step beside ours.
import { BENCH_BOARD, REGISTERS, STATE, even, putWord, wordAt } from "./layout.mjs";

export const FIELDS = [...REGISTERS, "PS", "mode"], ENTRY = 2 * FIELDS.length;

// A desk for one purpose: the job from power-up on, on bench's board, and the desk as it was after it.
function onBench(desk, bytes, work) {
  const { library } = desk, kept = desk.kept();
  try {
    const { lines } = library.readJob(bytes);
    library.settings.set(BENCH_BOARD);
    library.powerUp();
    return work(lines);
  } finally {
    desk.bring(kept);
  }
}

function fieldsNow(library) {
  return [...REGISTERS.map((_, n) => wordAt(library.state, 2 * n)), library.statusWord(), library.state[STATE.mode]];
}

// The trace of the desk's job as the processor makes it: bytes, which the library's own check accepts, or null if it does not.
export function makeTrace(desk) {
  const { library, job: { bytes } } = desk;
  const made = onBench(desk, bytes, (lines) => {
    const trace = new Uint8Array(2 + ENTRY * lines.length);
    putWord(trace, 0, lines.length);
    lines.forEach((line, n) => {
      library.step(line);
      fieldsNow(library).forEach((field, k) => putWord(trace, 2 + ENTRY * n + 2 * k, field));
    });
    return trace;
  });
  const { why, found } = library.checkTrace(bytes, made);
  return why === 0 && found === 0 ? made : null;
}

// The fields of a trace after a step, or null where it has no such step.
export function fieldsOf(trace, step) {
  const at = 2 + ENTRY * step;
  return at + ENTRY > trace.length ? null : FIELDS.map((_, k) => wordAt(trace, at + 2 * k));
}

// What the library finds: { why } where it refuses, and else { found, step, field } with what both have before and after that step.
export function checkTrace(desk, trace) {
  const { library, job: { bytes } } = desk, verdict = library.checkTrace(bytes, trace);
  if (verdict.why !== 0 || verdict.found === 0) return { ...verdict, count: wordAt(trace, 0) };
  const ours = onBench(desk, bytes, (lines) => {
    const before = lines.slice(0, verdict.step);
    library.run(before);
    const from = fieldsNow(library), at = wordAt(library.state, STATE.pc), text = library.listLine(even(at)).text;
    if (verdict.step >= lines.length) return { from, at, text, after: null };
    library.step(lines[verdict.step]);
    return { from, at, text, after: fieldsNow(library), line: lines[verdict.step] };
  });
  return { ...verdict, count: wordAt(trace, 0), ours, theirs: fieldsOf(trace, verdict.step) };
}
