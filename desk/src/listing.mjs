// The listing's lines around an address, and where an op code goes from there: all of it asked of the library.
import { LAST_WORD, MODE, STATE, even, hex, putWord, wordAt } from "./layout.mjs";

const MOST_BEFORE = 24; // bytes
const BRANCH = /^(B[A-Z]{1,3} [0-9A-F]{2}|SOB (R[0-5]|SP|PC),[0-9A-F]{2})$/;

// Lines from an address on, or around PC where it is null: those before PC begin at an address where an op code is known to begin,
// and end before PC, so that PC is always a line.
export function rowsAround(desk, from, count) {
  const here = even(desk.pc), rows = [], before = Math.floor(count * 2 / 5);
  if (from === null) {
    const start = knownBefore(desk, here);
    if (start !== null) for (let at = start; at !== null;) at = add(desk, rows, at, here - 2);
    rows.splice(0, Math.max(0, rows.length - before));
  }
  for (let at = from ?? here; at !== null && rows.length < count;) at = add(desk, rows, at, LAST_WORD);
  return rows;
}

// The lowest address not far below at which an op code is known to begin: where a line of the text or a step began.
function knownBefore(desk, here) {
  for (let at = Math.max(0, here - MOST_BEFORE); at < here; at += 2) if (desk.starts.has(at)) return at;
  return null;
}

function add(desk, rows, at, last) {
  const line = desk.library.listLine(at, last);
  rows.push({ ...line, label: labelAt(desk, at) });
  return line.next;
}

function labelAt(desk, address) {
  for (const [label, value] of desk.labels) if (value === address) return label;
  return "";
}

// Where a branch or SOB goes: its target, as the processor itself goes there with some indicators or count; null for other lines.
// With that it is told whether it would go there now.
export function wayOf(desk, row) {
  const { library } = desk;
  if (!BRANCH.test(row.text)) return null;
  const next = row.address + 2 & 0xFFFF, goes = (state) => {
    library.trialState.set(state);
    library.trialState[STATE.mode] = MODE.running;
    putWord(library.trialState, STATE.pc, row.address);
    return library.trialStep(0, "image", "map") === 0 ? wordAt(library.trialState, STATE.pc) : next;
  };
  const now = goes(library.state), tried = library.state.slice();
  let target = now;
  for (let indicators = 0; indicators < 16 && target === next; indicators++) {
    tried[STATE.indicators] = indicators;
    for (let n = 0; n < 7; n++) putWord(tried, 2 * n, 2);
    target = goes(tried);
  }
  const label = labelAt(desk, target), within = opCodeAround(desk, target), taken = now === target ? ", taken now" : ", not taken now";
  const where = within !== null ? `, inside the op code at ${hex(within)}` : label === "" ? "" : ` ${label}`;
  return { target, now, bad: within !== null, words: `→ ${hex(target)}${where}${row.address === even(desk.pc) ? taken : ""}` };
}

// Where the op code begins that an address is a later word of, by the lines of the text and of the patch; null where it is of none.
export function opCodeAround(desk, address) {
  const covers = (at) => desk.written.has(at) && 2 * desk.library.listLine(at).words.length > address - at;
  return desk.written.has(address) ? null : [address - 2, address - 4].find(covers) ?? null;
}
