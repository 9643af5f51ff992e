// What c/hitchbriar.h says of buffers: their sizes, the places of their fields, the numbers in them. And numbers in hex.

export const SIZES = {
  state: 24, tally: 6, stopped: 8, image: 65536, map: 256, settings: 4, lines: 8192, text: 52, answer: 6, words: 6,
  source: 32768, section: 12290, labels: 4096, cards: 16, readings: 32, recorder: 194, channel: 1, report: 12, verdict: 6,
  job: 655360, trace: 1310702, trialState: 24, trialImage: 65536, trialMap: 256, trialSettings: 4,
};

export const STATE = { sp: 12, pc: 14, indicators: 16, i2: 17, mode: 18, cause: 19, mark: 20, tells: 21, address: 22 };
export const TALLY = { blanks: 0, first: 2, address: 4, steps: 6 };
export const SETTINGS = { microm: 0, up: 1, halt: 2, external: 3 };
export const REPORT = { readings: 0, blanks: 2, lowest: 4, highest: 6, sum: 8 };
export const VERDICT = { found: 0, step: 2, field: 4 };

export const MODE = { running: 0, waiting: 1, powerFail: 2, switch: 3, locked: 4, saved: 5 };
export const CAUSE = { opCode: 0, i3: 1, i1: 2, i0: 3, nothing: 4, blankOpCode: 5, blankInterrupt: 6, lock: 8, blankSave: 9 };
export const PAGE = { unfitted: 0, fitted: 1, readOnly: 2 };
export const UNTIL = { interrupt: 1, blank: 2, lock: 4, switch: 8 };
export const LINE = { i0: 1, i1: 2, i3: 8, powerFail: 128, device: 256 };

export const REGISTERS = ["R0", "R1", "R2", "R3", "R4", "R5", "SP", "PC"];
export const INDICATORS = [["N", 8], ["Z", 4], ["V", 2], ["C", 1]];
export const MOST_LINES = 4096, MOST_SCANS = 4096, CHANNELS = 16, NONE = 0xFFFF, LAST_WORD = 0xFFFE;
export const SOURCE_LINE = 32, MOST_SOURCE_LINES = 1024;
export const BENCH_BOARD = [1, 3, 3, 0]; // the third microm, the jumpers 11 and 11, the External Address Register 0

export function hex(number, digits = 4) {
  return number.toString(16).toUpperCase().padStart(digits, "0");
}

export function wordAt(bytes, at) {
  return bytes[at] + 256 * bytes[at + 1];
}

export function putWord(bytes, at, word) {
  bytes[at] = word;
  bytes[at + 1] = word >> 8;
}

export const pageOf = (address) => address >> 8;
export const even = (address) => address & LAST_WORD;
