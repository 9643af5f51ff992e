// Where a run is to stop: a cause, an address, a write to an address.
import { PAGE, SIZES, STATE, UNTIL, even, pageOf, putWord, wordAt } from "./layout.mjs";

export class Stops {
  constructor() {
    this.causes = new Set(["blank", "lock"]);
    this.addresses = new Set();
    this.writes = new Set();
  }

  // The bits that the library's run takes.
  until() {
    return [...this.causes].reduce((bits, name) => bits | UNTIL[name], 0);
  }

  // Whether each step has to be looked at.
  singly() {
    return this.addresses.size > 0 || this.writes.size > 0;
  }

  // Leaves the addresses, which are another job's.
  forget() {
    this.addresses.clear(), this.writes.clear();
  }

  toJSON() {
    return { causes: [...this.causes], addresses: [...this.addresses], writes: [...this.writes] };
  }

  set({ causes, addresses, writes }) {
    this.causes = new Set(causes.filter((name) => name in UNTIL));
    this.addresses = new Set(addresses.map(even));
    this.writes = new Set(writes.map(even));
  }
}

// The watched address that a step over a line word wrote, or null; asked once the step is made, with the state and the image before.
// The library tells no writes. So the step is made again beside the desk with the watched pages read-only: where it ends the same, it
// wrote none of them. Where not, the address is the one that this step tells, or one whose word is changed, or one whose word,
// turned round before the step, was written over.
export function writtenBy(library, before, line, watched) {
  const pages = new Set([...watched].map(pageOf));
  library.trialMap.set(library.map);
  for (const page of pages) if (library.map[page] === PAGE.fitted) library.trialMap[page] = PAGE.readOnly;
  stepBeside(library, before, line, "trialMap");
  const told = library.trialState[STATE.tells] === 1 ? even(wordAt(library.trialState, STATE.address)) : null;
  if (library.trialState.every((byte, n) => byte === library.state[n])) return null;
  for (const address of watched) {
    if (address === told || wordAt(before.image, address) !== wordAt(library.image, address)) return address;
    const turned = wordAt(before.image, address) ^ 0xFFFF;
    stepBeside(library, before, line, "map", () => putWord(library.trialImage, address, turned));
    if (wordAt(library.trialImage, address) !== turned) return address;
  }
  return null;
}

function stepBeside(library, before, line, map, change = () => {}) {
  library.trialState.set(before.state);
  library.trialImage.set(before.image);
  change();
  library.calls.wd16_step(...library.lent("trialState", "trialImage", map, "settings"), line);
}

export const MOST_ADDRESS = SIZES.image - 2;
