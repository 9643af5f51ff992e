// What numbers mean in words: the table of c/numbers.tsv, and sentences of it.
import { CAUSE, PAGE, hex, pageOf } from "./layout.mjs";

export class Words {
  // Rows of kind, number, words.
  constructor(rows) {
    this.table = new Map(rows.map(([kind, number, words]) => [`${kind} ${number}`, words]));
  }

  of(kind, number) {
    return this.table.get(`${kind} ${number}`) ?? "a number without words";
  }

  // "17, a word's page is not fitted"
  refusal(number) {
    return `${number}, ${this.of("refusal", number)}`;
  }

  cause(number) {
    return this.of("cause", number);
  }

  mode(number) {
    return this.of("mode", number);
  }

  // Why an address was a blank.
  blank(address, map) {
    const page = `page ${hex(pageOf(address), 2)}`;
    if (map[pageOf(address)] === PAGE.readOnly) return `${hex(address)} can't be written, ${page} is read-only`;
    return `nothing is fitted at ${hex(address)}, ${page}`;
  }
}

export const isBlank = (cause) => cause === CAUSE.blankOpCode || cause === CAUSE.blankInterrupt || cause === CAUSE.blankSave;

// 1,000,000
export function grouped(number) {
  return String(number).replace(/\B(?=(\d{3})+$)/g, ",");
}

export function counted(number, one, many = `${one}s`) {
  return `${grouped(number)} ${number === 1 ? one : many}`;
}
