// The board: the rack of 256 pages, the memory, the jumpers, and the stops.
import { PAGE, SETTINGS, STATE, UNTIL, even, hex, pageOf, wordAt } from "./layout.mjs";
import { at, hexFrom, made, tell } from "./elements.mjs";

const MOVES = { ArrowRight: 1, ArrowLeft: -1, ArrowDown: 16, ArrowUp: -16 };
const ROWS = 16, WORDS = 8;

export class BoardView {
  constructor(desk, stops, refresh) {
    this.desk = desk, this.stops = stops, this.refresh = refresh, this.from = 0;
    this.makeRack(), this.makeMemory(), this.makeSettings(), this.makeStops();
  }

  // ---- the rack

  makeRack() {
    const rack = at("rack"), head = (textContent) => made("span", { textContent, "aria-hidden": "true" });
    rack.append(head(""), ...Array.from({ length: 16 }, (_, n) => head(`·${hex(n, 1)}`)));
    this.pages = Array.from({ length: 256 }, (_, page) => {
      if (page % 16 === 0) rack.append(head(`${hex(page >> 4, 1)}·`));
      const button = made("button", { id: `page-${hex(page, 2)}`, tabIndex: page === 0 ? 0 : -1, onclick: () => this.clickPage(page) });
      button.onkeydown = (event) => this.moved(event, page);
      rack.append(button);
      return button;
    });
  }

  moved(event, page) {
    if (!(event.key in MOVES)) return;
    event.preventDefault();
    const next = page + MOVES[event.key] & 0xFF;
    this.pages[page].tabIndex = -1, this.pages[next].tabIndex = 0;
    this.pages[next].focus();
  }

  clickPage(page) {
    const { desk } = this;
    if (at("click").value === "pull") desk.pull(page);
    else if (!desk.protect(page)) return tell(`Page ${hex(page, 2)} is not fitted: plug it in first.`, true);
    tell(`Page ${hex(page, 2)}: ${desk.words.of("page", desk.library.map[page])}.`);
    this.refresh();
  }

  showRack() {
    const { desk } = this;
    if (desk.hit !== null && !at("rack").contains(document.activeElement)) // who comes to the rack by keys comes to the blank
      this.pages.forEach((button, page) => { button.tabIndex = page === desk.hit ? 0 : -1; });
    this.pages.forEach((button, page) => {
      const kind = desk.library.map[page], hit = page === desk.hit;
      button.className = `${["", "fitted", "rom"][kind]}${hit ? " hit" : ""}`;
      const words = `page ${hex(page, 2)}: ${desk.words.of("page", kind)}${hit ? ", the last blank was here" : ""}`;
      button.title = words;
      button.setAttribute("aria-label", words);
    });
  }

  // ---- the memory

  makeMemory() {
    this.perRow = matchMedia("(max-width: 820px)").matches ? WORDS / 2 : WORDS, this.words = [], this.heads = [];
    for (let row = 0; row < ROWS; row++) {
      this.heads.push(made("span"));
      at("memory").append(this.heads.at(-1));
      for (let n = 0; n < this.perRow; n++) at("memory").append(this.wordCell());
    }
    const go = () => {
      const address = hexFrom(at("memory-from"));
      if (address !== null) this.showFrom(address);
    };
    at("memory-show").onclick = go;
    at("memory-from").onkeydown = (event) => { if (event.key === "Enter") go(); };
    at("memory-up").onclick = () => this.showFrom(this.from - 0x100);
    at("memory-down").onclick = () => this.showFrom(this.from + 0x100);
    at("memory-sp").onclick = () => this.showFrom(wordAt(this.desk.library.state, STATE.sp) & 0xFFF0);
  }

  wordCell() {
    const cell = made("input", { maxLength: 4 });
    cell.onchange = () => {
      const address = parseInt(cell.dataset.at, 16), word = hexFrom(cell, 0xFFFF, "a word");
      if (word === null) return;
      this.desk.poke(address, word);
      tell(`${hex(address)} is ${hex(word)} now.`);
      this.refresh();
    };
    this.words.push(cell);
    return cell;
  }

  showFrom(address) {
    this.from = even(address & 0xFFFF);
    at("memory-from").value = hex(this.from);
    this.showMemory();
  }

  showMemory() {
    const { library } = this.desk, changed = new Set(this.desk.changed());
    this.words.forEach((cell, n) => {
      const address = this.from + 2 * n & 0xFFFF, fitted = library.map[pageOf(address)] !== PAGE.unfitted;
      cell.dataset.at = hex(address);
      cell.id = `word-${hex(address)}`;
      cell.disabled = !fitted;
      cell.value = fitted ? hex(wordAt(library.image, address)) : "----";
      cell.className = fitted && changed.has(address) ? "changed" : "";
      cell.setAttribute("aria-label", `word at ${hex(address)}${changed.has(address) ? ", changed" : ""}`);
    });
    this.heads.forEach((head, row) => { head.textContent = hex(this.from + 2 * this.perRow * row & 0xFFFF); });
  }

  // ---- the settings

  makeSettings() {
    const { desk } = this, options = (kind) => [3, 2, 1, 0].map((n) => new Option(`${n >> 1}${n & 1}: ${desk.words.of(kind, n)}`, n));
    at("up").append(...options("up_option"));
    at("halt").append(...options("halt_option"));
    const set = (setting, value, why) => {
      desk.setBoard(setting, value, why);
      tell(`${why[0].toUpperCase()}${why.slice(1)}. Power up to begin with it.`);
      this.refresh();
    };
    at("up").onchange = () => set(SETTINGS.up, Number(at("up").value), `power-up jumpers set to ${at("up").value}`);
    at("halt").onchange = () => set(SETTINGS.halt, Number(at("halt").value), `halt jumpers set to ${at("halt").value}`);
    at("microm").onchange = () => {
      const fitted = at("microm").checked;
      set(SETTINGS.microm, fitted ? 1 : 0, `third microm ${fitted ? "fitted" : "taken out"}`);
    };
    at("external").onchange = () => {
      const value = hexFrom(at("external"), 0x3F, "an External Address Register");
      if (value !== null) set(SETTINGS.external, value, `External Address Register set to ${hex(value, 2)}`);
    };
  }

  showSettings() {
    const { settings } = this.desk.library;
    at("up").value = settings[SETTINGS.up], at("halt").value = settings[SETTINGS.halt];
    at("microm").checked = settings[SETTINGS.microm] === 1, at("external").value = hex(settings[SETTINGS.external], 2);
  }

  // ---- the stops

  makeStops() {
    const { stops } = this, add = (id, set) => () => {
      const address = hexFrom(at(id));
      if (address === null) return;
      set().add(even(address));
      at(id).value = "";
      this.refresh();
    };
    at("add-address").onclick = add("stop-address", () => stops.addresses);
    at("add-write").onclick = add("stop-write", () => stops.writes);
    for (const [id, button] of [["stop-address", "add-address"], ["stop-write", "add-write"]])
      at(id).onkeydown = (event) => { if (event.key === "Enter") at(button).click(); };
    at("clear-stops").onclick = () => (stops.forget(), this.refresh());
    for (const name of Object.keys(UNTIL))
      at(`at-${name}`).onchange = () => (at(`at-${name}`).checked ? stops.causes.add(name) : stops.causes.delete(name));
  }

  showStops() {
    const { stops } = this, one = (set, address, words) => {
      const remove = () => (set.delete(address), this.refresh()), text = `${words} ${hex(address)}`;
      return made("li", {}, text, made("button", { textContent: "✕", "aria-label": `remove ${text}`, onclick: remove }));
    };
    at("stops").replaceChildren(...[...stops.addresses].map((address) => one(stops.addresses, address, "at")),
      ...[...stops.writes].map((address) => one(stops.writes, address, "at a write to")));
    for (const name of Object.keys(UNTIL)) at(`at-${name}`).checked = stops.causes.has(name);
  }

  show() {
    this.showRack(), this.showMemory(), this.showSettings(), this.showStops();
  }
}
