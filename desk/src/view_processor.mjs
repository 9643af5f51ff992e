// The processor and its listing: registers, indicators, mode, line switches; the lines around PC; what happened.
import { INDICATORS, LINE, MODE, REGISTERS, STATE, even, hex, wordAt } from "./layout.mjs";
import { at, hexFrom, made, pressed, tell } from "./elements.mjs";
import { rowsAround, wayOf } from "./listing.mjs";
import { counted, grouped } from "./words.mjs";

const ROWS = 14, LOGGED = 200;
const SWITCHES = [["i0", LINE.i0], ["i1", LINE.i1], ["i3", LINE.i3], ["fail", LINE.powerFail]];

export class ProcessorView {
  constructor(desk, stops, refresh) {
    this.desk = desk, this.stops = stops, this.refresh = refresh, this.from = null;
    this.cells = REGISTERS.map((name, n) => this.registerCell(name, n));
    at("registers").append(...this.cells.map((cell) => cell.parentElement));
    for (const [id, bit] of SWITCHES) at(id).onclick = () => (desk.flip(bit), this.show());
    at("device").onchange = () => this.device();
    at("own").onchange = () => (desk.useOwn = at("own").checked, this.show());
    at("goto").onclick = () => this.goTo();
    at("from").onkeydown = (event) => { if (event.key === "Enter") this.goTo(); };
    at("follow").onclick = () => (this.from = null, this.show());
  }

  registerCell(name, n) {
    const cell = made("input", { id: `reg-${name}`, size: 4, maxLength: 4, "aria-label": name });
    cell.onchange = () => {
      const word = hexFrom(cell, 0xFFFF, "a word");
      if (word !== null) this.desk.setRegister(n, word), tell(`${name} is ${hex(word)} now.`), this.refresh();
    };
    made("label", {}, name.padEnd(2), cell);
    return cell;
  }

  device() {
    const text = at("device").value.trim(), good = /^[0-9]{1,2}$/.test(text) && Number(text) <= 15;
    at("device").classList.toggle("wrong", !good);
    if (!good) return tell(`'${text}' is not a device code: 0 to 15 is needed.`, true);
    this.desk.setDevice(Number(text));
  }

  goTo() {
    const address = hexFrom(at("from"));
    if (address !== null) this.from = even(address), this.show();
  }

  show() {
    this.showRegisters(), this.showList(), this.showLog();
  }

  showRegisters() {
    const { desk, desk: { library: { state }, before } } = this;
    this.cells.forEach((cell, n) => {
      cell.value = hex(desk.register(n));
      cell.classList.remove("wrong");
      const changed = wordAt(before.state, 2 * n) !== desk.register(n);
      cell.parentElement.className = changed ? "changed" : "";
      cell.setAttribute("aria-label", `${REGISTERS[n]}${changed ? ", changed" : ""}`);
    });
    const flags = INDICATORS.map(([name, bit]) => {
      const changed = (before.state[STATE.indicators] ^ state[STATE.indicators]) & bit;
      return made("span", { textContent: `${name} ${state[STATE.indicators] & bit ? 1 : 0}`, className: changed ? "changed" : "" });
    });
    const held = state[STATE.mark] ? ", held for one op code" : "";
    const enable = made("span", { textContent: `I2 ${state[STATE.i2]}${held}`, title: "the interrupt enable" });
    at("status").replaceChildren(made("span", { textContent: `PS ${hex(desk.library.statusWord())}` }), ...flags, enable);
    at("mode").textContent = `${counted(desk.steps, "step")} made, the next is step ${grouped(desk.steps)}: ${desk.words.mode(desk.mode)}.`;
    at("mode").className = desk.mode === MODE.locked ? "over" : "";
    for (const [id, bit] of SWITCHES) pressed(at(id), (desk.switches & bit) !== 0);
    at("device").value = desk.switches >> 8;
    at("own").checked = desk.useOwn;
    at("left").textContent = grouped(desk.lines.length - desk.taken);
  }

  showList() {
    const focused = document.activeElement?.dataset?.address;
    at("list").replaceChildren(...rowsAround(this.desk, this.from, ROWS).map((row) => this.listLine(row)));
    if (focused !== undefined) at("list").querySelector(`[data-address="${focused}"]`)?.focus();
  }

  listLine(row) {
    const { desk, stops } = this, { address, label } = row, at = hex(address);
    const now = address === even(desk.pc), stop = stops.addresses.has(address), none = row.text === "----", way = wayOf(desk, row);
    const bad = address === desk.badAt;
    const words = none ? "---- nothing is fitted" : row.text, part = (className, textContent) => made("span", { className, textContent });
    const said = `${now ? "PC, " : ""}${stop ? "stop, " : ""}${bad ? "the last step, " : ""}${at} ${label} ${words} ${way?.words ?? ""}`;
    const line = made("button", { className: `line${now ? " now" : ""}${none ? " none" : ""}${bad ? " bad" : ""}`, "data-address": at });
    line.setAttribute("aria-pressed", String(stop)), line.setAttribute("aria-label", said);
    const mark = `${now ? "▸" : bad ? "✕" : ""}${stop ? "●" : ""}`;
    line.append(part("mark", mark), part("label", label), part("", at), part("", row.words.join(" ")),
      made("span", {}, words, part(`way${way?.bad ? " over" : ""}`, way === null ? "" : `  ${way.words}`)));
    line.onclick = () => this.toggleStop(address);
    return line;
  }

  toggleStop(address) {
    const { addresses } = this.stops, was = addresses.delete(address);
    if (!was) addresses.add(address);
    tell(was ? `No stop at ${hex(address)} any more.` : `Run to a stop ends at ${hex(address)} now.`);
    this.refresh();
  }

  showLog() {
    at("log").replaceChildren(...this.desk.log.entries.slice(-LOGGED).reverse().map(logLine));
  }
}

function logLine({ step, at: place, words, bad, changes }) {
  const part = (textContent) => made("span", { textContent });
  const changed = made("span", { className: "changes", textContent: changes && `   ${changes}` });
  const [number, address] = place === null ? ["", ""] : [grouped(step), hex(place)];
  return made("li", { className: bad ? "bad" : "" }, part(number), part(address), made("span", {}, words, changed));
}
