// A text with numbered lines, and what is wrong with it beside the line and under the column.
import { made } from "./elements.mjs";
import { linesIn } from "./text.mjs";

const LINE = 18, PADDING = 4; // as in style.css
const MOST_NUMBERED = 5000;

export class Editor {
  // `go` is what Ctrl+Enter does.
  constructor(place, label, go, placeholder = "") {
    this.gutter = made("div", { className: "gutter", "aria-hidden": "true" });
    this.area = made("textarea", { spellcheck: false, wrap: "off", "aria-label": label, placeholder });
    this.wrong = made("div", { className: "wrong", role: "alert", hidden: true });
    place.append(this.gutter, this.area, this.wrong);
    this.area.onscroll = () => this.scrolled();
    this.area.oninput = () => this.clear();
    this.area.onkeydown = (event) => {
      if (event.key === "Enter" && event.ctrlKey) event.preventDefault(), go();
    };
    this.place = null;
    this.changed = () => {}; // what is to be done when the text is another
  }

  get text() {
    return this.area.value;
  }

  set text(text) {
    this.area.value = text;
    this.clear();
  }

  clear() {
    this.place = null;
    this.wrong.hidden = true;
    this.area.removeAttribute("aria-invalid");
    this.number();
    this.changed();
  }

  // What is wrong, beside its line.
  tell(words, place) {
    this.place = place;
    this.area.setAttribute("aria-invalid", "true");
    this.wrong.hidden = false, this.wrong.classList.toggle("nowhere", place === null);
    this.wrong.textContent = place === null ? words : `line ${place.line}, column ${place.column}: ${words}`;
    this.number();
    if (place !== null) this.show(place);
  }

  // Selects the place and brings it into sight.
  show({ line, column, width }) {
    const lines = this.area.value.split(/\n/), begin = lines.slice(0, line - 1).reduce((sum, one) => sum + one.length + 1, 0) + column - 1;
    this.area.focus();
    this.area.setSelectionRange(begin, begin + width);
    this.area.scrollTop = Math.max(0, (line - 4) * LINE);
    this.wrong.style.setProperty("--caret", `${Math.min(column * 7.8, 260)}px`);
    this.scrolled();
  }

  number() {
    const count = linesIn(this.area.value).length;
    const line = (_, n) => made("div", { textContent: n + 1, className: this.place?.line === n + 1 ? "bad" : "" });
    this.gutter.replaceChildren(...Array.from({ length: Math.min(count, MOST_NUMBERED) }, line));
    this.scrolled();
  }

  scrolled() {
    this.gutter.scrollTop = this.area.scrollTop;
    const under = this.place === null ? null : Math.max(2, PADDING + this.place.line * LINE - this.area.scrollTop + 4);
    this.wrong.style.top = under === null ? "auto" : `${under}px`, this.wrong.style.bottom = under === null ? "4px" : "auto";
  }
}
