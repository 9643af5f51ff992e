// Elements of the page: found by their ids, made, and asked for numbers.
import { hex } from "./layout.mjs";

export const at = (id) => document.getElementById(id);

// An element with properties, attributes of names with a dash or "role", and children.
export function made(kind, properties = {}, ...children) {
  const element = document.createElement(kind);
  for (const [name, value] of Object.entries(properties)) {
    if (name.includes("-") || name === "role") element.setAttribute(name, value);
    else element[name] = value;
  }
  element.append(...children);
  return element;
}

export function tell(words, bad = false) {
  at("told").textContent = words;
  at("told").className = bad ? "bad" : "";
}

// The hex number of an input, even if asked so; null where it is none, and then it is marked and told.
export function hexFrom(input, most = 0xFFFF, what = "an address") {
  const text = input.value.trim(), good = /^[0-9A-Fa-f]{1,4}$/.test(text) && parseInt(text, 16) <= most;
  input.classList.toggle("wrong", !good);
  input.setAttribute("aria-invalid", String(!good));
  if (good) return parseInt(text, 16);
  tell(`'${text}' is not ${what}: hex digits, 0 to ${hex(most, 1)}, are needed.`, true);
  return null;
}

export function pressed(button, on) {
  button.setAttribute("aria-pressed", String(on));
}

// Gives the user a file.
export function download(name, content, type) {
  const link = made("a", { href: URL.createObjectURL(new Blob([content], { type })), download: name });
  document.body.append(link);
  link.click();
  link.remove();
  setTimeout(() => URL.revokeObjectURL(link.href), 10000);
}
