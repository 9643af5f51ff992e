// The tabs: one section at a time.
import { at, made } from "./elements.mjs";

export const tabNow = () => document.body.dataset.open;

export function openTab(name) {
  if (!at(`tab-${name}`)) return;
  document.body.dataset.open = name;
  for (const section of document.querySelectorAll("[data-tab]")) section.hidden = section.id !== `tab-${name}`;
  for (const tab of document.querySelectorAll("[role=tab]")) {
    const on = tab.id === `to-${name}`;
    tab.setAttribute("aria-selected", String(on)), tab.tabIndex = on ? 0 : -1;
  }
}

// Opens a tab for who did not ask for it by name: where the tabs stand under the rest, on a phone, they are brought into sight.
export function goToTab(name) {
  openTab(name);
  if (matchMedia("(max-width: 820px)").matches) document.querySelector(".tabs").scrollIntoView({ block: "start" });
}

// Makes a tab of each section that has one, and answers their names.
export function makeTabs() {
  const sections = [...document.querySelectorAll("[data-tab]")], names = sections.map((section) => section.id.slice(4));
  document.querySelector(".tabs").append(...sections.map((section, n) => {
    section.setAttribute("role", "tabpanel"), section.setAttribute("aria-labelledby", `to-${names[n]}`);
    const tab = made("button", { id: `to-${names[n]}`, role: "tab", "aria-controls": section.id, textContent: section.dataset.tab });
    tab.onclick = () => openTab(names[n]);
    tab.onkeydown = (event) => {
      const move = { ArrowRight: 1, ArrowLeft: -1 }[event.key];
      const next = names[(n + (move ?? 0) + names.length) % names.length];
      if (move) openTab(next), at(`to-${next}`).focus();
    };
    return tab;
  }));
  openTab("cards");
  return names;
}
