// What the window brings: keys, files dropped on it, its closing, and mistakes of the page itself.
import { at, tell } from "./elements.mjs";
import { openTab } from "./tabs.mjs";

// Keys press the controls, unless one types, or a run goes on: that is stopped.
export function makeKeys(tabs, runner) {
  const keys = { s: "step", b: "back", r: "run", u: "until", p: "power", "?": "keys" };
  document.addEventListener("keydown", (event) => {
    if (event.key === "Escape" && runner.running) return runner.stop();
    const typing = /^(INPUT|TEXTAREA|SELECT)$/.test(event.target.tagName) && event.target.type !== "checkbox";
    if (runner.running || typing || event.ctrlKey || event.altKey || event.metaKey || at("help").open) return;
    const tab = tabs[Number(event.key) - 1];
    if (tab) openTab(tab), at(`to-${tab}`).focus();
    else if (event.key.toLowerCase() in keys) event.preventDefault(), at(keys[event.key.toLowerCase()]).click();
  });
}

export function makeDrop(opened) {
  document.addEventListener("dragover", (event) => (event.preventDefault(), document.body.classList.add("drop")));
  document.addEventListener("dragleave", () => document.body.classList.remove("drop"));
  document.addEventListener("drop", (event) => {
    event.preventDefault();
    document.body.classList.remove("drop");
    const { files } = event.dataTransfer;
    if (files.length > 1) tell("One file at a time, please: nothing was read.", true);
    else if (files.length === 1) opened(files[0]);
  });
}

// Who closes the page is asked, where what was done since would be lost.
export function makeLeaving(wouldLose) {
  addEventListener("beforeunload", (event) => { if (wouldLose()) event.preventDefault(); });
}

// What the page did not foresee is told, never silent.
export function makeAlarm() {
  const alarm = (why) => tell(`The page made a mistake, and not the job: ${why?.message ?? why}. Save the desk and open it again.`, true);
  addEventListener("error", (event) => alarm(event.error ?? event.message));
  addEventListener("unhandledrejection", (event) => alarm(event.reason));
}
