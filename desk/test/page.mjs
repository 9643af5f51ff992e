// The page in a browser: node desk/test/page.mjs PAGE [PICTURES [BROWSER]]
// Every control is clicked, filled in or chosen, and what stands on the page then is read. PICTURES is a folder for screenshots.
import assert from "node:assert";
import fs from "node:fs";
import path from "node:path";
import { Browser } from "./browser.mjs";
import { FAINT_TEXTS } from "./contrast.mjs";
import { fileParts } from "./page_files.mjs";
import { taskParts } from "./page_tasks.mjs";

const [page, pictures, command] = process.argv.slice(2);
const browser = new Browser(command), used = new Set();
let checks = 0;
process.chdir(new URL("../..", import.meta.url).pathname);

async function reads(id, pattern) {
  const text = await browser.text(id);
  assert.match(text, pattern, `${id} is ${JSON.stringify(text.slice(0, 300))}`);
  checks++;
}

async function holds(id, value) {
  assert.strictEqual(await browser.value(id), value, id);
  checks++;
}

const note = (selector) => used.add(selector.replace(/^#/, "").split(" ")[0]);
const click = async (id) => (note(id), browser.click(`#${id}`));
const fill = async (id, text) => (note(id), browser.fill(`#${id}`, text));
const choose = async (id, value) => (note(id), browser.choose(id, value));
const tab = async (name) => click(`to-${name}`);
const idle = () => browser.until("document.querySelector('#stop').disabled");

async function runs(id) {
  await click(id);
  await idle();
}

async function shot(name, whole) {
  if (pictures) await browser.picture(path.join(pictures, `${name}.png`), whole);
}

// Opens a text or bytes as a file.
async function give(id, name, content) {
  const file = path.join(browser.folder, name);
  fs.writeFileSync(file, content);
  note(id);
  await browser.run("document.querySelector('#told').textContent = ''");
  await browser.give(id, file);
  await browser.until("document.querySelector('#told').textContent !== ''");
}

async function stepping() {
  await reads("told", /^card-pulled\.txt is loaded and powered up\. Step goes on/);
  await reads("about", new RegExp(`^${fs.readFileSync("VERSION", "utf8").trim()}, its module is (NOT )?proved$`));
  await holds("reg-PC", "0080"), await holds("count", "18");
  for (let n = 0; n < 3; n++) await click("step");
  await reads("told", /^A blank: nothing is fitted at C000, page C0\. What stands at 0086 was dropped/);
  await holds("reg-PC", "0090");
  await reads("log", /MOV @R2,R0: a bus error in an op code: nothing is fitted at C000, page C0/);
  assert.strictEqual(await browser.run("document.querySelector('#page-C0').className.trim()"), "hit");
  assert.strictEqual(await browser.run("document.querySelector('#list .bad').dataset.address"), "0086");
  await reads("mode", /^3 steps made, the next is step 3: running\.$/);
  await shot("step");
  await click("back");
  await holds("reg-PC", "0086");
  await reads("told", /^Back: 2 steps made\.$/);
  await click("power");
  await runs("until");
  await reads("told", /^Step 2, MOV @R2,R0 at 0086 met a blank: nothing is fitted at C000, page C0\.$/);
  await shot("blank");
  await fill("count", "15");
  await runs("run");
  await reads("told", /^15 steps made; 3 steps met a blank, the first was step 6, at C000\.$/);
  await reads("log", /^30090a run of 15 steps, 3 met a blank20086MOV @R2,R0: a bus error/);
  await reads("left", /^0$/);
  await fill("count", "many");
  await click("run");
  await reads("told", /^'many' is no number of steps/);
}

async function keys() {
  await choose("sample", "card-pulled.txt");
  await browser.run("document.activeElement.blur()");
  for (const key of ["s", "s", "b"]) await browser.key(key);
  await holds("reg-PC", "0082");
  await browser.key("u"), await idle();
  await reads("told", /met a blank/);
  await browser.key("1"), await browser.key("Tab");
  assert.strictEqual(await browser.run("document.activeElement.id"), "page-C0", "the blank's page is the rack's first stop");
  await browser.key("p");
  await reads("told", /^Powered up/);
  await fill("count", "4");
  await browser.run("document.activeElement.blur()");
  await browser.key("r"), await idle();
  await reads("told", /^4 steps made/);
  await browser.key("?");
  assert.strictEqual(await browser.run("document.querySelector('#help').open"), true);
  await browser.click("#help button.main");
  await click("keys"), await browser.key("Escape");
  await browser.key("3");
  assert.strictEqual(await browser.run("document.querySelector('#tab-stops').hidden"), false);
  await choose("sample", "pulled-card.scans"), await browser.run("document.querySelector('#scans-all').focus()");
  await browser.key("Enter"), await idle(), await reads("told", /^12 scans made/);
  assert.strictEqual(await browser.run("document.activeElement.id"), "print", "the focus stays on the recorder after all scans");
  await browser.key("3");
  assert.strictEqual(await browser.run("document.querySelector('#tab-stops').hidden"), false, "keys are heard after all scans");
}

async function cards() {
  await choose("sample", ""), await choose("sample", "card-pulled.txt"), await holds("sample", "card-pulled.txt"), await tab("cards");
  await click("page-C0");
  await reads("told", /^Page C0: fitted\.$/);
  await choose("click", "protect");
  await click("page-C0");
  await reads("told", /^Page C0: fitted, and a write there is a bus error\.$/);
  await click("page-10");
  await reads("told", /^Page 10 is not fitted/);
  await choose("click", "pull"), await click("back");
  await reads("told", /^Undone: page C0 read-only\.$/);
  await browser.run("document.querySelector('#page-00').focus()");
  await browser.key("ArrowDown"), await browser.key("ArrowRight");
  assert.strictEqual(await browser.run("document.activeElement.id"), "page-11");
}

async function memory() {
  await choose("sample", "card-pulled.txt"), await tab("memory");
  for (let n = 0; n < 3; n++) await click("step");
  assert.strictEqual(await browser.run("document.querySelector('#word-000C').className"), "changed");
  await fill("memory-from", "0080"), await click("memory-show");
  await holds("word-0086", "B280");
  await fill("word-0086", "0000");
  await reads("told", /^0086 is 0000 now\.$/);
  await fill("word-0088", "zz");
  await reads("told", /^'zz' is not a word/);
  await click("memory-down"), await holds("memory-from", "0180");
  await click("memory-up"), await holds("memory-from", "0080");
  await click("memory-sp"), await holds("memory-from", "0000");
  await fill("memory-from", "C000"), await click("memory-show");
  await holds("word-C000", "----");
  await click("back"), await reads("told", /^Undone: 0086 changed by hand from B280 to 0000\.$/);
  await fill("reg-R3", "1234"), await reads("told", /^R3 is 1234 now\.$/);
}

async function stops() {
  await choose("sample", "card-pulled.txt"), await tab("stops");
  await fill("stop-address", "0092"), await click("add-address");
  await reads("stops", /at 0092/);
  await click("at-blank"), await runs("until");
  await reads("told", /^Stopped at 0092 after 4 steps\.$/);
  await click("clear-stops"), await reads("stops", /^$/);
  await click("power"), await fill("stop-write", "000C"), await click("add-write"), await runs("until");
  await reads("told", /^Stopped after 3 steps: 000C was written by MOV @R2,R0 at 0086\.$/);
  await browser.click("#stops button"), await reads("stops", /^$/);
  await click("at-blank");
  await choose("sample", "interrupt-i0.txt"), await click("at-interrupt"), await runs("until");
  await reads("told", /^interrupt I0 was taken in step \d+\.$/);
  await click("at-interrupt"), await choose("sample", "halt-switch.txt"), await click("at-switch"), await runs("until");
  await reads("told", /^The halt option was taken/);
  await click("at-switch");
  await browser.click("#list .line"), await reads("told", /^Run to a stop ends at [0-9A-F]{4} now\.$/);
  assert.match(await browser.text("stops"), /at [0-9A-F]{4}/);
  await click("clear-stops");
  await fill("from", "0016"), await click("goto");
  await reads("list", /^0016/);
  await click("follow"), await reads("list", /▸/);
  await browser.click("#list .line"), await choose("sample", "sob.txt");
  await reads("stops", /^$/);
}

async function lines() {
  await choose("sample", "interrupt-i0.txt");
  for (const id of ["i0", "i1", "i3", "fail"]) {
    await click(id);
    assert.strictEqual(await browser.run(`document.querySelector('#${id}').getAttribute("aria-pressed")`), "true");
  }
  await fill("device", "16"), await reads("told", /^'16' is not a device code/);
  await fill("device", "3"), await click("own"), await click("step");
  await reads("left", /^[1-9]/);
  await reads("log", /halt option|interrupt/);
}

// A run of a million steps shows how far it is; one without an end can be stopped.
async function long() {
  await choose("sample", "sob.txt"), await fill("count", "1,000,000"), await runs("run");
  await reads("told", /^1,000,000 steps made; no step met a blank\.$/);
  await fill("count", "900000000"), await click("run");
  await browser.until("/ steps of 900,000,000/.test(document.querySelector('#told').textContent)");
  const heard = () => browser.run("document.querySelector('#told').getAttribute('aria-live')");
  assert.deepStrictEqual([await browser.run("document.querySelector('#progress').hidden"), await heard()], [false, "off"]);
  await click("stop"), await idle();
  assert.strictEqual(await heard(), "polite");
  await reads("told", /^Stopped after [0-9,]+ steps; no step met a blank\.$/);
  await click("until"), await browser.until("/ steps and no stop yet: Stop or Esc/.test(document.querySelector('#told').textContent)");
  assert.strictEqual(await browser.run("document.querySelector('#progress').hasAttribute('value')"), false);
  await browser.key("Escape"), await idle();
  await reads("told", /^Stopped after/);
}

// Nothing is wider than the window, every control has a name, every text can be read.
async function wholePage(width) {
  assert.strictEqual(await browser.run("document.documentElement.scrollWidth <= innerWidth"), true, `wider than ${width}`);
  const nameless = await browser.run(`[...document.querySelectorAll("button, input, select, textarea")]
    .filter((e) => !(e.textContent.trim() || e.getAttribute("aria-label") || e.labels?.length)).map((e) => e.id || e.outerHTML)`);
  assert.deepStrictEqual(nameless, [], "controls without a name");
  assert.deepStrictEqual(await browser.run(FAINT_TEXTS), [], "texts that are hard to read");
  checks += 3;
}

try {
  await browser.open(page, 1280, 860);
  const tools = { page, browser, reads, holds, click, fill, choose, tab, idle, shot, give };
  for (const part of [stepping, keys, cards, memory, stops, lines, ...fileParts(tools), long, ...taskParts(tools)])
    await part().catch((why) => { throw new Error(`${part.name}: ${why.message}`, { cause: why }); });
  const all = await browser.run(`[...document.querySelectorAll("button[id], input[id], select[id]")].map((e) => e.id)`);
  const unused = all.filter((id) => !used.has(id) && !/^(page|word|limit|reg)-|^at-lock$/.test(id));
  assert.deepStrictEqual(unused, [], "controls that were not used");
  for (const [width, height, mobile, name] of [[1024, 700, false, "small"], [390, 844, true, "phone"]]) {
    await browser.open(page, width, height, mobile);
    const tabs = await browser.run(`[...document.querySelectorAll("[role=tab]")].map((e) => e.id.slice(3))`);
    for (const one of tabs) await tab(one), await wholePage(width);
    await choose("sample", "sob.txt"), await tab("patch"), await fill("patch-editor textarea", ".ORG 0088\nSOB R1,04");
    await reads("patch-name", /^not assembled yet/), await click("assemble"), await reads("patch-name", /^in the image/);
    const { top, bottom } = await browser.run("document.querySelector('#told').getBoundingClientRect().toJSON()");
    assert(top >= 0 && bottom <= height, "what is told is in sight");
    await choose("sample", "example.txt"), await browser.run("scrollTo(0, 0)");
    await give("file", "wrong.trace", fs.readFileSync("jobs/example-wrong.trace"));
    const verdict = await browser.run("document.querySelector('#verdict').getBoundingClientRect().toJSON()");
    assert(verdict.top >= 0 && verdict.top < height - 60, "what a trace comes to is in sight");
    await choose("sample", "sob.txt"), await tab("patch");
    await fill("patch-editor textarea", ".ORG 0088\nSOB R1,04"), await click("assemble");
    for (let n = 0; n < 4; n++) await click("step");
    await reads("told", /^Step 3 at 0088: SOB R1,04\. R1=0004 PC=0082\. PC is inside the op code at 0080\.$/);
    await reads("list", /SOB R1,04 {2}→ 0082, inside the op code at 0080/), await shot(`${name}-sob`, mobile);
    await choose("sample", "card-pulled.txt"), await tab("cards"), await runs("until"), await shot(name, mobile);
  }
  assert.deepStrictEqual(browser.errors, []);
  assert.deepStrictEqual(browser.asked.filter((url) => !/^(file|blob|data|about):/.test(url)), []);
  console.log(`the page: ${checks} checks and ${used.size} controls, all right`);
} finally {
  await browser.close();
}
