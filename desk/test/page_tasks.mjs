// The part of page.mjs that does the five tasks of desk/README.md as it tells them, on a laptop's small window.
import assert from "node:assert";
import fs from "node:fs";

export function taskParts({ page, browser, reads, holds, click, fill, tab, idle, shot, give }) {
  const begin = () => browser.open(page, 1024, 700);
  const sample = (name) => fs.readFileSync(`jobs/${name}`);
  const marked = (selector) => browser.run(`Array.from(document.querySelectorAll("${selector}"), (one) => one.textContent || one.id)`);

  async function pulledCard() {
    await begin(), await give("file", "rack.txt", sample("card-pulled.txt"));
    await click("until"), await idle();
    await reads("told", /^Step 2, MOV @R2,R0 at 0086 met a blank: nothing is fitted at C000, page C0\.$/);
    assert.match((await marked("#list .bad")).join(), /^✕AGAIN0086/);
    await tab("cards");
    assert.deepStrictEqual(await marked("#rack .hit"), ["page-C0"]);
    await click("page-C0"), await reads("told", /^Page C0: fitted\.$/);
    await click("power"), await click("until");
    await browser.until("/ steps and no stop yet: Stop or Esc ends the run/.test(document.querySelector('#told').textContent)");
    await browser.key("Escape"), await idle();
    await reads("told", /; no step met a blank\.$/);
    assert.deepStrictEqual(await marked("#rack .hit"), []);
  }

  async function miscountedSob() {
    await begin(), await give("file", "sob.txt", sample("sob.txt"));
    const patch = sample("patch.asm").toString(), wrong = patch.replace("SOB R1,AGAIN", "SOB R1,04");
    await give("file", "wrong.asm", wrong), await click("assemble");
    assert.deepStrictEqual(await marked("#list .way.over"), ["  → 0082, inside the op code at 0080"]);
    await click("power");
    for (let n = 0; n < 4; n++) await click("step");
    await reads("told", /PC=0082\. PC is inside the op code at 0080\.$/);
    await click("back"), await holds("reg-PC", "0088");
    await give("file", "patch.asm", patch), await click("assemble"), await click("power"), await click("until");
    await browser.until("!document.querySelector('#stop').disabled"), await browser.key("Escape"), await idle();
    await holds("reg-R0", "000F");
    assert.deepStrictEqual(await marked("#list .way.over"), []);
  }

  async function foreignTrace() {
    await begin(), await give("file", "example.txt", sample("example.txt"));
    await give("file", "theirs.trace", sample("example-wrong.trace"));
    await reads("told", /^theirs\.trace is wrong at step 1: PS is 8F00, right is 0F00 \(the job example\.txt\)\.$/);
    assert.deepStrictEqual(await marked("#verdict td.wrong"), ["8F00", "0F00"]);
    await click("show-step"), await holds("reg-PC", "0082");
    await give("file", "ours.trace", sample("example.trace")), await reads("told", /^ours\.trace is accepted: 3 steps, /);
  }

  async function untilAfterLunch() {
    await begin(), await give("file", "rack.scans", sample("pulled-card.scans"));
    for (let n = 0; n < 5; n++) await click("scan");
    await fill("limit-4", "5.0"), await tab("cards"), await click("page-30");
    await tab("patch"), await fill("patch-editor textarea", ".ORG 3000\nHALF: BR HALF"), await click("assemble");
    await click("lunch"), await reads("told", /^The desk is saved as it stands, as rack\.desk\.json among the downloads\./);
    const file = fs.readFileSync(await browser.given("rack.desk.json"));
    await begin(), await give("file", "rack.desk.json", file);
    await reads("told", /^rack\.desk\.json: the desk is as it was saved, with rack\.scans after 62 steps and 5 of 12 scans\.$/);
    await reads("patch-name", /^in the image/), await reads("log", /page 30 plugged in.*Scan 5: no card in channel 4/);
    await tab("recorder"), await click("scans-all"), await idle();
    await reads("told", /^7 scans made\. No card: channel 4 in 4 scans \(5 to 8\)\.$/);
    await reads("report", /481\/86\.015\.0average over the limit; no card in 4 scans/);
  }

  async function report() {
    await begin(), await give("file", "rack.scans", sample("pulled-card.scans")), await click("scans-all"), await idle();
    await reads("told", /^12 scans made\. No card: channel 4 in 4 scans \(5 to 8\)\.$/);
    assert.strictEqual(await browser.run("document.querySelectorAll('#channels .gap').length"), 1);
    await fill("limit-4", "5.0"), await reads("told", /^At most 5\.0 °C for channel 4: average over the limit; no card in 4 scans\.$/);
    await browser.run("scrollTo(0, 0)"), await shot("report");
    const { data } = await browser.send("Page.printToPDF", { paperWidth: 8.27, paperHeight: 11.69 });
    assert.match(Buffer.from(data, "base64").toString("latin1"), /\/Count 1\b/, "one page of A4");
  }

  return [pulledCard, miscountedSob, foreignTrace, untilAfterLunch, report];
}
