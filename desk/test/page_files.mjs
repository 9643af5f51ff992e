// The part of page.mjs with texts and files: jobs, patches, boards, traces, reports, lunch.
import assert from "node:assert";
import fs from "node:fs";
import path from "node:path";

export function fileParts({ page, browser, reads, holds, click, fill, choose, tab, idle, shot, give }) {
  async function texts() {
    await choose("sample", "card-pulled.txt"), await tab("job");
    await fill("job-editor textarea", "pages 00\n0016 = 0080\n0080 = zz\n"), await click("load");
    await reads("told", /^card-pulled\.txt: line 3, column 8: 'zz' is not a hex number, 0 to FFFF\. Nothing was changed\.$/);
    assert.match(await browser.run("document.querySelector('#job-editor .wrong').textContent"), /^line 3, column 8: 'zz'/);
    assert.strictEqual(await browser.run("getSelection().toString()"), "zz");
    await reads("job-name", /^not loaded yet: the desk has card-pulled\.txt$/), await holds("sample", "");
    await reads("own-job", /^card-pulled\.txt, text changed$/);
    await choose("sample", "card-pulled.txt"), await reads("job-name", /^card-pulled\.txt is on the desk$/), await tab("job");
    await fill("job-editor textarea", "pages 00\n0016 = 0080\n0080 = zz\n"), await click("load");
    await shot("wrong-line");
    await holds("reg-PC", "0080");
    const loop = ["pages 00", "0016 = START", ".ORG 0080", "START: MOV #0003,R1", "LOOP: SOB R1,LOOP", "DONE: BR DONE", ""].join("\n");
    await fill("job-editor textarea", loop), await click("load");
    await reads("list", /LOOP.*SOB R1,01 {2}→ 0084 LOOP/);
    await tab("patch");
    await fill("patch-editor textarea", ".ORG 0084\nSOB R1,AWAY"), await click("assemble");
    await reads("told", /^The patch: line 2, column 8: 26: no line gives the label AWAY\. Nothing was changed\.$/);
    await fill("patch-editor textarea", ".ORG 0084\nAGAIN: SOB R1,AGAIN"), await click("assemble");
    await reads("told", /^1 word of the patch put into the image\. PC is where it was: Power up begins anew\.$/);
    await fill("patch-editor textarea", ".ORG 0084\nSOB R1,4"), await click("assemble");
    await reads("told", /^The patch: line 2, column 8: 24 \(30\): two hex digits are needed: 04\. Nothing was changed\.$/);
    await give("file", "own.asm", fs.readFileSync("jobs/patch.asm"));
    await reads("told", /^own\.asm is a patch, and stands in the tab Patch: Assemble puts it into the image of card-pulled\.txt\.$/);
    await click("assemble"), await reads("told", /^7 words of the patch put into the image\./);
    await give("file", "bad.asm", "NOP\nNOPE");
    await reads("told", /^bad\.asm: line 2, column 4: 24 \(31\): .* Nothing was changed\.$/);
    await fill("patch-editor textarea", ".ORG 4000\nNOP"), await click("assemble");
    await reads("told", /^Nothing is fitted at 4000/);
    await fill("patch-editor textarea", ".ORG 0080\nMOV #0007,R1"), await click("assemble");
  }

  async function boards() {
    await tab("board");
    await choose("up", "1"), await reads("told", /^Power-up jumpers set to 1\. Power up to begin with it\.$/);
    await choose("halt", "2"), await click("microm"), await fill("external", "40");
    await reads("told", /^'40' is not an External Address Register/);
    await fill("external", "2F"), await reads("told", /^External Address Register set to 2F/);
    await reads("status", /PS 09/);
    await tab("cards"), await click("page-40"), await click("save-job");
    await reads("told", /^The job is saved .* Cards that were pulled or plugged in by hand are not in it: its line pages is as it was\.$/);
    await click("back"), await click("save-job");
    await reads("told", /^The job is saved with its patch and its board, as one text\.$/);
    const text = fs.readFileSync(await browser.given("card-pulled.txt"), "utf8");
    assert.match(text, /microm no\njumpers up 1 halt 2\nexternal 2F\n; the patch\n\.ORG 0000\n\.ORG 0080\nMOV #0007,R1\n$/);
    assert.match(text, /; under the patch: START: MOV #0003,R1\nSTART:\n/);
    await give("file", "again.txt", text);
    await reads("told", /^again\.txt is loaded/);
    await reads("own-job", /^again\.txt$/), await holds("sample", "");
    await holds("external", "2F");
  }

  async function files() {
    await click("open");
    await tab("patch"), await fill("patch-editor textarea", "HALF: MOV #00");
    const loaded = await browser.run("document.querySelector('#job-editor textarea').value");
    await give("file", "broken.txt", "pages 00\nlines 0004\n");
    await reads("told", /^broken\.txt: line 2, column 7: refused: 19, .* Nothing was changed\. The desk still has again\.txt\.$/);
    assert.strictEqual(await browser.run("document.querySelector('#patch-editor textarea').value"), "HALF: MOV #00");
    await click("put-back"), await reads("told", /^The text of again\.txt is as the desk has it\.$/);
    assert.strictEqual(await browser.run("document.querySelector('#job-editor textarea').value"), loaded);
    await give("file", "job.bin", Buffer.from([1, 0, 0, 1, 0, 0x16, 0, 0x80, 0, 0, 0]));
    await reads("told", /^job\.bin is loaded and powered up\.$/);
    await give("file", "cut.bin", Buffer.from([1, 0, 0, 1]));
    await reads("told", /^cut\.bin is no job: refused, 11, /);
    await give("file", "strange.txt", Buffer.from([0x70, 0xFF, 0x70]));
    await reads("told", /^strange\.txt, line 1, column 2: no text: a byte is not UTF-8\.$/);
    await give("file", "long.txt", "pages 00\n".repeat(120000));
    await reads("told", /^long\.txt has 1,080,000 bytes, and the desk takes 1,048,576 at most: nothing was read\.$/);
    const big = path.join(browser.folder, "big.bin");
    fs.closeSync(fs.openSync(big, "w")), fs.truncateSync(big, 100 << 20);
    const begun = Date.now(), drop = async (...files) => {
      await browser.run("document.querySelector('#told').textContent = ''"), await browser.drop(...files);
      await browser.until("document.querySelector('#told').textContent !== ''");
    };
    await drop(big);
    await reads("told", /^big\.bin has 104,857,600 bytes, and the desk takes 4,194,304 at most: nothing was read\.$/);
    assert(Date.now() - begun < 3000, "a file of 100 MB takes seconds");
    await drop("jobs"), await reads("told", /^jobs (can't be read: is it a folder\?|is empty\.)$/);
    await drop("jobs/sob.txt", "jobs/patch.asm"), await reads("told", /^One file at a time, please: nothing was read\.$/);
    await drop("jobs/sob.txt"), await reads("told", /^sob\.txt is loaded and powered up\.$/);
  }

  async function traces() {
    await choose("sample", "example.txt"), await tab("trace"), await click("check");
    await give("trace-file", "wrong.trace", fs.readFileSync("jobs/example-wrong.trace"));
    await reads("told", /^wrong\.trace is wrong at step 1: PS is 8F00, right is 0F00 \(the job example\.txt\)\.$/);
    await reads("beside", /theirs.*8F00.*ours.*0F00/);
    await shot("trace");
    await click("show-step"), await reads("told", /^The desk stands before step 1/);
    await give("trace-file", "good.trace", fs.readFileSync("jobs/example.trace"));
    await reads("told", /^good\.trace is accepted: 3 steps, /);
    await give("trace-file", "cut.trace", Buffer.from([9]));
    await reads("told", /^cut\.trace is refused: 29, /);
    await click("make");
    assert.deepStrictEqual(fs.readFileSync(await browser.given("example.trace")), fs.readFileSync("jobs/example.trace"));
  }

  async function recorder() {
    await choose("sample", "refused.scans"), await click("scans-all"), await idle();
    await reads("report-title", /^Plug recorder: refused\.scans, \d+ scans?; 3 scans refused, which count nothing$/);
    await choose("sample", "pulled-card.scans");
    await reads("told", /^pulled-card\.scans is loaded and powered up\. All scans, on the tab Recorder, makes its 12 scans\.$/);
    await tab("recorder"), await click("scan"), await reads("told", /^Scan 1: all cards in/);
    await click("scans-all"), await idle(), await reads("told", /^11 scans made\. No card: channel 4 in 4 scans \(5 to 8\)\.$/);
    await fill("limit-4", "5.0");
    await reads("told", /^At most 5\.0 °C for channel 4: average over the limit; no card in 4 scans\.$/);
    const said = await browser.run("document.querySelector('#channel-4 svg').getAttribute('aria-label')");
    assert.match(said, /8 readings; from 5\.9 to 6\.1 degrees, average 6\.01; no card in scan 5 to 8; limit 5\.0: 8 readings over it/);
    await reads("report", /4845\.96\.1481\/86\.015\.0average over the limit; no card in 4 scans/);
    await tab("job"), await click("load"), await tab("recorder"), await holds("limit-4", "5.0");
    await click("scans-all"), await idle();
    await fill("limit-all", "warm"), await reads("told", /^'warm' is no limit/);
    await shot("recorder", true);
    await fill("limit-all", "13.2"), await reads("told", /^At most 13\.2 °C for every channel: readings over it in channel 15\.$/);
    await fill("limit-all", "14"), await reads("told", /^At most 14\.0 °C for every channel: no reading over it\.$/);
    await reads("report", /481\/86\.0114\.0readings within it; no card in 4 scans/);
    await browser.run("window.print = () => { window.printed = true; }"), await click("print");
    assert.strictEqual(await browser.run("window.printed"), true);
    await browser.run("dispatchEvent(new Event('beforeprint'))"), await reads("report-date", /^Printed \d\d\/\d\d\/\d{4}, /);
    await browser.send("Emulation.setEmulatedMedia", { media: "print" });
    const shown = (selector) => browser.run(`getComputedStyle(document.querySelector("${selector}")).display`);
    assert.deepStrictEqual([await shown(".top"), await shown("#report-title")], ["none", "block"]);
    await shot("print", true);
    await browser.send("Emulation.setEmulatedMedia", { media: "" });
  }

  // As many scans as a recorder takes: their gaps are told in a line, and a step doesn't draw their pictures again.
  async function manyScans() {
    const lines = fs.readFileSync("jobs/pulled-card.scans", "utf8").trimEnd().split("\n"), isScan = (line) => line.startsWith("scan");
    const scans = lines.filter(isScan), many = Array.from({ length: 4096 }, (_, n) => scans[n % scans.length]);
    const text = [...lines.filter((line) => !isScan(line)), ...many];
    await give("file", "many.scans", text.join("\n")), await click("scans-all"), await idle();
    await reads("told", /^4,096 scans made\. No card: channel 4 in 1,364 scans \(5 to 8, 17 to 20, [0-9to, ]*and 336 more times\)\.$/);
    await browser.run("document.querySelector('#channel-4 svg').id = 'drawn'"), await click("step");
    assert.strictEqual(await browser.run("document.querySelector('#drawn') !== null"), true, "a step does not draw the pictures again");
  }

  // Whether the page is left without asking.
  const leaves = () => browser.run("dispatchEvent(new Event('beforeunload', { cancelable: true }))");

  async function lunch() {
    await tab("patch"), await fill("patch-editor textarea", "HALF: MOV #00"), await tab("recorder");
    assert.strictEqual(await leaves(), false);
    await click("step"), await click("lunch");
    assert.strictEqual(await leaves(), true);
    const all = () => browser.run("[...document.querySelectorAll('#registers input')].map((e) => e.value).join()");
    const file = await browser.given("pulled-card.desk.json"), registers = await all();
    await browser.open(page, 1280, 860);
    await give("file", "lunch.json", fs.readFileSync(file));
    await reads("told", /^lunch\.json: the desk is as it was saved, with pulled-card\.scans after 147 steps and 12 of 12 scans\.$/);
    assert.strictEqual(await all(), registers);
    await reads("log", /brought back from a file.*Scan 5: no card in channel 4/);
    assert.strictEqual(await browser.run("document.querySelector('#tab-recorder').hidden"), false);
    await reads("report", /481\/86\.0114\.0/);
    assert.strictEqual(await browser.run("document.querySelector('#patch-editor textarea').value"), "HALF: MOV #00");
    await give("file", "torn.json", fs.readFileSync(file, "utf8").slice(0, 500));
    await reads("told", /^torn\.json: no saved desk: .* Nothing was changed\.$/);
  }

  return [texts, boards, files, traces, manyScans, recorder, lunch];
}
