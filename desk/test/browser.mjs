// A browser without a window, driven over a pipe: pages opened, elements clicked and filled in, keys pressed, texts read, pictures taken.
import { spawn } from "node:child_process";
import fs from "node:fs";
import os from "node:os";
import path from "node:path";
import { pathToFileURL } from "node:url";

const SECONDS = 60;
const FLAGS = ["--headless=new", "--no-sandbox", "--disable-gpu", "--disable-dev-shm-usage", "--no-first-run", "--remote-debugging-pipe"];
const CODES = { Escape: 27, Enter: 13, ArrowRight: 39, ArrowLeft: 37, ArrowDown: 40, ArrowUp: 38, Tab: 9 };

// Where the middle of an element is, once it is in sight, and whether nothing lies on it; null where there is none.
const PLACE = `(selector) => {
  const e = document.querySelector(selector);
  if (!e) return null;
  e.scrollIntoView({ block: "center" });
  const r = e.getBoundingClientRect(), x = r.x + r.width / 2, y = r.y + r.height / 2, top = document.elementFromPoint(x, y);
  return { x, y, top: r.width > 0 && (top === e || e.contains(top) || e.labels?.[0]?.contains(top)) };
}`;
const CHANGE = `(id, value) => {
  const e = document.getElementById(id);
  e.value = value;
  e.dispatchEvent(new Event("change", { bubbles: true }));
}`;

export class Browser {
  constructor(command = "chromium") {
    this.folder = fs.mkdtempSync(path.join(os.tmpdir(), "desk-"));
    const stdio = ["ignore", "ignore", "ignore", "pipe", "pipe"];
    this.process = spawn(command, [...FLAGS, `--user-data-dir=${this.folder}/profile`, "about:blank"], { stdio });
    this.next = 1, this.waiting = new Map(), this.events = [], this.errors = [], this.asked = [];
    let left = Buffer.alloc(0);
    this.process.stdio[4].on("data", (data) => {
      left = Buffer.concat([left, data]);
      for (let end; (end = left.indexOf(0)) >= 0; left = left.subarray(end + 1))
        this.received(JSON.parse(left.subarray(0, end).toString()));
    });
  }

  received(message) {
    if (message.id !== undefined) {
      const { resolve, reject } = this.waiting.get(message.id);
      this.waiting.delete(message.id);
      if (message.error) reject(new Error(message.error.message));
      else resolve(message.result);
    } else if (message.method === "Runtime.exceptionThrown") {
      const { exception, text } = message.params.exceptionDetails;
      this.errors.push(exception?.description ?? text);
    } else if (message.method === "Network.requestWillBeSent") this.asked.push(message.params.request.url.slice(0, 80));
  }

  send(method, params = {}, session = this.session) {
    const id = this.next++;
    return new Promise((resolve, reject) => {
      this.waiting.set(id, { resolve, reject });
      this.process.stdio[3].write(JSON.stringify({ id, method, params, ...(session ? { sessionId: session } : {}) }) + "\0");
      setTimeout(() => reject(new Error(`${method} took over ${SECONDS} seconds`)), SECONDS * 1000).unref();
    });
  }

  // Opens a file at a size, in a page of its own.
  async open(file, width = 1280, height = 800, mobile = false) {
    if (this.target) await this.send("Target.closeTarget", { targetId: this.target }, null);
    const { targetId } = await this.send("Target.createTarget", { url: "about:blank" }, null);
    this.target = targetId;
    this.session = (await this.send("Target.attachToTarget", { targetId, flatten: true }, null)).sessionId;
    await this.send("Page.enable"), await this.send("Runtime.enable"), await this.send("Network.enable");
    await this.send("Browser.setDownloadBehavior", { behavior: "allow", downloadPath: this.folder }, null);
    await this.send("Emulation.setDeviceMetricsOverride", { width, height, deviceScaleFactor: 1, mobile });
    await this.send("Page.navigate", { url: pathToFileURL(path.resolve(file)).href });
    await this.until("document.readyState === 'complete' && document.querySelector('#told')?.textContent !== ''");
  }

  async run(expression) {
    const { result, exceptionDetails } = await this.send("Runtime.evaluate", { expression, awaitPromise: true, returnByValue: true });
    if (exceptionDetails) throw new Error(`${expression}: ${exceptionDetails.exception?.description}`);
    return result.value;
  }

  // Waits until an expression is true.
  async until(expression, seconds = 20) {
    for (const end = Date.now() + seconds * 1000; Date.now() < end;) {
      if (await this.run(expression)) return;
      await new Promise((resolve) => setTimeout(resolve, 20));
    }
    throw new Error(`never: ${expression}`);
  }

  text(id) {
    return this.run(`(document.getElementById(${JSON.stringify(id)}) ?? { textContent: "no such element" }).textContent`);
  }

  value(id) {
    return this.run(`document.getElementById(${JSON.stringify(id)}).value`);
  }

  // The mouse on the middle of an element, which must be there and on top.
  async click(selector) {
    const place = await this.run(`(${PLACE})(${JSON.stringify(selector)})`);
    if (place === null) throw new Error(`${selector} can't be clicked: it is not there`);
    if (!place.top) throw new Error(`${selector} can't be clicked: something else is on top, or it is not shown`);
    const { x, y } = place;
    for (const type of ["mousePressed", "mouseReleased"])
      await this.send("Input.dispatchMouseEvent", { type, x, y, button: "left", clickCount: 1 });
  }

  // Writes over what an input or a text holds, as if typed.
  async fill(selector, text) {
    await this.click(selector);
    await this.run(`document.querySelector(${JSON.stringify(selector)}).select()`);
    await this.send("Input.insertText", { text });
    await this.run(`document.querySelector(${JSON.stringify(selector)}).blur()`);
  }

  async choose(id, value) {
    await this.run(`(${CHANGE})(${JSON.stringify(id)}, ${JSON.stringify(value)})`);
  }

  async key(key, code = key) {
    const text = key === "Enter" ? "\r" : key.length === 1 ? key : null;
    const pressed = { key, code, windowsVirtualKeyCode: CODES[key] ?? key.toUpperCase().charCodeAt(0) };
    const down = text === null ? { type: "rawKeyDown" } : { type: "keyDown", text };
    await this.send("Input.dispatchKeyEvent", { ...down, ...pressed });
    await this.send("Input.dispatchKeyEvent", { type: "keyUp", ...pressed });
  }

  // Chooses a file in a file input.
  async give(id, file) {
    const { root } = await this.send("DOM.getDocument");
    const { nodeId } = await this.send("DOM.querySelector", { nodeId: root.nodeId, selector: `#${id}` });
    await this.send("DOM.setFileInputFiles", { nodeId, files: [path.resolve(file)] });
  }

  // Drops files on the middle of the page.
  async drop(...files) {
    const data = { items: [], files: files.map((file) => path.resolve(file)), dragOperationsMask: 1 };
    const { x, y } = await this.run("({ x: innerWidth / 2, y: innerHeight / 2 })");
    for (const type of ["dragEnter", "dragOver", "drop"]) await this.send("Input.dispatchDragEvent", { type, x, y, data });
  }

  // A file that the page gave, once it is whole.
  async given(name) {
    const file = path.join(this.folder, name);
    const whole = () => fs.existsSync(file) && fs.statSync(file).size > 0 && !fs.existsSync(`${file}.crdownload`);
    for (let n = 0; n < 250 && !whole(); n++) await new Promise((resolve) => setTimeout(resolve, 20));
    return file;
  }

  async picture(file, whole = false) {
    const { data } = await this.send("Page.captureScreenshot", { format: "png", captureBeyondViewport: whole });
    fs.writeFileSync(file, Buffer.from(data, "base64"));
  }

  async close() {
    this.process.kill();
    await new Promise((resolve) => this.process.once("exit", resolve));
    fs.rmSync(this.folder, { recursive: true, force: true });
  }
}
