// Files that are opened or dropped: looked at in size before they are read, and told apart.
import { grouped } from "./words.mjs";
import { linesIn } from "./text.mjs";

const MOST_SAVED = 4 << 20, MOST_TEXT = 1 << 20, MOST_TRACE = 1310702; // bytes

// { kind: job | bytes | saved | trace, name, text or bytes }, or { wrong } in words.
export async function readFile(file, isTrace) {
  const most = isTrace ? MOST_TRACE : MOST_SAVED;
  if (file.size > most) return { wrong: tooBig(file, most) };
  if (file.size === 0) return { wrong: `${file.name} is empty.` };
  const { name } = file, bytes = await file.arrayBuffer().then((read) => new Uint8Array(read), () => null);
  if (bytes === null) return { wrong: `${name} can't be read: is it a folder?` };
  if (isTrace || name.endsWith(".trace")) return { kind: "trace", name, bytes };
  const wide = bytes[0] === 0xFF && bytes[1] === 0xFE ? "utf-16le" : bytes[0] === 0xFE && bytes[1] === 0xFF ? "utf-16be" : null;
  if (wide === null && bytes.includes(0)) return { kind: "bytes", name, bytes };
  let text;
  try {
    text = new TextDecoder(wide ?? "utf-8", { fatal: true }).decode(bytes);
  } catch {
    const before = linesIn(new TextDecoder(wide ?? "utf-8").decode(bytes).split("\uFFFD")[0]);
    const place = `line ${before.length}, column ${before.at(-1).length + 1}`;
    return { wrong: `${name}, ${place}: no text: a byte is not ${wide === null ? "UTF-8" : "UTF-16"}.` };
  }
  if (/^\s*\{/.test(text)) return { kind: "saved", name, text };
  return text.length > MOST_TEXT ? { wrong: tooBig(file, MOST_TEXT) } : { kind: "job", name, text };
}

function tooBig(file, most) {
  return `${file.name} has ${grouped(file.size)} bytes, and the desk takes ${grouped(most)} at most: nothing was read.`;
}
