// Does with the library in WebAssembly what c/serve.c does, on standard input and output: serve.mjs MODULE CALLS
// CALLS is the list that c/exports.py makes: each function's name and, for each argument, the bytes of an element, 0 for a number.
import fs from "node:fs";

const { exports } = new WebAssembly.Instance(new WebAssembly.Module(fs.readFileSync(process.argv[2])), {});
const calls = JSON.parse(fs.readFileSync(process.argv[3], "utf8"));
const memory = () => new Uint8Array(exports.memory.buffer);

let input = Buffer.alloc(0);
const more = Buffer.alloc(1 << 20);

// The next bytes of the input, or null where it has ended.
function taken(length) {
  while (input.length < length) {
    const have = readSome();
    if (have === 0) return null;
    input = Buffer.concat([input, more.subarray(0, have)]);
  }
  const bytes = input.subarray(0, length);
  input = input.subarray(length);
  return bytes;
}

function readSome() {
  for (;;) {
    try {
      return fs.readSync(0, more, 0, more.length, null);
    } catch (why) {
      if (why.code !== "EAGAIN") throw why;
    }
  }
}

function given(bytes) {
  for (let gone = 0; gone < bytes.length;) gone += fs.writeSync(1, bytes, gone);
}

// A call's arguments, laid from the heap's base on: the words that it is called with, and where its buffers stand. A buffer of no
// length is a null pointer.
function lent(elements) {
  const words = [], buffers = [];
  let free = exports.__heap_base.value;
  for (const element of elements) {
    const number = taken(4).readUInt32LE(0);
    if (element === 0) {
      words.push(number);
      continue;
    }
    free = (free + 7) & ~7;
    while (free + number * element > memory().length) exports.memory.grow(16);
    memory().set(taken(number * element), free);
    buffers.push([free, free + number * element]);
    words.push(number === 0 ? 0 : free, number);
    free += number * element;
  }
  return { words, buffers };
}

for (let length; (length = taken(1));) {
  const name = taken(length[0]).toString("latin1");
  const { words, buffers } = lent(calls[name]);
  const answer = exports[name](...words);
  const bytes = memory();
  given(Buffer.concat([Buffer.from([answer]), ...buffers.map(([from, to]) => bytes.subarray(from, to))]));
}
