// Calls functions of the scripts of a page, for tests. It reads from standard input, as JSON, the scripts, the program that is
// asked, and calls, each a name behind `ia64` and its arguments; it writes what they give, as JSON. In the arguments
// `{"ask": true}` is the function that asks the program, and `{"bytes": ".."}` bytes in base64. `asked` has the words of each call
// of the program, and how many bytes it was given and gave.
"use strict";

const { spawnSync } = require("child_process");
const { readFileSync } = require("fs");
const { runInThisContext } = require("vm");

let program = "";

function ask(words, input) {
  const done = spawnSync(program, words, { input, maxBuffer: 1 << 30 });
  globalThis.ia64.asked.push([words, input.length, done.stdout.length]);
  return { status: done.status, output: new Uint8Array(done.stdout) };
}

function argument(key, value) {
  if (value && value.ask) { return ask; }
  return value && value.bytes !== undefined ? new Uint8Array(Buffer.from(value.bytes, "base64")) : value;
}

const wanted = JSON.parse(readFileSync(0, "utf8"), argument);
program = wanted.program;
globalThis.ia64 = { asked: [] };
for (const script of wanted.scripts) { runInThisContext(readFileSync(script, "utf8"), script); }

function called([name, given]) {
  const parts = name.split("."), last = parts.pop();
  const owner = parts.reduce((found, part) => found[part], globalThis.ia64);
  return typeof owner[last] === "function" ? owner[last](...given) : owner[last];
}

function plain(key, value) {
  if (value instanceof Uint8Array) { return { bytes: Buffer.from(value).toString("base64") }; }
  return typeof value === "bigint" ? String(value) : value instanceof Map ? Object.fromEntries(value) : value;
}

async function all() {
  const found = [];
  for (const call of wanted.calls) { found.push(await called(call)); }
  process.stdout.write(JSON.stringify(found, plain));
}

all();
