// A module that stands in for the program, for tests of engine.js. It writes down how it is called, and does what its first word
// says: `echo` answers the input; `much` and `more` take as much memory as a module is kept with, and more; `full` has no room for
// its input; `none` ends for want of memory, and `trap` without an answer.
"use strict";

(function () {
  const PAGE = 65536, MUCH = 256 * 2 ** 20, SIZES = { much: MUCH, more: MUCH + PAGE };
  const log = globalThis.ia64.log = [];

  class Instance {
    constructor(module) {
      let words = 0, input = 0, length = 0;
      const memory = { buffer: new ArrayBuffer(2 * PAGE) };
      const said = () => new TextDecoder().decode(new Uint8Array(memory.buffer).slice(PAGE, PAGE + words));
      log.push(`made of ${module}`);
      this.exports = {
        memory,
        begin() { log.push("begin"); },
        words_at(count) {
          words = Number(count);
          return BigInt(PAGE);
        },
        input_at(count) {
          [input, length] = [PAGE + words, Number(count)];
          return said().startsWith("full") ? 0n : BigInt(input);
        },
        run() {
          const [word] = said().split("\0");
          log.push(`run ${said().replace(/\0/g, ";")}`);
          if (word === "trap") { throw new Error("unreachable"); }
          if (word in SIZES) {
            const larger = new ArrayBuffer(SIZES[word]);
            new Uint8Array(larger).set(new Uint8Array(memory.buffer));
            memory.buffer = larger;
          }
          return word === "none" ? 7 : 0;
        },
        output_at() { return BigInt(input); },
        output_length() { return BigInt(length); },
      };
    }
  }

  // What node itself compiles is long.
  const { compile } = WebAssembly, text_of = (bytes) => new TextDecoder().decode(bytes), is_own = (bytes) => bytes.length < 100;
  WebAssembly.Instance = Instance;
  WebAssembly.validate = (bytes) => text_of(bytes) !== "wrong";
  WebAssembly.compile = async (bytes) => (is_own(bytes) ? text_of(bytes) : compile(bytes));

  // Why engine.js doesn't take a module; nothing where it does.
  globalThis.ia64.opened = (base64) => globalThis.ia64.engine.open(base64).then(() => "", (fault) => fault.message);
}());
