// The program, compiled to WebAssembly, and how it is asked: `ia64.ask(words, input)` answers what the command line does.
//
// Each call is one of its own: the shim empties its heap before, and nothing else is kept. A call that ends in a trap, as of the
// engine's stack, has no answer; then the module is made anew, and so it is where a call has taken much memory.
var ia64 = globalThis.ia64 = globalThis.ia64 || {};
(function () {
  "use strict";

  // The statuses of what ends without an answer: the program's own, for want of memory, and the command line's.
  const NO_MEMORY = 7, NO_ANSWER = 125;
  const NOTHING = new Uint8Array(0);
  // With more than so many bytes of memory the module isn't kept.
  const MUCH = 256 * 2 ** 20;
  const WANTED = "This browser can't run the program, which wants WebAssembly with a 64-bit memory: Chrome and Edge have it " +
    "from version 133 on, Firefox from 134.";

  let module = null, parts = null;

  function bytes_of(base64) {
    return Uint8Array.from(atob(base64), (letter) => letter.charCodeAt(0));
  }

  async function unpacked(bytes, form) {
    const stream = new Blob([bytes]).stream().pipeThrough(new DecompressionStream(form));
    return new Uint8Array(await new Response(stream).arrayBuffer());
  }

  // The text of compressed bytes, as far as it has at most so many letters; one that has more is cut off somewhere behind them.
  async function unpacked_text(bytes, form, most) {
    const reader = new Blob([bytes]).stream().pipeThrough(new DecompressionStream(form))
      .pipeThrough(new TextDecoderStream("utf-8", { ignoreBOM: true })).getReader();
    let text = "";
    for (let part = await reader.read(); !part.done; part = await reader.read()) {
      text += part.value;
      if (text.length > most) {
        reader.cancel();
        return text;
      }
    }
    return text;
  }

  async function packed(bytes, form) {
    const stream = new Blob([bytes]).stream().pipeThrough(new CompressionStream(form));
    return new Uint8Array(await new Response(stream).arrayBuffer());
  }

  // Takes the module, compressed by gzip and in base64. It throws an error whose message says what the browser lacks.
  async function open(base64) {
    if (typeof WebAssembly !== "object" || typeof DecompressionStream !== "function") { throw new Error(WANTED); }
    const bytes = await unpacked(bytes_of(base64), "gzip");
    if (!WebAssembly.validate(bytes)) { throw new Error(WANTED); }
    module = await WebAssembly.compile(bytes);
  }

  function put(bytes, where) {
    const at = Number(where(BigInt(bytes.length)));
    if (at) { new Uint8Array(parts.memory.buffer).set(bytes, at); }
    return at !== 0;
  }

  function output() {
    const at = Number(parts.output_at());
    return new Uint8Array(parts.memory.buffer).slice(at, at + Number(parts.output_length()));
  }

  function called(words, input) {
    parts = parts || new WebAssembly.Instance(module).exports;
    parts.begin();
    const said = new TextEncoder().encode(words.map((word) => word + "\0").join(""));
    if (!put(said, parts.words_at) || !put(input, parts.input_at)) { return { status: NO_MEMORY, output: NOTHING }; }
    return { status: parts.run(), output: output() };
  }

  // The status of the program on these words and this input, and its output; where it has none, `why` says so.
  function ask(words, input) {
    try {
      const answer = called(words, input);
      if (answer.status === NO_MEMORY || parts.memory.buffer.byteLength > MUCH) { parts = null; }
      return answer;
    } catch (fault) {
      parts = null;
      return { status: NO_ANSWER, output: NOTHING, why: String(fault.message || fault) };
    }
  }

  ia64.ask = ask;
  ia64.engine = { open, packed, unpacked, unpacked_text, bytes_of, NO_MEMORY, NO_ANSWER };
}());
