// What the program prints, taken apart: verdicts, refusals, comments on stops, traces, and in what states differ.
var ia64 = globalThis.ia64 = globalThis.ia64 || {};
(function () {
  "use strict";

  const { sorted } = ia64.drawing;
  const { rank_of, GROUP } = ia64.steps;

  const IMAGE = "IA64IMG";
  // How long a text the page takes: in letters and in lines.
  const LONGEST = 1000000, MOST_LINES = 20000;

  // The statuses of answers, and what the others mean.
  const ANSWERS = [0, 1, 3, 8, 9];
  const FAULTS = {
    2: "the words are none that the program takes",
    4: "the input is longer than 16,777,216 bytes",
    5: "the input could not be read",
    6: "there was no room for the output",
    7: "out of memory",
  };

  function text_of(bytes) {
    return new TextDecoder("latin1").decode(bytes);
  }

  // The text of bytes in UTF-8, with all that they have: a mark of the order of bytes is a letter, which the program refuses.
  function decoded(bytes) {
    return new TextDecoder("utf-8", { ignoreBOM: true }).decode(bytes);
  }

  // How many lines a text has, the last one with what stands behind the last line feed.
  function lines_in(text) {
    return text.split("\n").length;
  }

  // Why the page doesn't take a text; nothing where it does.
  function why_long(text) {
    if (text.length <= LONGEST && lines_in(text) <= MOST_LINES) { return ""; }
    const [letters, lines] = [LONGEST, MOST_LINES].map((each) => each.toLocaleString("en-US"));
    return `this page takes texts of ${letters} letters and ${lines} lines at most`;
  }

  function bytes_of(text) {
    return new TextEncoder().encode(text);
  }

  function is_answer({ status }) {
    return ANSWERS.includes(status);
  }

  // Why the program did something else than was wanted: what it says, where that is an answer, or else what its status means.
  function why_none({ status, output, why }) {
    const failed = `the program in this page failed (${why || `status ${status}`})`;
    return ANSWERS.includes(status) ? text_of(output).trim().split("\n")[0] : FAULTS[status] || failed;
  }

  // Whether a text has loose instructions, and no bundles.
  function is_loose(text) {
    return !text.split("\n").some((line) => line.trim().startsWith("{"));
  }

  function is_image(bytes) {
    return text_of(bytes.slice(0, IMAGE.length)) === IMAGE;
  }

  // How many bundles an image has.
  function bundles_of(image) {
    return new DataView(image.buffer, image.byteOffset).getUint32(8, true);
  }

  // How many pairs of slots break a rule, and those that are listed.
  function verdict_of(printed) {
    const [head, ...lines] = printed.trimEnd().split("\n");
    const rows = lines.map((line) => {
      const [rule, resource, first, second] = line.split(" ");
      return { rule, resource, first, second };
    });
    return { total: head === "accepted" ? 0 : Number(head.split(" ")[1]), rows };
  }

  // Why an input is refused; of a text, at which line.
  function refusal_of(printed) {
    const said = printed.trimEnd(), found = said.match(/^line (\d+): (.*)$/);
    return found ? { line: Number(found[1]), reason: found[2] } : { line: null, reason: said };
  }

  // The stops of a packed text: of each its place, and the words on what it is for.
  function stops_of(packed) {
    return Array.from(packed.matchAll(/^\/\/ (\d+\.\d) (.*)$/gm), (found) => ({ place: found[1], words: found[2].split(" ") }));
  }

  // The names of the lines that aren't the same in all of these states, each given by its lines.
  function differing(states) {
    const names = [...new Set(states.flatMap((state) => [...state.keys()]))];
    return sorted(names.filter((name) => new Set(states.map((state) => state.get(name))).size > 1), rank_of);
  }

  // The place at which a state's run is.
  function place_of(state) {
    return state.match(/^end .* at (\d+\.\d)$/m)[1];
  }

  // A printed trace: the state before its first group, and each group with the state after it.
  function trace_of(printed) {
    const parts = printed.split(GROUP), groups = [];
    for (let at = 1; at < parts.length; at += 5) {
      const [number, first, last, how, state] = parts.slice(at, at + 5);
      groups.push({ number: Number(number), first, last, how, state });
    }
    return { before: parts[0], groups };
  }

  ia64.reading = { text_of, bytes_of, decoded, lines_in, why_long, is_answer, why_none, is_loose, is_image, bundles_of, verdict_of,
    refusal_of, stops_of, differing, place_of, trace_of, LONGEST, MOST_LINES };
}());
