// Bundles and their ways: what `front/bundle.py` and `front/flow.py` have of instructions of the profile, under the same names.
// Words of instructions are BigInts. `front/tests/test_page_drawing.py` holds it to the Python.
var ia64 = globalThis.ia64 = globalThis.ia64 || {};

(function () {
  "use strict";

  // ---- bundle.py -----------------------------------------------------------------------------------------------------------

  // The units of the slots by the template without its lowest bit, which tells of the stop at the end.
  const UNITS = { 0x00: "mii", 0x02: "mii", 0x04: "mlx", 0x08: "mmi", 0x0a: "mmi", 0x0c: "mfi", 0x0e: "mmf",
    0x10: "mib", 0x12: "mbb", 0x16: "bbb", 0x18: "mmb", 0x1c: "mfb" };
  const WORD = (1n << 41n) - 1n;

  // Where the displacement of a direct branch or a check stands in its word: a lowest bit and a number of bits for each part, the
  // lowest part first.
  const BRANCH = [[13n, 20n], [36n, 1n]];              // branches, chk.a
  const CHECK = [[6n, 7n], [20n, 13n], [36n, 1n]];     // chk.s

  class Bundle {
    constructor(template, words) { Object.assign(this, { template, words }); }

    get units() { return UNITS[this.template & ~1] || ""; }

    with_word(slot, word) {
      return new Bundle(this.template, this.words.map((own, at) => at === slot ? word : own));
    }

    packed() {
      const data = new DataView(new ArrayBuffer(16));
      let number = BigInt(this.template);
      this.words.forEach((word, slot) => { number |= word << BigInt(5 + 41 * slot); });
      data.setBigUint64(0, number, true);
      data.setBigUint64(8, number >> 64n, true);
      return new Uint8Array(data.buffer);
    }
  }

  // Behind which slots a template has stops. The manual's MII and MMI have a kind with one in their middle.
  const MIDDLE_STOPS = { 0x02: [1], 0x0a: [0] };

  // The numbers of a bundle's slots. A long instruction is slot 1.
  function slots_of(bundle) {
    return bundle.units === "mlx" ? [0, 1] : [0, 1, 2];
  }

  // The slots behind which there is a stop.
  function stops_behind(bundle) {
    return [...MIDDLE_STOPS[bundle.template & ~1] || [], ...bundle.template & 1 ? slots_of(bundle).slice(-1) : []];
  }

  // The bundles of bytes, whose number is a multiple of 16.
  function split_all(code) {
    const data = new DataView(code.buffer, code.byteOffset, code.byteLength), found = [];
    for (let at = 0; at < code.length; at += 16) {
      const low = data.getBigUint64(at, true), high = data.getBigUint64(at + 8, true);
      found.push(new Bundle(Number(low & 31n), [low >> 5n & WORD, (low >> 46n | high << 18n) & WORD, high >> 23n]));
    }
    return found;
  }

  // The bytes of bundles, one behind the other.
  function joined(bundles) {
    const code = new Uint8Array(16 * bundles.length);
    bundles.forEach((bundle, index) => code.set(bundle.packed(), 16 * index));
    return code;
  }

  // The layout of a direct branch or a check, or null.
  function displacement_layout(unit, word) {
    const major = Number(word >> 37n), x3 = Number(word >> 33n & 7n);
    if (unit === "b" && (major === 4 || major === 5) || unit === "m" && major === 0 && x3 >= 4) { return BRANCH; }
    return unit === "m" && major === 1 && x3 === 1 || unit === "i" && major === 0 && x3 === 1 ? CHECK : null;
  }

  // The displacement in bundles: 21 bits, signed.
  function displacement(layout, word) {
    let value = 0n, width = 0n;
    for (const [low, bits] of layout) {
      value |= (word >> low & (1n << bits) - 1n) << width;
      width += bits;
    }
    return Number(BigInt.asIntN(Number(width), value));
  }

  function with_displacement(layout, word, value) {
    let left = BigInt(value);
    for (const [low, bits] of layout) {
      const mask = (1n << bits) - 1n;
      word = word & ~(mask << low) | (left & mask) << low;
      left >>= bits;
    }
    return word;
  }

  // The slots of direct branches and checks, each with its displacement in bundles.
  function branches(bundle) {
    return Array.from(bundle.units).flatMap((unit, slot) => {
      const word = bundle.words[slot], layout = displacement_layout(unit, word);
      return layout ? [[slot, displacement(layout, word)]] : [];
    });
  }

  // The bundle with this displacement of its branch in the slot.
  function with_branch(bundle, slot, value) {
    const word = bundle.words[slot], layout = displacement_layout(bundle.units[slot], word);
    return bundle.with_word(slot, with_displacement(layout, word, value));
  }

  // Whether it is a `break`, which has the same fields in all units: the major opcode and bits 35:27 are zero.
  function is_break(unit, word) {
    return unit !== "l" && word >> 37n === 0n && (word >> 27n & 0x1ffn) === 0n;
  }

  // ---- flow.py -------------------------------------------------------------------------------------------------------------

  // Major opcodes of branches.
  const CONDITIONAL = 4, RELATIVE_CALL = 5, INDIRECT_CALL = 1;
  const INDIRECT = 0x20, RETURN = 0x21;                // of major opcode 0 in unit B: bits 32:27

  // The turn of a slot with this word, or null: whether the walk may fall through too, whether it calls, and its target.
  function turn_of(unit, word, target) {
    const major = Number(word >> 37n), guarded = (word & 63n) !== 0n, x6 = Number(word >> 27n & 63n);
    if (unit === "b" && (major === RELATIVE_CALL || major === INDIRECT_CALL)) { return { falls: guarded, calls: true, target }; }
    if (unit === "b" && major === CONDITIONAL) {
      return { falls: guarded || (word >> 6n & 7n) !== 0n, calls: false, target };
    }
    if (unit === "b" && major === 0 && (x6 === INDIRECT || x6 === RETURN) || is_break(unit, word)) {
      return { falls: guarded, calls: false, target: null };
    }
    return target === null ? null : { falls: true, calls: false, target };
  }

  // The turns of a bundle's slots, in order.
  function turns_of(index, bundle) {
    const targets = new Map(branches(bundle).map(([slot, away]) => [slot, index + away]));
    const found = Array.from(bundle.units, (unit, slot) =>
      turn_of(unit, bundle.words[slot], targets.has(slot) ? targets.get(slot) : null));
    return found.filter(Boolean);
  }

  // Whether each bundle of a program with these declared entries is on a walk: from its start, the entries and each bundle after
  // one that holds a call, over each edge.
  function walks(bundles, entries) {
    const turns = bundles.map((bundle, index) => turns_of(index, bundle)), walked = bundles.map(() => false);
    const waiting = [0, ...entries];
    turns.forEach((slots, index) => {
      if (slots.some((turn) => turn.calls)) { waiting.push(index + 1); }
    });
    while (waiting.length) {
      const at = waiting.pop();
      if (at >= 0 && at < bundles.length && !walked[at]) {
        walked[at] = true;
        const end = turns[at].findIndex((turn) => !turn.falls);
        for (const turn of end < 0 ? turns[at] : turns[at].slice(0, end + 1)) {
          if (turn.target !== null) { waiting.push(turn.target); }
        }
        if (end < 0) { waiting.push(at + 1); }
      }
    }
    return walked;
  }

  // ---- program.py ----------------------------------------------------------------------------------------------------------

  // Behind the bundles of an image that is asked about: `break.m 0`, two nops and a stop.
  const END = new Bundle(0x01, [0n, 1n << 27n, 1n << 27n]);

  ia64.bundles = { branches, is_break, joined, slots_of, split_all, stops_behind, turns_of, walks, with_branch, END };
}());
