// The slots that one group of a run reaches, and the writes that they have, in program order: `front/ordering/writes.py` under
// its names, of the slots of a figure. `front/tests/test_page.py` holds it to that. What the states round a group don't tell
// isn't guessed: a fault says what it is.
var ia64 = globalThis.ia64 = globalThis.ia64 || {};
(function () {
  "use strict";

  const { is_before, place_of } = ia64.steps;

  const SLOT = /^(?:\(p(\d+)\) )?(\S+)(?: (.*))?$/, LABEL = /L(\d+)$/, BASE = /\[(r\d+)\],/g;
  const NOTHING = ["nop", "hint", "break", "chk", "invala", "mf"];
  const MEMORY = ["ld", "st", "xchg", "fetchadd", "invala", "chk.a"];
  const LOOPS = ["br.cloop", "br.ctop", "br.cexit", "br.wtop", "br.wexit"];
  const COMPARES = ["cmp", "cmp4", "tbit", "tnat"];

  // What the states round a group don't tell: of how it ends, `reached` is a slot that it reaches whatever that is.
  class Untold extends Error {
    constructor(said, reached = null) {
      super(said);
      this.reached = reached;
    }
  }

  // The slots of each bundle of a figure: their places, their names, and what their canonical texts have.
  function rows_of(figure) {
    return figure.rows.map((row) => row.slots.map((slot) => {
      const [, guard, word, operands] = (slot.canonical || slot.text).match(SLOT);
      return { place: slot.place, name: slot.name, guard: Number(guard || 0), word, operands: operands || "",
        has_stop: slot.has_stop };
    }));
  }

  // Whether the leading word of a slot begins with one of these.
  function is_of(slot, words) {
    return words.some((word) => slot.word.startsWith(word) && !/^[a-z]/.test(slot.word.slice(word.length)));
  }

  // ---- States --------------------------------------------------------------------------------------------------------------

  function position(state) {
    return place_of(state.lines.get("end"));
  }

  // What a general register holds, and whether it has a NaT.
  function register(state, number) {
    const [digits, nat] = state.value(`r${number}`).split(" ");
    return [BigInt(`0x${digits}`), nat === "nat"];
  }

  function predicate(state, number) {
    return state.bit(state.frame.place(number)) === "1";
  }

  function counter(state, name) {
    return BigInt(`0x${state.value(name)}`);
  }

  // What an entry of the ALAT calls a register.
  function key(state, number) {
    return number < 32 ? `r${number}` : `s${state.frame.cell(number)}`;
  }

  // ---- What a group reaches ------------------------------------------------------------------------------------------------

  // The slots from a position to the first one with a stop behind it, and the position that follows.
  function straight(rows, [bundle, first]) {
    const found = [];
    for (let number = bundle; number < rows.length; number += 1) {
      for (const slot of rows[number].slice(number === bundle ? first : 0)) {
        found.push(slot);
        if (slot.has_stop) { return [found, next_position(rows, slot.place)]; }
      }
    }
    return [found, [rows.length, 0]];
  }

  function next_position(rows, [bundle, slot]) {
    return slot + 1 < rows[bundle].length ? [bundle, slot + 1] : [bundle + 1, 0];
  }

  function is_same(one, other) {
    return one[0] === other[0] && one[1] === other[1];
  }

  // The group that a run executes between two states, the second of which is that at its end: the slots that it reaches, but for
  // one that ends the run; whether its last slot branched away; and the slot behind them that ended the run, or null.
  function group_between(rows, before, after) {
    const [slots, behind] = straight(rows, position(before)), to = position(after);
    if (!after.lines.get("end").startsWith("limit")) {
      const reached = slots.filter((slot) => is_before(slot.place, to));
      return { slots: reached, taken: false, ended: slots[reached.length] };
    }
    let ways = [...slots.keys()].filter((at) => may_lead(slots[at], before, written(slots.slice(0, at)), to));
    const sure = ways.find((at) => must_lead(slots[at], before, written(slots.slice(0, at)))), last = slots.length - 1;
    const may_fall = sure === undefined && is_same(behind, to) &&
      !(ways[ways.length - 1] === last && is_of(slots[last], ["br.cond"]));
    if (sure !== undefined) { ways = ways.filter((at) => at <= sure); }
    if (ways.length + may_fall !== 1) {
      const branches = ways.map((at) => slots[at].name).join(" or ") || slots[0].name;
      throw new Untold(`whether the branch at ${branches} is taken isn't told by the states round the group`,
        slots[ways[0] || 0]);
    }
    return { slots: slots.slice(0, (may_fall ? last : ways[0]) + 1), taken: !may_fall, ended: null };
  }

  // The predicates that slots name as targets; null for all of them.
  function written(slots) {
    const found = new Set();
    for (const slot of slots) {
      if (slot.word === "mov" && /^pr(\.rot)?=/.test(slot.operands)) { return null; }
      if (is_of(slot, COMPARES)) {
        targets(slot).forEach((name) => found.add(Number(name.slice(1))));
      } else if (is_of(slot, LOOPS)) {
        found.add(63);
      }
    }
    return found;
  }

  // Whether the qualifying predicate of a slot is 1, as it sees that; null where it isn't known. A branch sees what earlier slots
  // of its group wrote.
  function guard_of(slot, before, changed) {
    const is_unknown = slot.guard && slot.word.startsWith("br.") && (changed === null || changed.has(slot.guard));
    return is_unknown ? null : predicate(before, slot.guard);
  }

  // Whether a slot may leave its group for this position.
  function may_lead(slot, before, changed, to) {
    const label = slot.operands.match(LABEL);
    if (label && !is_same(to, [Number(label[1]), 0]) || to[1] !== 0) { return false; }
    const guard = guard_of(slot, before, changed), counts = counter(before, "ar.ec") > 1n;
    const goes_on = counter(before, "ar.lc") !== 0n || counts;
    if (is_of(slot, ["br.cond", "br.call", "br.ret"])) { return guard !== false; }
    return is_of(slot, ["br.cloop"]) && counter(before, "ar.lc") !== 0n || is_of(slot, ["br.ctop"]) && goes_on ||
      is_of(slot, ["br.cexit"]) && !goes_on || is_of(slot, ["br.wtop"]) && (guard !== false || counts) ||
      is_of(slot, ["br.wexit"]) && guard !== true && !counts ||
      is_of(slot, ["chk.a"]) && guard !== false || is_of(slot, ["chk.s"]) && guard && checks(slot, before);
  }

  // Whether a `chk.s` finds a NaT.
  function checks(slot, before) {
    return register(before, Number(slot.operands.split(",")[0].slice(1)))[1];
  }

  // Whether a slot that may leave its group leaves it.
  function must_lead(slot, before, changed) {
    return is_of(slot, ["br.cloop", "br.ctop", "br.cexit", "chk.s"]) ||
      !is_of(slot, ["chk.a"]) && guard_of(slot, before, changed) !== null;
  }

  // ---- What a slot writes --------------------------------------------------------------------------------------------------

  // What stands before the equals sign, but for p0.
  function targets(slot) {
    return slot.operands.split("=")[0].split(",").filter((name) => name !== "p0");
  }

  // The writes of a group, in program order: of each its slot, and what it writes as the slot names it.
  function writes_of(group, before) {
    return group.slots.flatMap((slot, at) => {
      const earlier = group.slots.slice(0, at), is_last = at + 1 === group.slots.length;
      let guard = guard_of(slot, before, written(earlier));
      if (guard === null && is_of(slot, ["br.call", "br.ret"])) { guard = is_last && group.taken; }
      return targets_of(slot, earlier, guard, before).map((target) => ({ slot, target }));
    });
  }

  // What a slot writes, in the order in which it does.
  function targets_of(slot, earlier, guard, before) {
    if (is_of(slot, NOTHING) || is_of(slot, ["br.cond"])) { return []; }
    if (is_of(slot, LOOPS)) { return targets_of_loop(slot, guard, before); }
    if (is_of(slot, COMPARES) && (guard || slot.word.includes(".unc"))) { return compares(slot, before) ? targets(slot) : []; }
    if (!guard) { return []; }
    if (slot.word.startsWith("ld")) {
      return [...loaded(slot, earlier, before), ...Array.from(slot.operands.matchAll(BASE), (found) => found[1])];
    }
    if (slot.word.startsWith("st")) { return Array.from(slot.operands.matchAll(/\[(r\d+)\]=.*,/g), (found) => found[1]); }
    if (slot.word === "alloc") { return [...earlier.length ? ["frame"] : [], ...targets(slot)]; }
    if (slot.word === "mov" && slot.operands.startsWith("pr")) { return places(slot.operands); }
    if (is_of(slot, ["br.call"])) { return [...targets(slot), "ar.pfs", "frame"]; }
    if (is_of(slot, ["br.ret"])) { return ["frame", "ar.ec"]; }
    return is_of(slot, ["clrrrb"]) ? ["frame"] : targets(slot).slice(0, 1);
  }

  // What a loop branch writes: the counter that it counts down, p63 and the frame.
  function targets_of_loop(slot, guard, before) {
    const loops = counter(before, "ar.lc") !== 0n, counts = counter(before, "ar.ec") !== 0n;
    if (is_of(slot, ["br.cloop"])) { return loops ? ["ar.lc"] : []; }
    if (is_of(slot, ["br.ctop", "br.cexit"])) {
      return loops ? ["ar.lc", "p63", "frame"] : counts ? ["ar.ec", "p63", "frame"] : ["p63"];
    }
    if (guard === null) {
      throw new Untold(`what ${slot.name} writes isn't told: an earlier slot of the group writes its qualifying predicate`);
    }
    return guard ? ["p63", "frame"] : counts ? ["ar.ec", "p63", "frame"] : ["p63"];
  }

  // The target of a load, which a check load that hits doesn't write.
  function loaded(slot, earlier, before) {
    const [target] = targets(slot);
    if (!slot.word.includes(".c.")) { return [target]; }
    if (earlier.some((each) => is_of(each, MEMORY))) {
      throw new Untold(`whether ${slot.name} writes ${target} isn't told: ` +
        "an earlier slot of the group reaches memory or the ALAT");
    }
    const [address] = register(before, Number(slot.operands.match(/\[r(\d+)\]/)[1]));
    const entry = [address.toString(16).padStart(16, "0"), slot.word.match(/^ld(\d)/)[1]];
    const is_there = String(before.alat().get(key(before, Number(target.slice(1))))) === String(entry);
    return is_there ? [] : [target];
  }

  // Whether a compare of this kind writes its targets: `or` where it holds, `and` where it doesn't; the others always do.
  function compares(slot, before) {
    const kind = slot.word.match(/\.(or|and)(?:\.|$)/);
    if (!kind) { return true; }
    const found = slot.operands.split("=")[1].split(",").map((word) => operand(word, before));
    const bits = slot.word.startsWith("cmp4") ? 32 : 64, [left, right] = found.map(([value]) => BigInt.asIntN(bits, value));
    const holds = { eq: left === right, ne: left !== right, lt: left < right, le: left <= right, gt: left > right,
      ge: left >= right }[slot.word.split(".")[1]];
    return (holds && !found.some(([, nat]) => nat)) === (kind[1] === "or");
  }

  function operand(word, before) {
    if (word.startsWith("r")) { return register(before, Number(word.slice(1))); }
    return [word.startsWith("-") ? -BigInt(word.slice(1)) : BigInt(word), false];
  }

  // The predicates that a move to them writes, by their places: from p16 up a place isn't named as the slot would name it.
  function places(operands) {
    const is_rotating = operands.startsWith("pr.rot="), mask = is_rotating ? 1 << 16 : Number(operands.split(",")[1]);
    const numbers = Array.from({ length: 63 }, (_, at) => at + 1).filter((number) => mask >> Math.min(number, 16) & 1);
    return numbers.map((number) => `${number < 16 ? "p" : "place"}${number}`);
  }

  // ---- Orders --------------------------------------------------------------------------------------------------------------

  // The order with this number of so many writes: their numbers, from 0 and in program order, as they are made.
  function arranged(number, count) {
    const left = Array.from({ length: count }, (_, at) => at), made = [];
    let rest = BigInt(number);
    while (left.length) {
      const size = BigInt(left.length);
      made.push(...left.splice(Number(rest % size), 1));
      rest /= size;
    }
    return made;
  }

  ia64.writes = { arranged, group_between, rows_of, writes_of, Untold };
}());
