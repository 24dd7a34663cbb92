// The groups of a run for a page, from what `trace FIRST COUNT` of the program prints: `front/ordering/states.py` and
// `front/tracing`, as far as a page wants them, under the names of the Python. `front/tests/test_page_drawing.py` holds the steps
// and their words to those of the Python.
//
// Places of a run are of a figure, whose rows have the labels and the slots.
var ia64 = globalThis.ia64 = globalThis.ia64 || {};

(function () {
  "use strict";

  function range(first, behind) {
    return Array.from({ length: Math.max(0, behind - first) }, (_, at) => first + at);
  }

  // The rest of a division, which isn't negative.
  function modulo(number, size) {
    return (number % size + size) % size;
  }

  // ---- states.py -----------------------------------------------------------------------------------------------------------

  // What the lines of a printed state are of, in their order.
  const KINDS = ["end", "groups", "frame", "rse", "r", "pr", "b", "ar.unat", "ar.pfs", "ar.lc", "ar.ec", "m", "alat"];

  // The lines of a printed state by what they are of: `r8`, `m` and its address, `alat` and its number, from 1.
  function lines_of(state) {
    const lines = new Map();
    let entries = 0;
    for (const line of state.trimEnd().split("\n")) {
      let [, name, value] = line.match(/^(m \S+|\S+) (.*)$/);
      if (name === "alat") {
        entries += 1;
        name = `alat ${entries}`;
      }
      lines.set(name, value);
    }
    return lines;
  }

  // The names of the lines that aren't the same in two states, in the order of a printed state.
  function differing(one, other) {
    const names = [...new Set([...one.keys(), ...other.keys()])].filter((name) => one.get(name) !== other.get(name));
    return names.sort((first, second) => is_before(rank_of(first), rank_of(second)) ? -1 : 1);
  }

  // Where a line of this name stands among the others of a printed state.
  function rank_of(name) {
    const kind = name.match(/^[a-z.]+/)[0], number = name.slice(kind.length);
    return [KINDS.indexOf(kind), number.length, number];
  }

  function is_before(one, other) {
    const at = one.findIndex((part, index) => part !== other[index]);
    return at >= 0 && one[at] < other[at];
  }

  function position_of(said) {
    return said.split(".").map(Number);
  }

  // A printed frame: its first cell, its sizes, and the rename bases.
  class Frame {
    constructor(printed) {
      [this.first, this.sof, this.sol, this.sor, this.rrb, this.rrb_of_floats, this.rrb_of_predicates] =
        printed.match(/\d+/g).map(Number);
    }

    // The cell that a register from r32 up names.
    cell(register) {
      const index = register - 32, size = 8 * this.sor;
      return this.first + (index < size ? modulo(index + this.rrb, size) : index);
    }

    // The number of the register that names a cell, null where it isn't in the frame.
    register(cell) {
      const index = cell - this.first, size = 8 * this.sor;
      if (index < 0 || index >= this.sof) { return null; }
      return 32 + (index < size ? modulo(index - this.rrb, size) : index);
    }

    // The place that a predicate names.
    place(predicate) {
      return predicate < 16 ? predicate : 16 + modulo(predicate - 16 + this.rrb_of_predicates, 48);
    }

    // The number of the predicate that names a place.
    predicate(place) {
      return place < 16 ? place : 16 + modulo(place - 16 - this.rrb_of_predicates, 48);
    }
  }

  // A printed state.
  class State {
    constructor(text) {
      this.lines = lines_of(text);
      this.frame = new Frame(this.lines.get("frame"));
      this.predicates = BigInt(`0x${this.lines.get("pr")}`);
    }

    // The entries of the ALAT: of each register its address and its number of bytes, as they are printed.
    alat() {
      const entries = [...this.lines].filter(([name]) => name.startsWith("alat ")).map(([, value]) => value.split(" "));
      return new Map(entries.map(([register, ...entry]) => [register, entry]));
    }

    // What a line has, where one that is 0 has none.
    value(name) {
      return this.lines.get(name) || ZERO;
    }

    bit(place) {
      return String(this.predicates >> BigInt(place) & 1n);
    }
  }

  // ---- changes.py ----------------------------------------------------------------------------------------------------------

  // The names that people use beside those of the registers.
  const USED_NAMES = { r1: "gp", r8: "ret0", r9: "ret1", r10: "ret2", r11: "ret3", r12: "sp", r13: "tp", b0: "rp" };

  // What a register holds that has no line, and what is said of one that isn't there.
  const ZERO = "0".repeat(16), OUTSIDE = "outside the frame", NO_ENTRY = "no entry";

  // Numbers from here to there are shown in decimal too, as those below are that are negative.
  const LEAST = 10n, MOST = 0xffffn;

  // Where bundle 0 stands.
  const CODE_AT = 0x10000n;

  // ---- Values

  // A text with a note in parentheses, where there is one.
  function noted(text, note) {
    return note ? `${text} (${note})` : text;
  }

  function number_of(digits) {
    return BigInt(`0x${digits}`);
  }

  function hexadecimal(value) {
    return `0x${value.toString(16)}`;
  }

  // A value as it is printed, in hexadecimal as short as can be, with the decimal number beside it where that is small.
  function said_value(printed) {
    const [digits, nat] = printed.split(" "), value = number_of(digits), signed = BigInt.asIntN(64, value);
    const is_small = LEAST <= signed && signed <= MOST || -MOST <= signed && signed < 0n;
    return noted(hexadecimal(value), is_small ? String(signed) : "") + (nat ? ` ${nat}` : "");
  }

  function said_frame(sof, sol, sor) {
    return `sof ${sof}, sol ${sol}` + (sor ? `, sor ${sor}` : "");
  }

  // The value of `ar.pfs`, with the frame that it stands for.
  function said_pfs(printed) {
    const value = number_of(printed);
    return noted(hexadecimal(value), value ? said_frame(value & 127n, value >> 7n & 127n, value >> 14n & 15n) : "");
  }

  // The value of a branch register, with the bundle that it is the address of.
  function said_branch(printed, figure) {
    const value = number_of(printed);
    return noted(hexadecimal(value), bundle_at(value, figure));
  }

  // What is said of the bundle at an address, nothing where none is there.
  function bundle_at(address, figure) {
    const number = Number(address - CODE_AT) / 16, row = figure.rows[number];
    return row ? [`bundle ${number}`, ...row.labels.slice(0, 1)].join(", ") : "";
  }

  // An entry of the ALAT but for its register.
  function said_entry(entry) {
    if (!entry) { return NO_ENTRY; }
    const [address, count] = entry;
    return `[${hexadecimal(number_of(address))}], ${count} byte${count === "1" ? "" : "s"}`;
  }

  // What a register or a word of the data holds, by the name of its line.
  function said(name, printed, figure) {
    if (name === "ar.pfs") { return said_pfs(printed); }
    return name[0] === "b" ? said_branch(printed, figure) : said_value(printed);
  }

  // ---- Names

  // The name of a line of a state, with the name that people use.
  function line_name(name) {
    return name.startsWith("m ") ? `[${hexadecimal(number_of(name.slice(2)))}]` : noted(name, USED_NAMES[name]);
  }

  // The name of a register of the frame: as an output of it, where it has locals, and with the name that it had before.
  function register_name(number, frame, was) {
    const notes = 0 < frame.sol && frame.sol <= number - 32 ? [`out${number - 32 - frame.sol}`] : [];
    return noted(`r${number}`, [...notes, ...was === null || was === number ? [] : [`r${was} before`]].join(", "));
  }

  // Numbers of registers, told as spans: `r32 to r34`.
  function spans(letter, numbers) {
    return stretches(numbers.map((number) => [number, number])).map(([first, last]) => span(letter, first[0], last[0]));
  }

  function span(letter, first, last) {
    return first === last ? `${letter}${first}` : `${letter}${first} to ${letter}${last}`;
  }

  // The first and the last pair of each stretch of pairs, the lowest first, in which both numbers go up by one.
  function stretches(pairs) {
    const found = [];
    for (const pair of [...pairs].sort((one, other) => one[0] - other[0])) {
      const last = found.length ? found[found.length - 1][1] : [];
      if (pair[0] === last[0] + 1 && pair[1] === last[1] + 1) {
        found[found.length - 1][1] = pair;
      } else {
        found.push([pair, pair]);
      }
    }
    return found;
  }

  // ---- Changes

  // All changes from one state to another, in the order of the lines of a state, and the frame first.
  function changes(before, after, figure) {
    const lines = differing(before.lines, after.lines);
    return [...frame_changes(before.frame, after.frame), ...names_changed(before.frame, after.frame),
      ...line_changes(range(1, 32).map((number) => `r${number}`), before, after, figure),
      ...register_changes(before, after), ...predicate_changes(before, after),
      ...line_changes(lines.filter((name) => /^(b\d|ar\.)/.test(name)), before, after, figure),
      ...line_changes(lines.filter((name) => name.startsWith("m ")), before, after, figure),
      ...alat_changes(before, after), ...stack_changes(before, after)];
  }

  // A change, where it is one.
  function changed(name, old, new_) {
    return old === new_ ? [] : [{ name, old, new: new_ }];
  }

  // The parts of the frame that are others, and the rename bases of the general registers, the floating-point registers and the
  // predicates.
  function frame_changes(before, after) {
    return [...changed("frame", ...parts_apart(["cell", before.first, after.first], ["sof", before.sof, after.sof],
      ["sol", before.sol, after.sol], ["sor", before.sor, after.sor])),
    ...changed("rename bases", ...parts_apart(["r", before.rrb, after.rrb], ["f", before.rrb_of_floats, after.rrb_of_floats],
      ["p", before.rrb_of_predicates, after.rrb_of_predicates]))];
  }

  // What is said of the parts that differ, before and after.
  function parts_apart(...parts) {
    const apart = parts.filter((part) => part[1] !== part[2]);
    return [1, 2].map((at) => apart.map((part) => `${part[0]} ${part[at]}`).join(", "));
  }

  // The registers that a call leaves below the frame, those that a return brings back, and what is named otherwise.
  function names_changed(before, after) {
    const left = range(before.first, Math.min(after.first, before.first + before.sof)).map((cell) => before.register(cell));
    const back = range(after.first, Math.min(before.first, after.first + after.sof)).map((cell) => after.register(cell));
    const both = range(Math.max(before.first, after.first), Math.min(before.first + before.sof, after.first + after.sof));
    return [...spans("r", left).map((each) => ({ name: each, old: "in the frame", new: "below it" })),
      ...spans("r", back).map((each) => ({ name: each, old: "below the frame", new: "in it again" })),
      ...renamed("r", both.map((cell) => [before.register(cell), after.register(cell)])),
      ...renamed("p", range(16, 64).map((place) => [before.predicate(place), after.predicate(place)]))];
  }

  function renamed(letter, pairs) {
    return stretches(pairs.filter(([old, new_]) => old !== new_)).map(([first, last]) =>
      ({ name: "renamed", old: span(letter, first[0], last[0]), new: span(letter, first[1], last[1]) }));
  }

  // The changes of what has lines of these names.
  function line_changes(names, before, after, figure) {
    return names.filter((name) => before.value(name) !== after.value(name)).map((name) =>
      ({ name: line_name(name), old: said(name, before.value(name), figure), new: said(name, after.value(name), figure) }));
  }

  // The cells of the frame whose values are others.
  function register_changes(before, after) {
    return range(32, 32 + after.frame.sof).flatMap((number) => {
      const cell = after.frame.cell(number), value = after.value(`r${number}`), was = before.frame.register(cell);
      const old = was === null ? ZERO : before.value(`r${was}`);
      if (value === old || was === null && cell < before.frame.first) { return []; }
      const shown = was === null ? OUTSIDE : said_value(old);
      return [{ name: register_name(number, after.frame, was), old: shown, new: said_value(value) }];
    });
  }

  // The places of the predicates whose bits are others, by the names behind the group.
  function predicate_changes(before, after) {
    return range(0, 64).flatMap((number) => {
      const place = after.frame.place(number), was = before.frame.predicate(place);
      return changed(noted(`p${number}`, was === number ? "" : `p${was} before`), before.bit(place), after.bit(place));
    });
  }

  // The entries of the ALAT that are others, and those that are made anew as they were and so are the newest.
  function alat_changes(before, after) {
    const old = before.alat(), now = after.alat();
    const name_of = (register) => `alat ${key_name(register, after.frame)}`;
    const is_same = (register) => String(old.get(register)) === String(now.get(register));
    const others = [...new Set([...old.keys(), ...now.keys()])].flatMap((register) =>
      changed(name_of(register), said_entry(old.get(register)), said_entry(now.get(register))));
    const anew = made_anew([...old.keys()].filter(is_same), [...now.keys()].filter(is_same));
    return [...others, ...anew.map((register) =>
      ({ name: name_of(register), old: said_entry(old.get(register)), new: "the same, and the newest" }))];
  }

  // The register of an entry of the ALAT, by its name behind the group, or the cell that the frame doesn't have.
  function key_name(key, frame) {
    if (key[0] === "r") { return key; }
    const number = frame.register(Number(key.slice(1)));
    return number === null ? `cell ${key.slice(1)}` : `r${number}`;
  }

  // Of the same entries in their order before and after, those that were put behind the others.
  function made_anew(before, after) {
    const at = after.findIndex((register, index) => index && before.indexOf(register) < before.indexOf(after[index - 1]));
    return at < 0 ? [] : after.slice(at);
  }

  // What is another of the register stack's resident range, but for its end, which is that of the frame.
  function stack_changes(before, after) {
    const [old, now] = [before, after].map((state) => state.lines.get("rse").split(" "));
    const rows = ["from cell", "up to cell", "spilled", "filled"].map((name, at) => [name, old[at], now[at]]);
    return changed("rse", ...parts_apart(...rows.filter(([name]) => name !== "up to cell")));
  }

  // ---- steps.py ------------------------------------------------------------------------------------------------------------

  // How an instruction under a predicate begins, but for a branch, which may see what its own group wrote.
  const GUARDED = /^\((p(\d+))\) (?!br\.)/;

  // The line of a group. No trace of the program has `left`: it is of a run in an order, which is put together in orders.js.
  const GROUP = /^(\d+) (\d+\.\d) (\d+\.\d) (falls|taken|ends|left)\n/m;

  // What a trace tells of the run of a program with this figure: the state before its first group, `before`, and its groups, as
  // `steps`. Each has its number, from 1; the places of its first and its last slot; how it ended; the places of all its slots;
  // those that aren't branches and whose predicate is 0, each with that; the words of the line `end`; what it changed, and the
  // state behind it.
  //
  // Of a figure the rows are wanted, with their labels and their slots, and of these the places and the texts. Where there is no
  // figure, no slots between the first and the last one and no labels are told. Which predicates are 0 is told of an accepted
  // program alone: in another one a group may write a predicate before a slot of it reads that.
  function of_trace(text, drawn, is_accepted) {
    const [printed, ...parts] = text.split(GROUP), before = new State(printed), steps = [], figure = drawn || { rows: [] };
    for (let at = 0; at < parts.length; at += 5) {
      const [number, start, end, how] = parts.slice(at, at + 4), state = new State(parts[at + 4]);
      const first = position_of(start), last = position_of(end), old = steps.length ? steps[steps.length - 1].state : before;
      const slots = slots_between(figure, first, last), off = is_accepted ? off_before(old, slots, figure) : [];
      steps.push({ number: Number(number), first, last, how, slots, off, end: state.lines.get("end"),
        changes: changes(old, state, figure), state });
    }
    return { figure, before, steps };
  }

  // The places from one to another, in order.
  function slots_between(figure, first, last) {
    const slots = figure.rows.slice(first[0], last[0] + 1).flatMap((row) => row.slots.map((slot) => slot.place));
    return slots.filter(([bundle, slot]) => (bundle > first[0] || slot >= first[1]) && (bundle < last[0] || slot <= last[1]));
  }

  // Of the slots of an accepted program's group those that aren't branches and whose predicate is 0 in the state before it, each
  // with that predicate.
  function off_before(state, slots, figure) {
    const off = [];
    for (const place of slots) {
      const [, predicate, number] = canonical(figure, place).match(GUARDED) || [];
      if (predicate && state.bit(state.frame.place(Number(number))) === "0") { off.push([place, predicate]); }
    }
    return off;
  }

  // The place in the words of the line `end`: that of the next slot, or of the one that ended the run.
  function place_of(end) {
    return position_of(end.slice(end.lastIndexOf(" ") + 1));
  }

  // ---- lines.py ------------------------------------------------------------------------------------------------------------

  // What a branch or a check is called that was taken, by how its word begins.
  const TURNS = [["br.call", "a call of"], ["br.ret", "a return to"], ["chk", "a check to"], ["br", "a branch to"]];

  // What the kinds of faults mean.
  const FAULTS = {
    OutOfFrame: "a general register outside the frame is named",
    NatConsumed: "a register with NaT is used where none may be",
    Unaligned: "the address isn't a multiple of how many bytes are reached",
    BadAddress: "the bytes that are reached aren't all data",
    BadFrame: "the value of ar.pfs names no frame",
    ReservedField: "bits of ar.pfs that have to be zero aren't, or sor changes while a rename base isn't 0",
    Underflow: "a return reaches below cell 0",
    StackLimit: "the frame would end past cell 65,535",
    BadLanding: "an indirect branch goes to no entry",
    BadRelation: "an indirect branch goes to an entry of which a relation is broken: both predicates are 1",
    FellOff: "the last slot of the program falls through",
  };

  // What stands in a slot, as the program spells it.
  function canonical(figure, [bundle, at]) {
    const slot = figure.rows[bundle].slots.find((each) => each.place[1] === at);
    return slot.canonical || slot.text;
  }

  // The mnemonic of a slot with its completers, as the program spells it.
  function word_of(figure, place) {
    return canonical(figure, place).replace(/^\(p\d+\) /, "").split(" ")[0];
  }

  function named(place) {
    return place.join(".");
  }

  // A place, with the first label of its bundle where it begins that.
  function said_place(place, figure) {
    return noted(named(place), place[1] === 0 && place[0] < figure.rows.length ? figure.rows[place[0]].labels[0] : "");
  }

  // The line of a group: its number, its first and its last place, and how it ended, where that is known.
  function heading(step, figure) {
    const last = named(step.last) === named(step.first) ? "" : ` to ${named(step.last)}`;
    const said = `group ${step.number}: ${said_place(step.first, figure)}${last}`;
    if (step.how === "left") { return `${said}, and perhaps more; it goes on at ${said_place(place_of(step.end), figure)}`; }
    return `${said}, then ${ended(step, figure)}`;
  }

  // How a group ended. By what it went on elsewhere, a figure tells.
  function ended(step, figure) {
    if (step.how === "falls") { return "a stop"; }
    if (step.how === "ends") { return step.end.slice(0, step.end.lastIndexOf(" at ")); }
    if (!figure.rows.length) { return `on to ${said_place(place_of(step.end), figure)}`; }
    const word = word_of(figure, step.last), [, turn] = TURNS.find(([begin]) => word.startsWith(begin));
    return `${turn} ${said_place(place_of(step.end), figure)}`;
  }

  // Which predicates of slots of a group are 0, each with the places of these slots.
  function said_off(step) {
    const found = new Map();
    step.off.forEach(([place, predicate]) => found.set(predicate, [...(found.get(predicate) || []), named(place)]));
    return [...found].map(([predicate, places]) => `${predicate} is 0: ${places.join(", ")}`).join("; ");
  }

  // How a run ended, by the words of the line `end` and how many groups there were.
  function said_end(end, groups) {
    const [kind, what] = end.split(" "), at = named(place_of(end)), behind = `after ${groups} group${groups === 1 ? "" : "s"}`;
    if (kind === "fault") {
      return `the run ended at ${at} with the fault ${what}, ${behind}: ${FAULTS[what] || "unknown here"}`;
    }
    return `the run ended at ${at} with break ${what}, ${behind}`;
  }

  // ---- A state as a table --------------------------------------------------------------------------------------------------

  // The rows of a state: what each is called, what it holds, and what it held before, where that is something else. What is 0 has
  // a row only where it wasn't before.
  function rows_of(before, after, figure) {
    const old = before.alat(), now = after.alat(), registers = [...new Set([...now.keys(), ...old.keys()])];
    const lines = [...new Set([...after.lines.keys(), ...before.lines.keys()])];
    const names = lines.filter((name) => !/^(end|groups|alat)/.test(name));
    names.sort((one, other) => is_before(rank_of(one), rank_of(other)) ? -1 : 1);
    const row = (name, value, was) => [name, value, value === was ? "" : was];
    return [...names.map((name) =>
      row(shown_name(name, after), shown_value(name, after, figure), shown_value(name, before, figure))),
    ...registers.map((register) =>
      row(`alat ${key_name(register, after.frame)}`, said_entry(now.get(register)), said_entry(old.get(register))))];
  }

  // What the row of a line is called.
  function shown_name(name, state) {
    if (name === "pr") { return "predicates that are 1"; }
    return is_stacked(name) ? register_name(Number(name.slice(1)), state.frame, null) : line_name(name);
  }

  // What the row of a line holds.
  function shown_value(name, state, figure) {
    const frame = state.frame;
    if (name === "frame") {
      const bases = `r ${frame.rrb}, f ${frame.rrb_of_floats}, p ${frame.rrb_of_predicates}`;
      const sizes = `from cell ${frame.first}, ${said_frame(frame.sof, frame.sol, frame.sor)}`;
      return sizes + (/[1-9]/.test(bases) ? `; rename bases ${bases}` : "");
    }
    if (name === "rse") {
      const [low, high, spilled, filled] = state.lines.get(name).split(" ");
      return `cells ${low} up to ${high}, spilled ${spilled}, filled ${filled}`;
    }
    if (name === "pr") {
      return range(0, 64).filter((number) => state.bit(frame.place(number)) === "1").map((number) => `p${number}`).join(", ");
    }
    return is_stacked(name) && Number(name.slice(1)) >= 32 + frame.sof ? OUTSIDE : said(name, state.value(name), figure);
  }

  function is_stacked(name) {
    return /^r\d/.test(name) && Number(name.slice(1)) >= 32;
  }

  ia64.steps = { of_trace, heading, is_before, lines_of, place_of, rank_of, rows_of, said_end, said_off, said_place, FAULTS,
    GROUP, State };
}());
