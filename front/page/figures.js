// Figures of programs for a page: what `front/drawing` finds out of a text or an image by the answers of the program, under the
// same names as in the Python, file by file. `front/tests/test_page_drawing.py` holds the figures to those of the Python.
//
// `ask` calls the program: of a list of words and the bytes of an input it gives `{status, output}`.
var ia64 = globalThis.ia64 = globalThis.ia64 || {};

(function () {
  "use strict";

  const { in_order, is_number, key_of, put, sorted } = ia64.drawing;
  const { branches, is_break, joined, slots_of, split_all, stops_behind, turns_of, walks, with_branch, END } = ia64.bundles;

  // Why there is no figure, and at which line of a text.
  class Fault extends Error {
    constructor(said, line) {
      super(said);
      this.line = line;
    }
  }

  // ---- rules.py ------------------------------------------------------------------------------------------------------------

  // What is said of two slots of a text that break a rule, the first and the second one in their group.
  const RULES = {
    RAW: "{1} reads what {0} writes in the same group",
    WAW: "{1} writes what {0} writes in the same group",
    WAR63: "{1} writes what {0} reads in the same group",
    ALLOC: "{1} has to be the first of its group, and {0} stands before it",
    CLEAR: "{0} has to be the last of its group, and {1} stands behind it",
  };

  // ---- accesses.py ---------------------------------------------------------------------------------------------------------

  // What instructions whose mnemonics begin so read and write beside what their texts say.
  const IMPLICIT = [
    [/^alloc/, "cfm", "cfm"],
    [/^br\.call/, "cfm ec", "cfm pfs"],
    [/^br\.ret/, "pfs", "cfm ec"],
    [/^br\.c(top|exit|loop)/, "lc", "lc"],
    [/^br\.[cw](top|exit)/, "ec cfm", "ec cfm p63"],
    [/^clrrrb/, "", "cfm"],
    [/^st8\.spill/, "", "unat"],
    [/^ld8\.fill/, "unat", ""],
  ];

  const INSTRUCTION = /^(?:\((p\d+)\) )?(\S+)(?: (.*))?$/;
  const REGISTER = /(?<![\w.$])(?:ar\.(unat|pfs|lc|ec)|([rpb]\d+))(?![\w.$])/g;
  const BASE = /\[[^\]]*\]/g;
  const FIRST_STACKED = { r: 32, p: 16, f: 32 };

  // The registers that a text names, without r0 and p0.
  function registers(text) {
    return Array.from(text.matchAll(REGISTER), (found) => found[1] || found[2]).filter((name) => name !== "r0" && name !== "p0");
  }

  // The predicates from one number up to another.
  function predicates(first, behind) {
    return Array.from({ length: behind - first }, (_, at) => `p${first + at}`);
  }

  // Whether what a name means depends on the frame.
  function is_framed(name) {
    return is_number(name.slice(1)) && name[0] in FIRST_STACKED && Number(name.slice(1)) >= FIRST_STACKED[name[0]];
  }

  // A text before its first mark and behind it, as Python parts it.
  function partition(text, mark) {
    const at = text.indexOf(mark);
    return at < 0 ? [text, "", ""] : [text.slice(0, at), mark, text.slice(at + mark.length)];
  }

  // The accesses of an instruction of the profile by its canonical text.
  function accesses_of(text) {
    const [, guard = "", mnemonic, operands = ""] = text.match(INSTRUCTION);
    let [left, equals, right] = partition(operands, "=");
    if (!equals) { [left, right] = ["", left]; }
    const names = registers(operands), bases = (operands.match(BASE) || []).flatMap(registers);
    if (/^(chk\.a|invala)/.test(mnemonic)) {
      left = right = "";                     // they name a register of which they look at no value
    }
    const writes = new Set(registers(left.replace(BASE, "")));
    const reads = new Set([...registers(right), ...(left.match(BASE) || []).flatMap(registers)]);
    if (/^(ld|st)/.test(mnemonic) && (mnemonic.startsWith("st") ? right : right.replace(BASE, "")).includes(",")) {
      bases.forEach((name) => writes.add(name));
    }
    for (const [form, read, written] of IMPLICIT) {
      if (form.test(mnemonic)) {
        read.split(" ").filter(Boolean).forEach((name) => reads.add(name));
        written.split(" ").filter(Boolean).forEach((name) => writes.add(name));
      }
    }
    if (guard) { reads.add(guard); }
    if ([...names, guard].some(is_framed)) { reads.add("cfm"); }
    placed_reads(mnemonic, right).forEach((name) => reads.add(name));
    placed_writes(left, right).forEach((name) => writes.add(name));
    return { guard, reads: in_order(reads), writes: in_order(writes), seen: in_order(seen(mnemonic, guard, right, reads)),
      unguarded: in_order(unguarded(mnemonic, guard, new Set([...reads, ...writes]))) };
  }

  // The predicates that are read by their places: all of them, or those of which an entry may promise something.
  function placed_reads(mnemonic, right) {
    if (right === "pr") { return predicates(1, 64); }
    return is_indirect(mnemonic, right) ? predicates(1, 16) : [];
  }

  // The predicates that a move writes by their places.
  function placed_writes(left, right) {
    if (left === "pr.rot") { return predicates(16, 64); }
    if (left !== "pr") { return []; }
    const mask = Number(partition(right, ",")[2]);
    return predicates(1, 64).filter((_, at) => mask >> Math.min(at + 1, 16) & 1);
  }

  function is_indirect(mnemonic, right) {
    return mnemonic.startsWith("br.") && /^b\d$/.test(right);
  }

  // What a branch sees as earlier slots of its group wrote it.
  function seen(mnemonic, guard, right, reads) {
    if (!mnemonic.startsWith("br.")) { return []; }
    const names = new Set([guard, right, ...mnemonic.startsWith("br.ret") ? ["pfs"] : [],
      ...is_indirect(mnemonic, right) ? predicates(1, 16) : []]);
    return [...names].filter((name) => reads.has(name));
  }

  function unguarded(mnemonic, guard, names) {
    const always = new Set([guard, "cfm"]);
    if (mnemonic.includes(".unc")) {
      [...names].filter((name) => /^p\d+$/.test(name)).forEach((name) => always.add(name));
    } else if (/^br\.w(top|exit)/.test(mnemonic)) {
      always.add("ec").add("p63");
    }
    return [...always].filter((name) => names.has(name));
  }

  // ---- texts.py ------------------------------------------------------------------------------------------------------------

  const CODE = /^(?:[^"/]|"[^"]*"|\/(?!\/)|")*/;
  const OPENING = /^\{\s*\.(m(?:ii|lx|mi|fi|mf|ib|bb|mb|fb)|bbb)#?$/;
  const LABEL = /^[A-Za-z_.$][\w.$]*#?\s*:$/;
  const TEXT = /^\.text#?$/, DATA = /^\.data#?$/;

  // Directives and lines of data begin so; an instruction is any other line that is no label.
  const OUTSIDE = /^(?:\.|data[1248]\b)/;

  // What the reasons of a refused text mean, in few words.
  const REASONS = {
    char: "a byte that isn't a tab or one of 0x20 to 0x7e",
    name: "the leading word begins no line",
    register: "a register is wanted",
    number: "a number is wanted",
    range: "a number outside its field",
    form: "an operand or a mark is missing or left over, or no instruction has these operands",
    misplaced: "the line may not stand there",
    twice: "an earlier line has the label",
    template: "no template has these slots and stops",
    "slot kind": "the instruction doesn't fit its slot",
    limit: "a limit is passed",
    empty: "there is no instruction",
    "no label": "no label has the name",
    relation: "no entry follows the relation",
    "long run": "192 slots stand before it without an end of their run",
  };

  // What a line says, without blanks at its ends, the blanks in front, and the comment with those before it.
  function parts_of(line) {
    const [code] = line.match(CODE);
    return [code.trim(), code.slice(0, code.length - code.trimStart().length), line.slice(code.length)];
  }

  // What a line says alone.
  function said_in(line) {
    return parts_of(line)[0];
  }

  // What a line says without a stop at its end.
  function without_stop(said) {
    return said.endsWith(";;") ? said.slice(0, -2).trimEnd() : said;
  }

  function lines_of_text(text) {
    return text ? text.replace(/\r\n/g, "\n").replace(/\n$/, "").split("\n") : [];
  }

  // The slots of each bundle of a text that the program takes: their lines and what stands there.
  function slots_of_text(text) {
    const bundles = [];
    let is_data = false, is_open = false;
    lines_of_text(text).forEach((line, index) => {
      const said = said_in(line), name = without_stop(said);
      if (OPENING.test(said)) {
        bundles.push([]);
        is_open = true;
      } else if (said === "}") {
        is_open = false;
      } else if (TEXT.test(said) || DATA.test(said)) {
        is_data = DATA.test(said);
      } else if (is_open && !is_data && name && !OUTSIDE.test(name) && !LABEL.test(name)) {
        bundles[bundles.length - 1].push({ line: index + 1, text: name });
      }
    });
    return bundles;
  }

  // The labels in code of a text that the program takes, by the numbers of the bundles that they name.
  function labels_of_text(text) {
    const found = new Map();
    let count = 0, is_data = false;
    for (const line of lines_of_text(text)) {
      const said = said_in(line);
      if (OPENING.test(said)) { count += 1; }
      if (TEXT.test(said) || DATA.test(said)) {
        is_data = DATA.test(said);
      } else if (LABEL.test(said) && !is_data) {
        put(found, count, said.slice(0, -1).trim().replace(/#+$/, ""));
      }
    }
    return found;
  }

  // ---- loosen.py -----------------------------------------------------------------------------------------------------------

  const SLOT = /^(\([^)]*\)\s*)?([\w.$]+)#?(.*)$/;
  const NO_GUARD = /^(?:\(\s*p0\s*\)\s*)?$/;
  const ZERO = /^\s*(?:-?0+|0x0+)?$/;
  const NOP = /^nop(?:\.[mifbx])?$/;

  // Whether an instruction is a `nop` with the number 0 that always does nothing.
  function is_nop(said) {
    const slot = said.match(SLOT);
    return slot !== null && NOP.test(slot[2]) && NO_GUARD.test(slot[1] || "") && ZERO.test(slot[3]);
  }

  // ---- relations.py --------------------------------------------------------------------------------------------------------

  // Lists of predicates of which no two are both 1, so that each pair is in one. Pairs are of two numbers, the lower first.
  function cliques(pairs) {
    const known = new Map(pairs.map((pair) => [key_of(pair), pair])), found = [];
    const numbers = sorted(new Set(pairs.flat()));
    let left = sorted(known.values());
    while (left.length) {
      const clique = [...left[0]];
      for (const number of numbers) {
        const fits = (other) => known.has(key_of([Math.min(number, other), Math.max(number, other)]));
        if (!clique.includes(number) && clique.every(fits)) { clique.push(number); }
      }
      found.push(sorted(clique).map((number) => `p${number}`));
      left = left.filter((pair) => !pair.every((number) => clique.includes(number)));
    }
    return found;
  }

  // What is known of predicates where they excuse two slots, given by their accesses: it rests on their qualifying predicates, of
  // which one that an access doesn't depend on doesn't count.
  function excuse(first, second, resource) {
    const guards = [...new Set([first, second].filter((accesses) => accesses.guard && !accesses.unguarded.includes(resource))
      .map((accesses) => accesses.guard))];
    if (guards.length === 2) { return `${guards[0]} and ${guards[1]} are never both 1`; }
    return guards.length ? `${guards[0]} is 0 there` : "excused by predicates";
  }

  // ---- program.py ----------------------------------------------------------------------------------------------------------

  // The status of the program on these words and this input, and what it prints. Another status than 0, 1 and 3 is no answer.
  function call(ask, words, data) {
    const { status, output } = ask(words, data);
    if (![0, 1, 3].includes(status)) { throw new Fault(`\`${words.join(" ")}\` ended with status ${status}`); }
    return [status, new TextDecoder("latin1").decode(output)];
  }

  // How many pairs of slots break a rule, and the first hundred of them, by a printed verdict. The line of a pair is its key.
  function verdict(text) {
    const [first, ...lines] = text.trimEnd().split("\n");
    return [first === "accepted" ? 0 : Number(first.split(" ")[1]), lines.map(broken)];
  }

  function broken(line) {
    const [rule, resource, ...places] = line.split(" "), [first, second] = places.map((place) => place.split(".").map(Number));
    return { rule, resource, first, second, line };
  }

  // The texts of the slots of each bundle of an image.
  function listing(ask, data) {
    const [status, text] = call(ask, ["list"], data);
    if (status === 3) { throw new Fault("it is checked and not listed"); }
    const rows = [];
    for (const line of text.trimEnd().split("\n")) {
      if (line.startsWith("  ")) {
        rows[rows.length - 1].push(line.slice(2).replace(/ ;;$/, ""));
      } else {
        rows.push([]);
      }
    }
    return rows;
  }

  // ---- programs.py ---------------------------------------------------------------------------------------------------------

  // The parts of an image: what stands before its bundles, the bundles, and the rest.
  class Image {
    constructor(data, ask) {
      const view = new DataView(data.buffer, data.byteOffset), count = view.getUint32(8, true);
      const relations = is_version_2(data) ? view.getUint32(20, true) : 0;
      const first = 24 + 4 * view.getUint32(12, true) + 8 * relations, end = first + 16 * count;
      Object.assign(this, { own: ask, head: data.slice(0, first), code: data.slice(first, end), rest: data.slice(end) });
    }

    // The violations of the program with these bundles, and an end bundle behind them, where those branches lead that `ways`
    // turns away. The image is of version 2, which has room for one more.
    ask(code) {
      const count = new Uint8Array(new Uint32Array([code.length / 16 + 1]).buffer), magic = new TextEncoder().encode("IA64IMG2");
      const data = joined_bytes([magic, count, this.head.slice(12), code, END.packed(), this.rest]);
      const [status, text] = call(this.own, ["check"], data);
      return status === 3 ? [] : verdict(text)[1];
    }
  }

  function is_version_2(data) {
    return data[7] === 0x32;
  }

  function joined_bytes(parts) {
    const data = new Uint8Array(parts.reduce((length, part) => length + part.length, 0));
    let at = 0;
    for (const part of parts) {
      data.set(part, at);
      at += part.length;
    }
    return data;
  }

  // What a pair of slots does, by their texts.
  function said_pair(row, first, second) {
    const texts = [`'${first}'`, `'${second}'`];
    return RULES[row.rule].replace(/\{([01])\}/g, (_, at) => texts[at]);
  }

  // ---- ways.py -------------------------------------------------------------------------------------------------------------

  // Of a program with so many branches, violations and bundles ways are looked for, and so many bundles are checked for it.
  const MOST_BRANCHES = 200, MOST_VIOLATIONS = 20, MOST_LOOKED_AT = 5000, WORK = 100000;

  // The slots of a program's direct branches, each as bundle and slot, with how far it goes; checks don't count.
  function branch_positions(bundles) {
    return bundles.flatMap((bundle, index) => branches(bundle).filter(([slot]) => bundle.units[slot] === "b")
      .map(([slot, away]) => [[index, slot], away]));
  }

  // Of each pair, by its line, the branches without which predicates excuse it, each with its target.
  function ways(image, found) {
    const bundles = split_all(image.code), positions = branch_positions(bundles), made = new Map();
    if (!found.length || found.length > MOST_VIOLATIONS || positions.length > MOST_BRANCHES || bundles.length > MOST_LOOKED_AT ||
        positions.length * bundles.length > WORK) {
      return made;
    }
    for (const [[index, slot], away] of positions) {
      const changed = bundles.map((bundle, at) => at === index ? with_branch(bundle, slot, bundles.length - index) : bundle);
      const left = lines_of(image.ask(joined(changed)));
      const gone = found.filter((row) => !left.has(row.line));
      const bare = gone.length ? lines_of(image.ask(without_guards(changed))) : new Set();
      for (const row of gone.filter((each) => bare.has(each.line))) { put(made, row, [[index, slot], index + away]); }
    }
    return made;
  }

  function lines_of(found) {
    return new Set(found.map((row) => row.line));
  }

  // What is said of the branches of a pair behind it: nothing, or their places, of a text by the lines of its slots.
  function said_ways(found, slots) {
    const name = ([bundle, slot]) => slots ? `line ${slots[bundle][slot].line}` : key_of([bundle, slot]);
    const ways_of = found.map(([place, target]) =>
      `${target <= place[0] ? "the way back from" : "the branch at"} ${name(place)}`);
    return ways_of.length ? `; only by ${ways_of.join(" and ")}` : "";
  }

  // Bundles whose slots, but for branches, checks and breaks, which say where walks go, have p0 for their qualifying predicate.
  function without_guards(bundles) {
    return joined(bundles.map((bundle) => {
      const kept = branches(bundle).map(([slot]) => slot);
      return Array.from(bundle.units).reduce((made, unit, slot) => {
        const word = bundle.words[slot];
        return "bl".includes(unit) || kept.includes(slot) || is_break(unit, word) ? made : made.with_word(slot, word & ~63n);
      }, bundle);
    }));
  }

  // The pairs of these bundles that predicates excuse, the first hundred at most. A last slot that clashes with the end bundle
  // alone, which isn't theirs, is in none.
  function excused(image, found) {
    const bundles = split_all(image.code), bare = without_guards(bundles), known = lines_of(found);
    if (bare.every((byte, at) => byte === image.code[at])) { return []; }
    return image.ask(bare).filter((row) => !known.has(row.line) && row.second[0] < bundles.length);
  }

  // ---- figures.py ----------------------------------------------------------------------------------------------------------

  // So many bundles a picture has at most, and so many violations of a rule between two slots it tells apart.
  const MOST_BUNDLES = 2000, MOST_APART = 3;

  const PROVED = "The verdict is the proved program's. ";
  const CLASHES = `${PROVED}Proved: each pair in red clashes on a walk, and nothing that is known of predicates ` +
    "excuses it there.";
  const ACCEPTS = `${PROVED}Proved: on no walk two slots of one group break a rule; and from every start state at an ` +
    "entry that keeps what the entry promises, each group all at once, under seven exceptions, and in any order of its " +
    "writes leaves what slot by slot leaves (docs/use/check.md, \"What accepted says\").";
  const DRAWN = "Not proved: the drawing, with its excused pairs, its ways, what slots read and write, names and " +
    "lines of sources.";
  const NOT_BUILT = "Nothing is known to be proved of the program that gave the verdict.";

  // The bundles that hold a call.
  function calls(bundles) {
    return bundles.map((_, index) => index).filter((index) => turns_of(index, bundles[index]).some((turn) => turn.calls));
  }

  // Makes the slots of bundles in order, and counts their groups.
  class SlotMaker {
    constructor() { this.group = 0; }

    // The slots of a bundle. `made` gives of each place what stands there: its parts by their names.
    slots(index, bundle, made) {
      const stops = stops_behind(bundle);
      return slots_of(bundle).map((slot) => {
        const unit = bundle.units[slot] === "l" ? "X" : bundle.units[slot].toUpperCase();
        const { name, text, canonical, accesses, source } = made([index, slot]), has_stop = stops.includes(slot);
        const group = this.group;
        this.group += has_stop ? 1 : 0;
        return { place: [index, slot], name, unit, text, canonical, accesses, has_stop, group, is_nop: is_nop(text), mark: "",
          source };
      });
    }
  }

  // Lines of a source, by their numbers.
  function said_lines(numbers) {
    const first = Math.min(...numbers), last = Math.max(...numbers);
    return first === last ? `line ${first}` : `lines ${first}-${last}`;
  }

  // Pairs to be drawn. Where more than a few are by one rule between the same two slots, as of two moves to all predicates, they
  // are one.
  function pairs_of(violations, said, accesses, is_excused) {
    const between = new Map(), found = [];
    for (const row of violations) { put(between, `${row.rule} ${key_of(row.first)} ${key_of(row.second)}`, row); }
    for (const rows of between.values()) {
      const { rule, first, second } = rows[0];
      for (const part of rows.length > MOST_APART ? [rows] : rows.map((row) => [row])) {
        const resources = in_order(part.map((row) => row.resource));
        const why = is_excused ? excuse(accesses.get(key_of(first)), accesses.get(key_of(second)), resources[0]) : "";
        found.push({ rule, resources, first, second, said: part.map(said), excuse: why });
      }
    }
    return found;
  }

  // The pairs that clash by each branch alone, of what is known of the ways to each.
  function only_by(found) {
    const made = new Map();
    for (const row of sorted(found.keys(), (each) => [each.second, each.first, each.rule, each.resource])) {
      for (const [place] of found.get(row)) { put(made, key_of(place), `${row.rule} ${row.resource}`); }
    }
    return made;
  }

  function branch(place, target, said, found) {
    return { place, target, said, only_by: [...new Set(found.get(key_of(place)) || [])] };
  }

  // ---- of_programs.py ------------------------------------------------------------------------------------------------------

  // What a text tells of a program beside its image: where its slots stand, how they are spelled, and labels. Of an image, whose
  // text is null, nothing.
  class Told {
    constructor(text, counts) {
      const slots = text === null ? [] : slots_of_text(text);
      this.is_known = text !== null && String(slots.map((row) => row.length)) === String(counts);
      this.slots = slots;
      this.labels = this.is_known ? labels_of_text(text) : new Map();
    }

    slot([index, slot]) {
      return this.is_known ? this.slots[index][slot] : null;
    }

    lines(index) {
      return this.is_known ? said_lines(this.slots[index].map((slot) => slot.line)) : "";
    }
  }

  // What an image declares: entries, and the relations of each.
  class Declared {
    constructor(head) {
      const view = new DataView(head.buffer), count = view.getUint32(12, true);
      this.entries = Array.from({ length: count }, (_, at) => view.getUint32(24 + 4 * at, true));
      this.relations = new Map();
      for (let at = 24 + 4 * count; at < head.length; at += 8) {
        put(this.relations, view.getUint32(at, true), [head[at + 4], head[at + 5]]);
      }
    }

    // What makes a bundle an entry, or null.
    entry(index, called) {
      const why = [index === 0 ? "the start" : "", this.entries.includes(index) ? "declared" : "",
        called.has(index) ? "behind a call" : ""].filter(Boolean).join(", ");
      return why ? { why, promises: cliques(this.relations.get(index) || []) } : null;
    }
  }

  // The figure of an image, which may be that of a text, and of each violation that is listed the branches by which alone it
  // comes.
  function figure(label, data, source, ask, is_proved) {
    const [status, answer] = call(ask, ["check"], data);
    if (status === 3) { throw new Fault(`refused, ${answer.trim()}`); }
    const [total, found] = verdict(answer), image = new Image(data, ask), bundles = split_all(image.code);
    if (bundles.length > MOST_BUNDLES) {
      const [count, most] = [bundles.length, MOST_BUNDLES].map((number) => number.toLocaleString("en-US"));
      throw new Fault(`${count} bundles, and a picture has ${most} at most`);
    }
    const listed = listing(ask, data), turned = ways(image, found);
    const also = total === found.length ? excused(image, found) : [];
    const told = new Told(source, listed.map((row) => row.length));
    const accesses = new Map(listed.flatMap((row, index) => row.map((text, slot) => [key_of([index, slot]), accesses_of(text)])));

    function text(place) {
      const own = told.slot(place);
      return own ? own.text.split(/\s+/).join(" ") : listed[place[0]][place[1]];
    }

    function said(row) {
      const places = `${key_of(row.first)} and ${key_of(row.second)}`;
      return `${row.rule} ${row.resource}: ${said_pair(row, text(row.first), text(row.second))} (${places})`;
    }

    const pairs = [...pairs_of(found, said, accesses, false), ...pairs_of(also, said, accesses, true)];
    const declared = new Declared(image.head), walked = walks(bundles, declared.entries), by = only_by(turned);
    const edges = bundles.flatMap((bundle, index) => branches(bundle).map(([slot, away]) =>
      branch([index, slot], index + away, `${index}.${slot} to bundle ${index + away}`, by)));
    const drawn = { file: label, function: "", verdict: total ? "violated" : "accepted",
      said: total ? counted(total) : "accepted", notes: notes(total, found.length, walked, is_proved),
      rows: make_rows(bundles, listed, told, accesses, text, declared, walked), branches: edges, pairs };
    return { figure: drawn, ways: found.map((row) => turned.get(row) || []) };
  }

  function counted(total) {
    return `${total} violation${total === 1 ? "" : "s"}`;
  }

  function make_rows(bundles, listed, told, accesses, text, declared, walked) {
    const maker = new SlotMaker(), called = new Set(calls(bundles).map((index) => index + 1));
    const targets = new Set(bundles.flatMap((bundle, index) => branches(bundle).map(([, away]) => index + away)));

    function parts(place) {
      const canonical = listed[place[0]][place[1]], own = text(place), slot = told.slot(place);
      return { name: key_of(place), text: own, canonical: own === canonical ? "" : canonical,
        accesses: accesses.get(key_of(place)), source: slot ? `line ${slot.line}` : "" };
    }

    return bundles.map((bundle, index) => {
      const labels = told.is_known ? told.labels.get(index) || [] : targets.has(index) ? [`L${index}`] : [];
      return { name: String(index), units: bundle.units, slots: maker.slots(index, bundle, parts), labels,
        entry: declared.entry(index, called), lines: told.lines(index), is_walked: walked[index], said: "" };
    });
  }

  // What is said below the verdict.
  function notes(total, listed, walked, is_proved) {
    const rows = [is_proved ? total ? CLASHES : ACCEPTS : NOT_BUILT];
    if (total > listed) {
      rows.push(`The program lists ${listed} of the ${total} violations, and no others are drawn; nor are excused pairs.`);
    }
    if (!walked.every(Boolean)) {
      const count = walked.filter(Boolean).length;
      rows.push(`${count} of ${walked.length} bundles are on a walk. The verdict says nothing of the others.`);
    }
    return [...rows, DRAWN];
  }

  // ---- The calls -----------------------------------------------------------------------------------------------------------

  // What a call gives, or why it gives nothing.
  function made(call_of_it) {
    try {
      return call_of_it();
    } catch (fault) {
      if (fault instanceof Fault) { return { fault: fault.message, line: fault.line }; }
      throw fault;
    }
  }

  // The fault of a text that is refused, in the program's words and in more.
  function refused(said) {
    const found = said.match(/^line (\d+): (.*)$/);
    if (!found) { return new Fault(`refused, ${said}`); }
    return new Fault(`refused, ${found[2]}` + (found[2] in REASONS ? `: ${REASONS[found[2]]}` : ""), Number(found[1]));
  }

  // The figure of a text and the ways to its violations, `{figure, ways}`, or why there is none and at which line,
  // `{fault, line}`. It says what is proved of the verdict where the program that is asked is proved.
  function of_text(label, text, ask, is_proved = false) {
    return made(() => {
      const { status, output } = ask(["build"], new TextEncoder().encode(text));
      if (status === 3) { throw refused(new TextDecoder("latin1").decode(output).trimEnd()); }
      if (status !== 0) { throw new Fault(`\`build\` ended with status ${status}`); }
      return figure(label, output, text, ask, is_proved);
    });
  }

  // The same of an image.
  function of_image(label, data, ask, is_proved = false) {
    return made(() => figure(label, data, null, ask, is_proved));
  }

  ia64.figures = { of_image, of_text, accesses_of, cliques, is_nop, labels_of_text, lines_of_text, parts_of, said_in, said_ways,
    slots_of_text, without_stop, DATA, LABEL, OPENING, OUTSIDE, REASONS, RULES, SLOT, TEXT };
}());
