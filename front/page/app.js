// The page: what stands in the editor is given to the program at each change, and what that answers is shown.
var ia64 = globalThis.ia64 = globalThis.ia64 || {};
(function () {
  "use strict";

  const { reading, sharing, orders, loosening } = ia64;

  // How long the page waits behind a change, in milliseconds, and how many bundles it draws.
  const PAUSE = 250, MOST_DRAWN = 400;
  const PREFIX = "f0-";
  // Behind so many groups no more are told. A picture that is wider than its room shrinks to this part of its width at most.
  const MOST_GROUPS = 10000000, SMALLEST = 0.75;
  // How many numbers of the orders that leave a state are said.
  const FEW = 4;
  // The first text that the page shows.
  const FIRST = "02_raw.s";
  const WHY = { written: "it is written in the text", long: "the run of slots would be too long without it" };
  // What is said of a picture that is saved, beside its other notes.
  const IN_A_BROWSER = "The program ran in a browser, as WebAssembly that is made of it: that this does the same is only tested.";
  // How files begin that the page doesn't take.
  const OTHERS = [["\x7fELF", "an ELF file"], ["MZ", "a PE file"], ["!<arch>", "an archive"]];
  // How many of the reader's own texts the menu has at most, how long their titles are, and where the browser keeps them.
  const MOST_OWN = 8, LONGEST_TITLE = 40, KEPT = "ia64 texts";

  const found_texts = JSON.parse(at("texts").textContent), record = JSON.parse(at("record").textContent);
  const runs = new Map();                                        // what steps through runs, by the names of its elements
  let found = null, trace = null, timer = 0, own_texts = [], leave_slot = () => {};

  function at(name) {
    return document.getElementById(name);
  }

  function put(parent, name, text, more = {}) {
    const made = Object.assign(document.createElement(name), more);
    made.textContent = text;
    return parent.appendChild(made);
  }

  function show(name, is_shown) {
    at(name).hidden = !is_shown;
  }

  function counted(count, what) {
    return `${count.toLocaleString("en-US")} ${what}${count === 1 ? "" : "s"}`;
  }

  // ---- What the program answers --------------------------------------------------------------------------------------------

  // An answer as text, or an error where there is none.
  function asked(words, data) {
    const answer = ia64.ask(words, data);
    if (!reading.is_answer(answer)) { throw new Error(`no answer: ${reading.why_none(answer)}`); }
    return answer;
  }

  // What is known of a text: whether it is packed, why it is refused, its image and the verdict, and its figure.
  function look_at(text) {
    const known = { text, is_packed: false, refusal: null, verdict: null, figure: null, ways: [], name: name_of(text) };
    if (text.trim() && reading.is_loose(text)) {
      const { status, output } = asked(["stops"], reading.bytes_of(text));
      known.is_packed = true;
      known.text = reading.text_of(output);
      if (status === 3) { return { ...known, refusal: reading.refusal_of(known.text) }; }
    }
    const { status, output } = asked(["build"], reading.bytes_of(known.text));
    if (status === 3) { return { ...known, refusal: reading.refusal_of(reading.text_of(output)) }; }
    known.image = output;
    known.bundles = reading.bundles_of(output);
    known.verdict = reading.verdict_of(reading.text_of(asked(["check"], output).output));
    if (known.bundles <= MOST_DRAWN) {
      const { figure, ways, fault } = ia64.figures.of_text(known.name, known.text, ia64.ask, record.proved);
      if (fault) { throw new Error(fault); }
      Object.assign(known, { figure, ways });
    }
    return known;
  }

  function name_of(text) {
    const example = found_texts.find((each) => each.text === text);
    return example ? example.name : "your program";
  }

  // ---- The editor ----------------------------------------------------------------------------------------------------------

  // The numbers of the lines, of which some are marked. There are none beside a text that is too long.
  function number_lines(marked = new Map()) {
    const text = at("text").value, count = reading.why_long(text) ? 0 : reading.lines_in(text), numbers = at("numbers");
    const rows = Array.from({ length: count }, (_, index) => index + 1);
    numbers.innerHTML = rows.map((line) => (marked.has(line) ? `<b class="${marked.get(line)}">${line}</b>` : line)).join("\n");
    numbers.scrollTop = at("text").scrollTop;
  }

  function go_to_line(line) {
    const text = at("text"), lines = text.value.split("\n");
    const first = lines.slice(0, line - 1).reduce((sum, each) => sum + each.length + 1, 0);
    text.focus();
    text.setSelectionRange(first, first + (lines[line - 1] || "").length);
    text.scrollTop = (line - 3) * text.scrollHeight / lines.length;
  }

  function jump_to_line(parent, line) {
    put(parent, "button", `line ${line}`, { type: "button", className: "jump", onclick: () => go_to_line(line) });
  }

  function jump_to_slot(parent, place) {
    put(parent, "button", place, { type: "button", className: "jump", onclick: () => {
      const slot = at(`${PREFIX}slot-${place.replace(".", "-")}`);
      slot.focus();
      slot.scrollIntoView({ block: "center" });
    } });
  }

  // The lines of the slots in the editor, by their places; none where the program was packed, since its lines are others.
  function lines_of_slots(known) {
    const lines = new Map();
    if (known.is_packed) { return lines; }
    ia64.figures.slots_of_text(known.text).forEach((row, bundle) => row.forEach((slot, index) => {
      lines.set(`${bundle}.${index}`, slot.line);
    }));
    return lines;
  }

  // ---- The verdict ---------------------------------------------------------------------------------------------------------

  // Says something in the line of this name.
  function say(text, kind, name = "verdict") {
    at(name).textContent = text;
    at(name).className = `is-${kind}`;
  }

  function show_refusal({ line, reason }) {
    say(line ? `refused: line ${line}: ${reason}` : `refused: ${reason}`, "refused");
    const row = put(at("pairs"), "li", ia64.figures.REASONS[reason] ? `${ia64.figures.REASONS[reason]} ` : "");
    if (line) {
      jump_to_line(row, line);
      number_lines(new Map([[line, "is-wrong"]]));
    }
  }

  // A pair in the program's words and in more, with the ways to its slots. `more` is said of it at the end.
  function show_pair(name, row, known, lines, more) {
    const item = put(at(name), "li", ""), texts = known.figure ? texts_of(known.figure) : new Map();
    put(item, "code", `${row.rule} ${row.resource} ${row.first} ${row.second}`);
    const [first, second] = [row.first, row.second].map((place) => texts.get(place) && `\u2018${texts.get(place)}\u2019`);
    const said = first && second ? ia64.figures.RULES[row.rule].replace("{0}", () => first).replace("{1}", () => second) : "";
    item.append(said ? `: ${said}${more} ` : `${more} `);
    for (const place of [row.first, row.second]) {
      if (lines.has(place)) { jump_to_line(item, lines.get(place)); }
      if (known.figure) { jump_to_slot(item, place); }
    }
  }

  function texts_of(figure) {
    return new Map(figure.rows.flatMap((row) => row.slots.map((slot) => [slot.name, slot.text])));
  }

  function show_verdict(known) {
    const { total, rows } = known.verdict, lines = lines_of_slots(known);
    say(total ? counted(total, "violation") : "accepted", total ? "violated" : "accepted");
    const slots = known.is_packed ? null : ia64.figures.slots_of_text(known.text);
    rows.forEach((row, index) => show_pair("pairs", row, known, lines, ia64.figures.said_ways(known.ways[index] || [], slots)));
    if (total > rows.length) { put(at("pairs"), "li", `and ${(total - rows.length).toLocaleString("en-US")} more`); }
    number_lines(new Map(rows.flatMap((row) => [row.first, row.second]).filter((place) => lines.has(place))
      .map((place) => [lines.get(place), "is-wrong"])));
    show_excused(known, lines);
  }

  // The pairs that predicates excuse, each with its excuse.
  function show_excused(known, lines) {
    const pairs = known.figure ? known.figure.pairs.filter((pair) => pair.excuse) : [], { key_of, ranges } = ia64.drawing;
    show("excused", pairs.length > 0);
    for (const { rule, resources, first, second, excuse } of pairs) {
      const row = { rule, resource: ranges(resources), first: key_of(first), second: key_of(second) };
      show_pair("excused_pairs", row, known, lines, `; ${excuse}`);
    }
  }

  // ---- What stands beside it -----------------------------------------------------------------------------------------------

  function show_packed(known) {
    show("packed", known.is_packed && !known.refusal);
    at("packed_text").textContent = known.text.replace(/^\/\/ .*\n/gm, "");
    at("stops").textContent = "";
    for (const { place, words } of reading.stops_of(known.text)) {
      const [why, resource, first, second] = words, item = put(at("stops"), "li", `the stop behind ${place}: `);
      put(item, "code", words.join(" "));
      item.append(WHY[why] ? `: ${WHY[why]}` : `: without it ${first} and ${second} would clash on ${resource}`);
    }
  }

  function show_picture(known) {
    show("picture", Boolean(known.image));
    show("figure", Boolean(known.figure));
    if (!known.image) { return; }
    at("picture_said").textContent = known.figure
      ? "Point at a slot, or go to one with Tab and the arrow keys. Red: pairs that clash; dashed: pairs that predicates excuse."
      : `The program has ${counted(known.bundles, "bundle")}; up to ${MOST_DRAWN} are drawn.`;
    at("figure").innerHTML = known.figure ? ia64.drawing.inline(known.figure, PREFIX) : "";
    reach(at("figure").querySelector(".slot"));
    if (known.figure) {
      const drawn = at("figure").querySelector("svg");
      drawn.style.minWidth = `${SMALLEST * drawn.viewBox.baseVal.width}px`;
    }
  }

  // Tab comes to one slot of the picture, this one; from there the arrow keys go on.
  function reach(slot) {
    if (!slot) { return; }
    at("figure").querySelectorAll(".slot").forEach((each) => each.setAttribute("tabindex", "-1"));
    slot.setAttribute("tabindex", "0");
  }

  function show_run(known) {
    show("run", Boolean(known.verdict) && known.verdict.total === 0);
    if (!at("run").hidden) { show_groups(known, 1); }
  }

  // The groups of the run from one on.
  function show_groups(known, first) {
    const count = orders.groups_of_a_piece(known.image);
    const { status, output } = asked(["trace", String(first - 1), String(count)], known.image);
    trace = { first, count, printed: reading.text_of(output), is_cut: status === 8 };
    const { before, groups } = reading.trace_of(trace.printed), behind = groups[groups.length - 1];
    const lines = ia64.steps.lines_of(behind ? behind.state : before), end = lines.get("end");
    trace.last = behind ? behind.number : first - 1;
    const is_last = trace.is_cut && trace.last >= MOST_GROUPS;
    at("run_said").textContent = behind
      ? `Groups ${first} to ${trace.last} of the run, which ${trace.is_cut ? "goes on" : `ends there: ${end}`}` +
        `${is_last ? "; the groups behind aren't told" : ""}.`
      : `The run has no group ${first}: ${end}, after ${lines.get("groups")} groups.`;
    show("pieces", first > 1 || trace.is_cut);
    at("from").value = first;
    at("earlier").disabled = first === 1;
    at("later").disabled = !trace.is_cut || is_last;
    show_steps("steps", known, trace.printed);
  }

  function go_to_groups(first) {
    attempt(() => show_groups(found, first), "run_fault");
  }

  // Steps through a printed trace.
  function show_steps(name, known, printed, then) {
    stop_run(name);
    at(name).textContent = "";
    const run = ia64.steps.of_trace(printed, known.figure, known.verdict.total === 0);
    const picture = known.figure ? at("figure") : null;
    runs.set(name, ia64.stepping.attach(put(at(name), "div", ""), picture, run, { prefix: PREFIX, then }));
  }

  // Ends the playing of a run, if it plays.
  function stop_run(name) {
    if (runs.has(name)) { runs.get(name).stop(); }
  }

  // ---- Orders --------------------------------------------------------------------------------------------------------------

  function show_orders(known) {
    show("orders", Boolean(known.verdict) && known.verdict.total > 0);
    if (!at("orders").hidden) { show_states(known); }
  }

  function number_in(name, lowest, highest) {
    const value = at(name).value.trim();
    const is_right = /^(0|[1-9]\d{0,19})$/.test(value) && BigInt(value) >= lowest && BigInt(value) <= highest;
    at(name).setAttribute("aria-invalid", String(!is_right));
    return is_right ? value : null;
  }

  function show_states(known) {
    const groups = number_in("groups", 1n, 100000n), number = number_in("number", 0n, 2n ** 64n - 1n);
    at("states").textContent = "";
    if (groups === null || number === null) {
      at("left").textContent = "Groups are a number from 1 to 100000, and the number of an order is below 2^64.";
      return;
    }
    const numbers = [...new Set([...Array(orders.NUMBERS).keys()].map(String).concat(number))];
    const left = orders.left_by(ia64.ask, known.image, groups, numbers);
    const states = left.map(({ state }) => ia64.steps.lines_of(state)), alone = slot_by_slot(known, Number(groups));
    const slotwise = alone.last === null ? null : ia64.splitting.told(alone.last, alone.places, left[0].state);
    const count = left.flatMap((each) => each.numbers).length;
    const all = `0 to ${Math.min(count, orders.NUMBERS) - 1}${count > orders.NUMBERS ? ` and ${number}` : ""}`;
    at("left").textContent = `The numbers ${all} leave ${counted(left.length, "state")}` +
      (slotwise ? `; slot by slot ${same_as(slotwise, states)}.` : `; slot by slot isn't shown: ${alone.why}.`) +
      (count < numbers.length ? " No other numbers are asked for: the states are long." : "");
    const heads = left.map((each, index) => `state ${index + 1}: ${said_numbers(each.numbers)}`);
    table_of("states", slotwise ? [...heads, "slot by slot"] : heads, slotwise ? [...states, slotwise] : states);
    at("ways").textContent = "";
    left.forEach((each, index) => put(at("ways"), "button", `the run in order ${each.numbers[0]}`,
      { type: "button", onclick: () => attempt(() => run_in(each.numbers[0]), "orders_fault") }));
    show_order(known, Number(groups), number, alone);
  }

  // Shows the run in another order.
  function run_in(number) {
    at("number").value = number;
    show_states(found);
    at("order_head").scrollIntoView({ block: "nearest" });
  }

  function slot_by_slot(known, groups) {
    if (!known.figure) { return orders.untold("the program isn't drawn"); }
    return orders.beside(ia64.ask, known.text, known.figure, groups);
  }

  function said_numbers(numbers) {
    return `number${numbers.length > 1 ? "s" : ""} ${numbers.slice(0, FEW).join(", ")}${numbers.length > FEW ? " .." : ""}`;
  }

  function is_same(one, other) {
    return reading.differing([one, other]).length === 0;
  }

  function same_as(lines, states) {
    const index = states.findIndex((state) => is_same(state, lines));
    return index < 0 ? "leaves another one" : `leaves state ${index + 1}`;
  }

  // The lines in which states differ, beside each other.
  function table_of(name, heads, states) {
    const names = reading.differing(states), parent = at(name);
    parent.textContent = "";
    if (!names.length) { return; }
    const table = put(parent, "table", ""), head = put(table, "tr", "");
    ["", ...heads].forEach((each) => put(head, "th", each, { scope: "col" }));
    for (const each of names) {
      const row = put(table, "tr", "");
      put(row, "th", each, { scope: "row" });
      states.forEach((state) => put(row, "td", state.has(each) ? state.get(each) : "-"));
    }
  }

  // The run in one order, group by group, with slot by slot beside it.
  function show_order(known, groups, number, alone) {
    at("order_head").textContent = `The run in the order with the number ${number}, group by group`;
    at("beside").textContent = "";
    if (!known.figure) {
      at("order_steps").textContent = "It is shown of programs that are drawn.";
      return;
    }
    const printed = orders.trace_in(ia64.ask, known.image, known.figure, groups, number);
    const { before, groups: told } = reading.trace_of(printed), printed_states = [before, ...told.map((group) => group.state)];
    show_steps("order_steps", known, printed, (count) => {
      show_writes(known.figure, printed_states[count - 1], printed_states[count], number);
      show_beside(number, count, printed_states[count], alone);
    });
  }

  // The writes of a group in the order in which they are made, by the states round it.
  function show_writes(figure, before, after, number) {
    at("writes").textContent = "";
    if (before === undefined) { return; }
    const { made, why } = orders.writes_in(figure, before, after, number);
    const said = made.map(({ target, slot }) => `${target} by ${slot}`).join(", then ");
    at("writes").textContent = why ? `What it writes isn't told: ${why}.` : `It writes ${said || "nothing"}.`;
  }

  function show_beside(number, count, state, alone) {
    at("beside").textContent = "";
    if (count === 0) { return; }
    const own = ia64.steps.lines_of(state), other = orders.told_beside(ia64.ask, alone, count, state);
    if (!other) {
      at("beside").textContent = alone.why ? `Slot by slot isn't shown: ${alone.why}.` : "Slot by slot the run has ended.";
    } else if (is_same(own, other)) {
      at("beside").textContent = "Slot by slot the state is the same here.";
    } else {
      table_of("beside", [`order ${number}`, "slot by slot"], [own, other]);
    }
  }

  // ---- Changes -------------------------------------------------------------------------------------------------------------

  function show_lesson(name) {
    document.querySelectorAll(".lesson").forEach((lesson) => { lesson.hidden = lesson.dataset.name !== name; });
  }

  // Does what the program is asked for. Where it has no answer, the line of this name says why.
  function attempt(act, name = "verdict") {
    at(name).textContent = "";
    try {
      act();
    } catch (fault) {
      say(String(fault.message || fault), "refused", name);
    }
  }

  // Looks at what stands in the editor, and shows it.
  function update() {
    const text = at("text").value, why = reading.why_long(text);
    found = null;
    leave_slot();
    ["pairs", "excused_pairs", "note"].forEach((name) => { at(name).textContent = ""; });
    at("printed").textContent = why ? "" : text;
    [...runs.keys()].forEach(stop_run);
    ["excused", "packed", "picture", "run", "orders"].forEach((name) => show(name, false));
    number_lines();
    if (!why) { keep(); }
    attempt(() => {
      if (why) { throw new Error(why); }
      found = look_at(text);
      if (found.refusal) { show_refusal(found.refusal); } else { show_verdict(found); }
    });
    if (found) {
      show_packed(found);
      show_picture(found);
      attempt(() => show_run(found), "run_fault");
      attempt(() => show_orders(found), "orders_fault");
    }
    at("loosen").disabled = !text.trim() || reading.is_loose(text);
    at("save_image").disabled = !(found && found.image);
    at("save_picture").disabled = !(found && found.figure);
    document.body.dataset.looked = String(Number(document.body.dataset.looked || 0) + 1);
  }

  function later() {
    clearTimeout(timer);
    timer = setTimeout(update, PAUSE);
  }

  // Puts a text into the editor, where the page takes it. One of the reader's own that stood there is kept in the menu.
  function take(text) {
    const why = reading.why_long(text);
    if (why) { return say(why, "refused"); }
    clearTimeout(timer);
    set_aside(at("text").value);
    at("text").value = text;
    at("text").scrollTop = 0;
    const example = found_texts.find((each) => each.text === text), own = own_texts.indexOf(text);
    at("menu").value = example ? example.name : own < 0 ? "" : String(own);
    if (example) { show_lesson(example.name); }
    update();
  }

  // ---- Texts of the reader's own -------------------------------------------------------------------------------------------

  // Keeps a text for the menu, the latest first, if it is no example and isn't there.
  function set_aside(text) {
    if (text.trim() && !found_texts.some((each) => each.text === text) && !own_texts.includes(text)) {
      own_texts = [text, ...own_texts].slice(0, MOST_OWN);
      fill_own();
    }
  }

  // The reader's own texts as entries of the menu, by their numbers.
  function fill_own() {
    show("own", own_texts.length > 0);
    at("own").textContent = "";
    own_texts.forEach((text, number) => put(at("own"), "option", title_of(text), { value: String(number) }));
  }

  // What a text is called: its first line that has something.
  function title_of(text) {
    const line = text.trim().split("\n")[0];
    return line.length > LONGEST_TITLE ? `${line.slice(0, LONGEST_TITLE)} \u2026` : line;
  }

  // Lets the browser keep the texts, for a reload; some browsers keep nothing.
  function keep() {
    try {
      sessionStorage.setItem(KEPT, JSON.stringify({ shown: at("text").value, own: own_texts }));
    } catch (fault) { /* then there is nothing to come back to */ }
  }

  // What the browser kept.
  function kept() {
    try {
      return { own: [], ...JSON.parse(sessionStorage.getItem(KEPT)) };
    } catch (fault) {
      return { own: [] };
    }
  }

  // ---- Files ---------------------------------------------------------------------------------------------------------------

  async function take_file(file) {
    const bytes = new Uint8Array(await file.arrayBuffer());
    attempt(() => take_bytes(file.name, bytes));
  }

  // Takes what stands in a file: a text, or an image, whose text it is then.
  function take_bytes(name, bytes) {
    const head = reading.text_of(bytes.slice(0, 8)), other = OTHERS.find(([begins]) => head.startsWith(begins));
    if (other) {
      say(`${name} is ${other[1]}: at a command line ./ia64 check ${name} judges its functions`, "refused");
    } else if (reading.is_image(bytes)) {
      const { status, output } = asked(["show"], bytes), text = reading.text_of(output);
      if (status === 3) { say(`${name}: refused: ${text.trim()}`, "refused"); } else { take(text); }
    } else if (bytes.includes(0)) {
      say(`${name} is neither a text nor an image`, "refused");
    } else {
      take(reading.decoded(bytes));
    }
  }

  // ---- Giving away ---------------------------------------------------------------------------------------------------------

  function save(name, kind, content) {
    const link = document.createElement("a");
    link.href = URL.createObjectURL(new Blob([content], { type: kind }));
    link.download = name;
    link.click();
    setTimeout(() => URL.revokeObjectURL(link.href), 1000);
    done(`${name} is saved`);
  }

  // A picture that stands alone.
  function picture_of(figure) {
    return ia64.drawing.document([{ ...figure, notes: [...figure.notes, IN_A_BROWSER] }], at("sheet").textContent);
  }

  function done(text) {
    at("done").textContent = text;
  }

  function file_name(suffix) {
    return `${(at("menu").value || "program").replace(/\.s$/, "")}.${suffix}`;
  }

  async function copy_link() {
    const fragment = await sharing.fragment_of(at("text").value, found_texts);
    history.replaceState(null, "", `#${fragment}`);
    const note = fragment.length > sharing.LONGEST_LINK ? "; it is long, and not everything takes it whole" : "";
    try {
      await navigator.clipboard.writeText(location.href);
      done(`the link is copied${note}`);
    } catch (fault) {
      done(`the link is in the address of this page${note}`);
    }
  }

  // Takes the program in the address of the page, and where none is there, this other one, if there is one.
  async function take_link(other) {
    const { text, why } = await sharing.text_of(location.hash, found_texts), wanted = text === null ? other : text;
    if (wanted !== undefined) { take(wanted); }
    at("note").textContent = why;
  }

  // ---- The beginning -------------------------------------------------------------------------------------------------------

  function fill_menu() {
    for (const group of new Set(found_texts.map((each) => each.group))) {
      const parent = put(at("menu"), "optgroup", "", { label: group });
      for (const each of found_texts.filter((one) => one.group === group)) {
        put(parent, "option", group === "Lessons" ? each.title : `${each.name}: ${each.title}`, { value: each.name });
      }
    }
  }

  function show_record() {
    document.body.classList.add(record.proved ? "is-proved" : "is-unproved");
    at("standing").textContent = record.proved ? "It is made of the proved program; at the foot stands what is proved." : "";
    if (!record.proved) {
      put(at("standing"), "b", "Nothing is known to be proved of the program in this page.", { className: "unproved" });
    }
    at("made").textContent = `Sources: SHA-256 ${record.sources}. Kit: ${record.logic}. WebAssembly: SHA-256 ${record.module}.`;
  }

  function listen() {
    at("text").addEventListener("input", () => {
      at("menu").value = "";
      number_lines();
      later();
    });
    at("text").addEventListener("scroll", () => { at("numbers").scrollTop = at("text").scrollTop; });
    at("menu").addEventListener("change", () => {
      const name = at("menu").value, example = found_texts.find((each) => each.name === name);
      if (name) { take(example ? example.text : own_texts[Number(name)]); }
    });
    at("open").addEventListener("click", () => at("file").click());
    at("file").addEventListener("change", () => {
      const [file] = at("file").files;
      if (file) { take_file(file); }
      at("file").value = "";
    });
    at("link").addEventListener("click", copy_link);
    at("loosen").addEventListener("click", () => take(loosening.loosened(at("text").value)));
    at("take").addEventListener("click", () => take(at("packed_text").textContent));
    at("save_text").addEventListener("click", () => save(file_name("s"), "text/plain", at("text").value));
    at("save_image").addEventListener("click", () => save(file_name("image"), "application/octet-stream", found.image));
    at("save_picture").addEventListener("click", () => save(file_name("svg"), "image/svg+xml", picture_of(found.figure)));
    at("from").addEventListener("change", () => {
      const first = number_in("from", 1n, BigInt(MOST_GROUPS));
      if (first !== null) { go_to_groups(Number(first)); }
    });
    at("earlier").addEventListener("click", () => go_to_groups(Math.max(1, trace.first - trace.count)));
    at("later").addEventListener("click", () => go_to_groups(trace.last + 1));
    ["groups", "number"].forEach((name) =>
      at(name).addEventListener("change", () => attempt(() => show_states(found), "orders_fault")));
    at("figure").addEventListener("focusin", (event) => reach(event.target.closest(".slot")));
    window.addEventListener("hashchange", () => take_link());
    ["dragover", "dragleave", "drop"].forEach((name) => document.addEventListener(name, (event) => {
      event.preventDefault();
      document.querySelector(".editor").classList.toggle("is-dropped", name === "dragover");
      if (name === "drop" && event.dataTransfer.files[0]) { take_file(event.dataTransfer.files[0]); }
    }));
  }

  async function begin() {
    fill_menu();
    show_record();
    try {
      await ia64.engine.open(at("module").textContent);
    } catch (fault) {
      at("trouble").textContent = fault.message;
      show("trouble", true);
      return;
    }
    listen();
    leave_slot = ia64.slots.attach(at("panel"));
    const { own, shown } = kept();
    own_texts = own;
    fill_own();
    await take_link(shown === undefined ? found_texts.find((each) => each.name === FIRST).text : shown);
    ia64.is_ready = true;
  }

  begin();
}());
