// What a wrong program may do: the states that the orders of its groups' writes leave, the run in one of them group by group, and
// slot by slot beside it. All states are those that the program prints; what is made here is which are beside each other.
var ia64 = globalThis.ia64 = globalThis.ia64 || {};
(function () {
  "use strict";

  const { text_of, bytes_of, place_of, trace_of, why_none } = ia64.reading;
  const { split, told } = ia64.splitting;
  const { State } = ia64.steps;
  const { arranged, group_between, rows_of, writes_of, Untold } = ia64.writes;

  // Each order of up to four writes has one of so many numbers, the first ones.
  const NUMBERS = 24;
  // How many slots are run by themselves, and of how many groups a run in an order is shown.
  const MOST_SLOTS = 4096, MOST_STEPS = 100;
  // Where states cost more than that no more are asked for: of the orders, of the run in one of them, and slot by slot.
  const BUDGET = 8000000;
  const MANY = `more than ${MOST_SLOTS.toLocaleString("en-US")} slots ran`;
  const LONG = "the states, with the data, are too long for that";
  // How many groups a trace has at most; how many bytes a piece may have, and a state at most beside its data, of which each word
  // has a line of so many.
  const TRACE_LIMIT = 100, PIECE = 16000000, STATE = 6000, LINE = 36;
  // The statuses behind which a state stands.
  const STATES = [0, 8, 9];

  function asked(ask, words, data) {
    const answer = ask(words.map(String), data);
    if (!STATES.includes(answer.status)) { throw new Error(`${words.join(" ")}: ${why_none(answer)}`); }
    return text_of(answer.output);
  }

  // The state after so many groups, each in the order with this number.
  function state_in(ask, image, groups, number) {
    return asked(ask, ["groups", groups, number], image);
  }

  // How many words of data there are.
  function words_of(image) {
    return new DataView(image.buffer, image.byteOffset).getUint32(16, true) / 8;
  }

  // How many groups of a trace, whose states cost so much each, may cost so much.
  function groups_for(cost, each) {
    return Math.max(1, Math.min(TRACE_LIMIT, Math.floor(cost / each) - 1));
  }

  // How many groups are asked for at once.
  function groups_of_a_piece(image) {
    return groups_for(PIECE, STATE + LINE * words_of(image));
  }

  // What a printed state costs: its bytes, and one for each word of the data, all of which the program looks at.
  function cost_of(state, image) {
    return state.length + words_of(image);
  }

  // The states that are left after so many groups, each with the numbers of the orders that leave it; of long states only those
  // that the first numbers leave.
  function left_by(ask, image, groups, numbers) {
    const found = new Map();
    let spent = 0;
    for (const number of numbers) {
      if (spent > BUDGET) { break; }
      const state = state_in(ask, image, groups, number);
      spent += cost_of(state, image);
      found.set(state, [...(found.get(state) || []), number]);
    }
    return [...found].map(([state, own]) => ({ state, numbers: own }));
  }

  // The state in which the run begins: that which a `break` in its first slot leaves, which is a word of zeros.
  function start(ask, image) {
    const view = new DataView(image.buffer, image.byteOffset), changed = image.slice();
    const at = 24 + 4 * view.getUint32(12, true) + 8 * view.getUint32(20, true);
    changed[at] &= 0x1f;
    changed.fill(0, at + 1, at + 5);
    changed[at + 5] &= 0xc0;
    return state_in(ask, changed, 1, 0).replace(/^end .*\ngroups 1$/m, "end limit at 0.0\ngroups 0");
  }

  // The slots of a figure, in their order.
  function slots_of(figure) {
    return figure.rows.flatMap((row) => row.slots);
  }

  // What a call gives, or what is made of the fault that the states round a group don't tell it.
  function told_by_states(call, otherwise) {
    try {
      return call();
    } catch (fault) {
      if (fault instanceof Untold) { return otherwise(fault); }
      throw fault;
    }
  }

  // Where a group ends, and how: `groups` doesn't tell it, so it is concluded from the states before it and behind it. Where more
  // than one slot may have been the last, it is `left`, with the last one that it reaches in any case.
  function end_of(rows, before, after) {
    return told_by_states(() => {
      const { slots, taken, ended } = group_between(rows, before, after);
      return ended ? [ended.name, "ends"] : [slots[slots.length - 1].name, taken ? "taken" : "falls"];
    }, (fault) => [fault.reached.name, "left"]);
  }

  // The writes of a group between two states of the run in an order, as they are made: of each its target and its slot. Or why
  // these aren't told.
  function writes_in(figure, before, after, number) {
    return told_by_states(() => {
      const state = new State(before), found = writes_of(group_between(rows_of(figure), state, new State(after)), state);
      const made = arranged(number, found.length).map((at) => found[at]);
      return { made: made.map(({ target, slot }) => ({ target, slot: slot.name })), why: "" };
    }, (fault) => ({ made: [], why: fault.message }));
  }

  // The run in an order, group by group, in the form of a printed trace; of long states only the first groups.
  function trace_in(ask, image, figure, groups, number) {
    const parts = [start(ask, image)], rows = rows_of(figure);
    let before = parts[0], spent = 0;
    for (let count = 1; count <= Math.min(groups, MOST_STEPS) && spent <= BUDGET; count += 1) {
      const state = state_in(ask, image, count, number), [last, how] = end_of(rows, new State(before), new State(state));
      parts.push(`${count} ${place_of(before)} ${last} ${how}\n${state}`);
      spent += cost_of(state, image);
      if (how === "ends") { break; }
      before = state;
    }
    return parts.join("");
  }

  // The run slot by slot, of at most so many groups: it is that of the same text with a bundle and a stop for each slot, which is
  // accepted, with the places that its slots had. `image` is that of this other text, `ends` has behind how many of its slots each
  // group ends, and `last` is the state behind the last group, or null. Where not all of that is told, `why` says so.
  function beside(ask, text, figure, groups) {
    const parted = split(text);
    if (parted === null) { return untold("a call has slots of its bundle behind it"); }
    const built = ask(["build"], bytes_of(parted.text));
    if (built.status !== 0) { return untold(why_none(built)); }
    const looked = ask(["run", String(MOST_SLOTS)], built.output);
    if (!STATES.includes(looked.status)) { return untold(why_none(looked)); }
    const stops = stops_of(figure), { places } = parted;
    const is_end = ({ first, how }) => how !== "falls" || stops.has(places[bundle_of(first)]);
    return { image: built.output, places, ...followed(ask, built.output, is_end, text_of(looked.output), groups) };
  }

  function untold(why) {
    return { image: null, places: [], ends: [], last: null, why };
  }

  // Follows a run slot by slot, of which the state behind the most slots is known: where that is the last one, because no group has
  // less than a slot, or where the last one is behind it, no more groups are followed than are stepped through.
  function followed(ask, image, is_end, state, groups) {
    const is_cut = state.startsWith("end limit"), is_last = !is_cut && Number(state.match(/^groups (\d+)$/m)[1]) <= groups;
    const is_behind = is_cut && groups > MOST_SLOTS, wanted = is_last || is_behind ? Math.min(groups, MOST_STEPS) : groups;
    const found = ends_of(ask, image, is_end, STATE + cost_of(state, image), wanted);
    if (is_behind) { return { ...found, last: null, why: MANY }; }
    return is_last ? { ...found, last: state } : found;
  }

  // Behind how many slots the groups of a run slot by slot end, and the state behind the last one, as far as the budget goes. A
  // state costs about as much as is said.
  function ends_of(ask, image, is_end, each, groups) {
    const ends = [], piece = groups_for(BUDGET, each);
    let spent = 0;
    for (let slots = 0; slots < MOST_SLOTS; slots += piece) {
      if (spent > BUDGET) { return { ends, last: null, why: LONG }; }
      const count = Math.min(piece, MOST_SLOTS - slots), printed = asked(ask, ["trace", slots, count], image);
      spent += printed.length + count * words_of(image);
      for (const group of trace_of(printed).groups.filter(is_end)) {
        ends.push(group.number);
        if (group.how === "ends" || ends.length === groups) { return { ends, last: group.state, why: "" }; }
      }
    }
    return { ends, last: null, why: MANY };
  }

  function bundle_of(place) {
    return Number(place.split(".")[0]);
  }

  // The slots of a figure behind which a stop stands.
  function stops_of(figure) {
    return new Set(slots_of(figure).filter((slot) => slot.has_stop).map((slot) => slot.name));
  }

  // The lines of the state slot by slot after so many groups, beside another printed one; null where it isn't told.
  function told_beside(ask, alone, count, other) {
    return count <= alone.ends.length ? told(asked(ask, ["run", alone.ends[count - 1]], alone.image), alone.places, other) : null;
  }

  ia64.orders = { left_by, trace_in, writes_in, beside, told_beside, untold, groups_of_a_piece, start, BUDGET, MOST_SLOTS,
    MOST_STEPS, NUMBERS };
}());
