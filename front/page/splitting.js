// Texts with a stop behind each slot, as if these were groups of their own: the functions of `front/ordering/split.py` under
// their names, for whole texts, and what tells a state of such a text as one of the text that it was made of.
var ia64 = globalThis.ia64 = globalThis.ia64 || {};
(function () {
  "use strict";

  const { lines_of } = ia64.steps;
  const { lines_of_text, said_in, without_stop, LABEL, OPENING, OUTSIDE, SLOT } = ia64.figures;

  const BARE = ["nop", "break", "hint", "chk.s"];
  // The bundle of a slot that stands alone, by its unit, and where in it the slot stands.
  const ALONE = { m: ["mii", 0], i: ["mii", 1], f: ["mfi", 1], b: ["mib", 2], x: ["mlx", 1] };
  const CODE_BASE = 0x10000n;

  function with_unit(said, unit) {
    const slot = said.match(SLOT);
    return slot && BARE.includes(slot[2]) ? `${slot[1] || ""}${slot[2]}.${unit}${slot[3]}` : said;
  }

  function is_call(said) {
    const slot = said.match(SLOT);
    return slot !== null && /^br\.call(\.|$)/.test(slot[2]);
  }

  // A text with a stop behind each slot, and of each of its bundles the place that its slot had; or null where a call has slots
  // of its bundle behind it, from which it isn't parted.
  function split(text) {
    const made = [], places = [];
    let units = null, slots = [], number = -1;
    for (const line of lines_of_text(text)) {
      const said = said_in(line), name = without_stop(said), opening = said.match(OPENING);
      if (opening) {
        [units, slots, number] = [opening[1].replace("mlx", "mx"), [], number + 1];
      } else if (units !== null && said === "}") {
        if (slots.slice(0, -1).some(is_call)) { return null; }
        slots.forEach((slot, at) => {
          made.push(...bundle_of(slot, units[at]));
          places.push(`${number}.${at}`);
        });
        units = null;
      } else if (units === null) {
        made.push(line);
      } else if (name && !OUTSIDE.test(name) && !LABEL.test(name)) {
        slots.push(with_unit(name, units[slots.length]));
      }
    }
    return { text: made.map((line) => `${line}\n`).join(""), places };
  }

  // The lines of a bundle with this slot and, behind it, its stop.
  function bundle_of(slot, unit) {
    const [template, at] = ALONE[unit];
    const lines = Array.from(template.replace("mlx", "mx"), (each, index) => (index === at ? slot : `nop.${each} 0`));
    return [`{ .${template}`, ...lines.map((line, index) => `  ${line}${index === lines.length - 1 ? " ;;" : ""}`), "}"];
  }

  // The address that a bundle had, of its address now; of any other number, that number.
  function address_of(value, places) {
    const number = (value - CODE_BASE) / 16n;
    if ((value - CODE_BASE) % 16n || value < CODE_BASE || number >= BigInt(places.length)) { return value; }
    const bundle = places[Number(number)].split(".")[0];
    const is_first = number === 0n || places[Number(number) - 1].split(".")[0] !== bundle;
    return is_first ? CODE_BASE + 16n * BigInt(bundle) : value;
  }

  // The lines of a state of a split text, with the places and the addresses that it had before, and with the number of groups of
  // the printed state that it stands beside. What isn't in a branch register counts as an address where that state has it too.
  function told(state, places, other) {
    const lines = lines_of(state), beside = lines_of(other);
    const [, said, bundle] = lines.get("end").match(/^(.*) (\d+)\.\d$/);
    if (Number(bundle) < places.length) { lines.set("end", `${said} ${places[Number(bundle)]}`); }
    lines.set("groups", beside.get("groups"));
    for (const [name, value] of lines) {
      if (!/^(b\d|r\d+|m \w+)$/.test(name) || value.includes(" ")) { continue; }
      const own = address_of(BigInt(`0x${value}`), places).toString(16).padStart(16, "0");
      if (name[0] === "b" || own === beside.get(name)) { lines.set(name, own); }
    }
    return lines;
  }

  ia64.splitting = { is_call, split, told, with_unit };
}());
