// Tells in a panel what a slot of a picture is: the one that the pointer is on, or that has the focus. The lines of its pairs
// stand out meanwhile. Arrow keys go from slot to slot, and Escape leaves them. The words are those of the slot's own label.
var ia64 = globalThis.ia64 = globalThis.ia64 || {};

(function () {
  "use strict";

  function add(parent, name, text) {
    const made = document.createElement(name);
    made.textContent = text;
    return parent.appendChild(made);
  }

  function touches(line, slot) {
    return line.getAttribute("data-slots").split(" ").includes(slot.id);
  }

  // The lines of a slot stand out, where it has some.
  function light(slot) {
    const all = [...document.querySelectorAll(".pair,.pair-label")], own = slot ? all.filter((line) => touches(line, slot)) : [];
    all.forEach((line) => line.classList.toggle("is-faint", own.length > 0 && !own.includes(line)));
  }

  // What is known of a slot, the parts of its label one below another.
  function tell(panel, slot) {
    const [head, ...parts] = slot.getAttribute("aria-label").split("; ");
    add(panel, "h3", head);
    const list = add(panel, "ul", "");
    parts.forEach((part) => add(list, "li", part));
  }

  function slot_of(event) {
    return event.target.closest ? event.target.closest(".slot") : null;
  }

  // The next slot across, over the ends of bundles, or down, in the same column where there is one.
  function next(slot, across, down) {
    const all = [...slot.ownerSVGElement.querySelectorAll(".slot")];
    if (!down) { return all[all.indexOf(slot) + across]; }
    const [, before, bundle, last] = slot.id.match(/^(.*slot-)(\d+)-(\d+)$/);
    for (let column = Number(last); column >= 0; column -= 1) {
      const found = document.getElementById(`${before}${Number(bundle) + down}-${column}`);
      if (found) { return found; }
    }
    return null;
  }

  // Tells slots in this panel from now on. What stands in it is there where no slot is chosen. It gives what takes the choice away,
  // to be called where the picture of the slot is taken away.
  function attach(panel) {
    const empty = panel.textContent;
    let chosen = null;

    function choose(slot) {
      if (chosen === slot) { return; }
      if (chosen) { chosen.classList.remove("is-chosen"); }
      chosen = slot;
      panel.textContent = slot ? "" : empty;
      light(slot);
      if (slot) {
        slot.classList.add("is-chosen");
        tell(panel, slot);
      }
      panel.hidden = panel.textContent === "";
    }

    ["mouseover", "focusin"].forEach((name) => document.addEventListener(name, (event) => {
      if (slot_of(event)) { choose(slot_of(event)); }
    }));
    document.addEventListener("keydown", (event) => {
      const slot = slot_of(event);
      const step = { ArrowLeft: [-1, 0], ArrowRight: [1, 0], ArrowUp: [0, -1], ArrowDown: [0, 1] }[event.key];
      if (event.key === "Escape") { choose(null); }
      if (!slot || !step) { return; }
      event.preventDefault();
      const to = next(slot, ...step);
      if (to) {
        to.focus();
        to.scrollIntoView({ block: "nearest" });
      }
    });
    return () => choose(null);
  }

  ia64.slots = { attach };
}());
