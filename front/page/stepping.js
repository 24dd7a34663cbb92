// Stepping through a run: a bar to go from group to group, what each one is and what it changed, and the whole state. In the
// picture the slots of the group stand out, and the slot that comes next; those of the group whose predicate is 0 are faint.
//
// A group has its number. What is shown is the state behind it; before the first group it is the state in which the run begins.
var ia64 = globalThis.ia64 = globalThis.ia64 || {};

(function () {
  "use strict";

  const { heading, place_of, rows_of, said_end, said_off, said_place } = ia64.steps;

  // So long each group stands there where they are played, in milliseconds, and so many rows a state is shown with.
  const PAUSE = 900, MOST_ROWS = 400;
  const HINT = "In the picture the slots of the group have a thick frame, and the one that comes next a dashed one. Faint are " +
    "those whose predicate is 0. Keys, in this part of the page: the arrows Left and Right go a group back and forward, Home " +
    "and End to the start and to the last group, and P plays.";

  function add(parent, name, attributes, text = "") {
    const made = document.createElement(name);
    Object.entries(attributes).forEach(([key, value]) => made.setAttribute(key, value));
    made.textContent = text;
    return parent.appendChild(made);
  }

  // A table with these heads; of each row its cells, the first one a head, and its class.
  function table(parent, caption, heads, rows) {
    const made = add(add(parent, "div", { class: "wide" }), "table", {});
    add(made, "caption", {}, caption);
    const first = add(made, "tr", {});
    heads.forEach((head) => add(first, "th", { scope: "col" }, head));
    for (const [kind, name, ...cells] of rows) {
      const row = add(made, "tr", kind ? { class: kind } : {});
      add(row, "th", { scope: "row" }, name);
      cells.forEach((cell) => add(row, "td", {}, cell));
    }
  }

  class Stepping {
    constructor(container, picture, run, { prefix = "", then = null }) {
      Object.assign(this, { container, picture, run, prefix, then, timer: null });
      this.ran = Number(run.before.lines.get("groups"));         // so many groups ran before the first one that is told
      this.last = this.ran + run.steps.length;
      container.classList.add("stepping");
      this.build();
      this.go(this.ran);
    }

    build() {
      const bar = add(this.container, "div", { class: "bar", role: "group", "aria-label": "groups of the run" });
      const button = (text, act) => {
        const made = add(bar, "button", { type: "button" }, text);
        made.addEventListener("click", act);
        return made;
      };
      button("start", () => this.move(this.ran));
      button("\u25c2 back", () => this.move(this.at - 1));
      button("forward \u25b8", () => this.move(this.at + 1));
      button("last", () => this.move(this.last));
      this.play_button = button("play", () => this.play());
      const label = add(bar, "label", {}, "group ");
      const range = { min: this.ran, max: this.last, step: 1 };
      this.number = add(label, "input", { type: "number", ...range });
      label.append(` of ${this.last}`);
      this.slider = add(bar, "input", { type: "range", "aria-label": "groups that have run", ...range });
      this.number.addEventListener("change", () => this.move(Number(this.number.value)));
      this.slider.addEventListener("input", () => this.move(Number(this.slider.value)));
      this.news = add(this.container, "div", { class: "news", role: "status", "aria-atomic": "true" });
      const whole = add(this.container, "details", { class: "state" });
      add(whole, "summary", {}, "The whole state");
      this.state = add(whole, "div", {});
      add(this.container, "p", { class: "hint" }, HINT);
      this.container.addEventListener("keydown", (event) => this.press(event));
    }

    press(event) {
      const to = { ArrowLeft: this.at - 1, ArrowRight: this.at + 1, Home: this.ran, End: this.last }[event.key];
      const is_play = event.key.toLowerCase() === "p", is_other = event.ctrlKey || event.altKey || event.metaKey;
      if (is_other || event.target === this.number || to === undefined && !is_play) { return; }
      event.preventDefault();
      if (is_play) { this.play(); } else { this.move(to); }
    }

    // Goes to a group because the reader wants it.
    move(number) {
      this.stop();
      this.go(number);
    }

    play() {
      if (this.timer) { return this.stop(); }
      if (this.at === this.last) { this.go(this.ran); }
      this.timer = setInterval(() => {
        if (this.container.isConnected) { this.go(this.at + 1); }
        if (this.at === this.last || !this.container.isConnected) { this.stop(); }
      }, PAUSE);
      this.play_button.textContent = "stop";
      this.news.setAttribute("aria-live", "off");
    }

    stop() {
      clearInterval(this.timer);
      this.timer = null;
      this.play_button.textContent = "play";
      this.news.setAttribute("aria-live", "polite");
    }

    // Shows what stands behind the group with this number.
    go(number) {
      this.at = Math.min(Math.max(Math.round(number) || 0, this.ran), this.last);
      const step = this.run.steps[this.at - this.ran - 1] || null;
      this.number.value = this.slider.value = this.at;
      this.slider.setAttribute("aria-valuetext", this.at === this.ran ? "the start" : `group ${this.at}`);
      this.tell(step);
      this.show_state(step);
      this.mark(step);
      if (this.then) { this.then(this.at - this.ran); }
    }

    tell(step) {
      const { figure, before } = this.run;
      this.news.textContent = "";
      if (!step) {
        const place = said_place(place_of(before.lines.get("end")), figure);
        add(this.news, "p", { class: "told" }, this.ran ? `Behind group ${this.ran}: the run goes on at ${place}.`
          : `The start: no group has run, and the run begins at ${place}.`);
        return;
      }
      add(this.news, "p", { class: "told" }, `${heading(step, figure)}.`);
      if (step.off.length) { add(this.news, "p", { class: "off" }, `${said_off(step)}.`); }
      if (step.changes.length) {
        table(this.news, "What it changed", ["", "before", "behind it"],
          step.changes.map((change) => ["", change.name, change.old, change.new]));
      } else {
        add(this.news, "p", {}, "It changed nothing.");
      }
      const end = this.ended(step);
      if (end) { add(this.news, "p", { class: "end" }, end); }
    }

    // What is said behind the last group.
    ended(step) {
      if (step.how === "ends") { return `The end: ${said_end(step.end, step.number)}.`; }
      const next = said_place(place_of(step.end), this.run.figure);
      return step.number === this.last ? `The run goes on at ${next}; no more of it is told here.` : "";
    }

    show_state(step) {
      const { before, figure, steps } = this.run, state = step ? step.state : before;
      const old = step && this.at > this.ran + 1 ? steps[this.at - this.ran - 2].state : before;
      const rows = rows_of(old, state, figure);
      this.state.textContent = "";
      table(this.state, "What isn't there is 0", ["", "holds", "before"],
        rows.slice(0, MOST_ROWS).map(([name, value, was]) => [was ? "is-new" : "", name, value, was]));
      if (rows.length > MOST_ROWS) { add(this.state, "p", {}, `and ${rows.length - MOST_ROWS} rows more`); }
    }

    // Marks the slots of a group in the picture, and the one that comes next.
    mark(step) {
      if (!this.picture) { return; }
      const slot = ([bundle, at]) => this.picture.querySelector(`[id="${this.prefix}slot-${bundle}-${at}"]`);
      const all = (places) => places.map(slot).filter(Boolean);
      this.picture.querySelectorAll(".slot").forEach((each) => each.classList.remove("is-run", "is-off", "is-next"));
      const ran = all(step ? step.slots : []), off = all(step ? step.off.map(([place]) => place) : []);
      const next = step && step.how === "ends" ? null : slot(place_of(step ? step.end : this.run.before.lines.get("end")));
      ran.forEach((each) => each.classList.add("is-run"));
      off.forEach((each) => each.classList.add("is-off"));
      if (next) { next.classList.add("is-next"); }
      this.bring(ran[0] || next);
    }

    // Scrolls the picture alone, so that a slot is seen.
    bring(slot) {
      const frame = this.picture.closest("figure");
      if (!slot || !frame) { return; }
      const own = slot.getBoundingClientRect(), its = frame.getBoundingClientRect(), room = 30;
      if (own.top < its.top || own.bottom > its.bottom - room) { frame.scrollTop += own.top - its.top - its.height / 3; }
      if (own.left < its.left || own.right > its.right) { frame.scrollLeft += own.left - its.left - room; }
    }
  }

  // Puts stepping through a run, as `ia64.steps.of_trace` has it, into an element. `picture` is what has the drawing of its
  // program in it, or null; the ids of the slots begin with `prefix`. `then` is called with how many of the groups have run, at
  // first and whenever another one is shown.
  function attach(container, picture, run, options = {}) {
    return new Stepping(container, picture, run, options);
  }

  ia64.stepping = { attach };
}());
