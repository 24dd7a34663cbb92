// Loose texts: the bundles and the stops of a text taken out, so that `stops` can pack its instructions anew: `front/loosen.py`
// under its names, but for its option. `front/tests/test_page.py` holds it to that.
var ia64 = globalThis.ia64 = globalThis.ia64 || {};
(function () {
  "use strict";

  const { is_nop, lines_of_text, parts_of, without_stop, DATA, LABEL, OPENING, OUTSIDE, TEXT } = ia64.figures;
  const { is_call, with_unit } = ia64.splitting;

  // A comment as lines: one, or none.
  function lines_of(comment) {
    return comment ? [comment] : [];
  }

  // What is left of the lines so far. A stretch goes from a label, a relation line, a call or the start to the next label,
  // relation line or the end.
  class Loosened {
    constructor() {
      this.left = [];          // of each line the lines that are left
      this.undecided = [];     // each nop since the last other instruction: the number of its line, and its comment
      this.is_bare = true;     // the stretch has nothing but nops so far
      this.is_data = false;
      this.units = [];
    }

    // Takes one more line.
    add(line) {
      const [said, front, comment] = parts_of(line), name = without_stop(said), opening = said.match(OPENING);
      if (!said || this.is_data && !TEXT.test(said)) {
        this.left.push([line.trimEnd()]);
      } else if (opening || said === "}") {
        this.units = opening ? Array.from(opening[1].replace("mlx", "mx")) : [];
        this.left.push(lines_of(comment));
      } else if (!name) {
        this.left.push(lines_of(comment));
      } else if (OUTSIDE.test(name) || LABEL.test(name)) {
        this.outside(line, name);
      } else {
        this.slot(name, front, comment);
      }
    }

    // Takes a label, a directive, a relation line or a line of data.
    outside(line, said) {
      this.is_data = !TEXT.test(said) && (this.is_data || DATA.test(said));
      if (said.startsWith(".pred.rel") || LABEL.test(said)) { this.end_stretch(); }
      this.left.push([line.trimEnd()]);
    }

    // Ends a stretch: where it would be bare, its first nop stays.
    end_stretch() {
      if (this.is_bare) { this.undecided.shift(); }
      this.take_out_nops();
      this.is_bare = true;
    }

    take_out_nops() {
      this.undecided.forEach(([number, comment]) => { this.left[number] = lines_of(comment); });
      this.undecided = [];
    }

    // Takes an instruction.
    slot(name, front, comment) {
      const unit = this.units.shift(), said = unit ? with_unit(name, unit) : name;
      if (is_nop(said)) {
        this.undecided.push([this.left.length, comment]);
      } else {
        this.take_out_nops();
        this.is_bare = is_call(said);
      }
      this.left.push([`${front}${said}${comment ? "  " : ""}${comment}`]);
    }

    // The lines that are left of a text that ends here.
    lines() {
      this.end_stretch();
      return this.left.flat();
    }
  }

  // What is left of a text.
  function loosened(text) {
    const left = new Loosened();
    lines_of_text(text).forEach((line) => left.add(line));
    return left.lines().map((line) => `${line}\n`).join("");
  }

  ia64.loosening = { loosened };
}());
