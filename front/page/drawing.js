// Pictures for a page: the pure part of `front/drawing` in JavaScript, from a figure as data (`as_data` in figure.py) to markup.
//
// It has the functions of the Python under their names and in their order, file by file, so that one can be laid beside the
// other. `front/tests/test_page_drawing.py` holds it to that, byte by byte. Where the Python has a place as a key, `2.1` is one.
var ia64 = globalThis.ia64 = globalThis.ia64 || {};

(function () {
  "use strict";

  // ---- What Python has by itself -------------------------------------------------------------------------------------------

  // Which of two numbers, texts or lists of them comes first.
  function order(one, other) {
    if (!Array.isArray(one)) { return one < other ? -1 : one > other ? 1 : 0; }
    for (let at = 0; at < one.length; at += 1) {
      const found = order(one[at], other[at]);
      if (found) { return found; }
    }
    return 0;
  }

  function sorted(list, key = (item) => item) {
    return [...list].sort((one, other) => order(key(one), key(other)));
  }

  function range(count) {
    return Array.from({ length: count }, (_, at) => at);
  }

  // The nearest whole number, of two that are as near the even one.
  function round(value) {
    return Number.isInteger(value - 0.5) ? 2 * Math.round(value / 2) : Math.round(value);
  }

  // Puts one more item into the list that a map has for a key.
  function put(map, key, item) {
    if (!map.has(key)) { map.set(key, []); }
    map.get(key).push(item);
  }

  // ---- figure.py -----------------------------------------------------------------------------------------------------------

  const STOOD_IN = "\u2248", UNKNOWN = "?";

  function key_of(place) {
    return `${place[0]}.${place[1]}`;
  }

  function label_of(pair) {
    const names = `${pair.rule} ${ranges(pair.resources)}`;
    return pair.excuse ? `${names}: ${pair.excuse}` : names;
  }

  function title_of(figure) {
    return [figure.file, figure.function].filter(Boolean).join(": ");
  }

  function slots_in(figure) {
    return figure.rows.flatMap((row) => row.slots);
  }

  // The pairs of each slot.
  function touching(figure) {
    const found = new Map();
    for (const pair of figure.pairs) {
      for (const place of new Set([key_of(pair.first), key_of(pair.second)])) { put(found, place, pair); }
    }
    return found;
  }

  // Names of registers, those that follow one another as a range: `p1 to p15, b0`.
  function ranges(names) {
    const found = [];
    for (const name of names) {
      if (found.length && is_next(found[found.length - 1][1], name)) {
        found[found.length - 1][1] = name;
      } else {
        found.push([name, name]);
      }
    }
    const said = found.map(([first, last]) =>
      first === last ? first : `${first}${is_next(first, last) ? ", " : " to "}${last}`);
    return said.join(", ");
  }

  function is_next(name, following) {
    return name[0] === following[0] && is_number(name.slice(1)) && is_number(following.slice(1)) &&
      Number(following.slice(1)) === Number(name.slice(1)) + 1;
  }

  function is_number(text) {
    return /^\d+$/.test(text);
  }

  // ---- accesses.py: as they are said ---------------------------------------------------------------------------------------

  const SHOWN = { unat: "ar.unat", pfs: "ar.pfs", lc: "ar.lc", ec: "ar.ec", cfm: "the frame", system: "system registers" };
  const KINDS = "rpbf";
  const OTHERS = ["unat", "pfs", "lc", "ec", "cfm"];

  // Names of resources in the order of violations, and behind them those that `check` has no names for.
  function in_order(names) {
    function key(name) {
      if (KINDS.includes(name[0]) && is_number(name.slice(1))) { return [KINDS.indexOf(name[0]), Number(name.slice(1)), name]; }
      return [KINDS.length, OTHERS.includes(name) ? OTHERS.indexOf(name) : OTHERS.length, name];
    }
    return sorted(names, key);
  }

  function shown(name) {
    return SHOWN[name] || name;
  }

  // ---- words.py ------------------------------------------------------------------------------------------------------------

  const NAMES = /[A-Za-z_$][\w.$]*/g, GUARD = /^\([^)]*\)/, BASE = /\[[^\]]*\]/g;
  // Names of registers that have others: those of the canonical text.
  const ALIASES = { gp: "r1", sp: "r12", tp: "r13", rp: "b0", ret0: "r8", ret1: "r9", ret2: "r10", ret3: "r11",
    "ar.unat": "unat", "ar.pfs": "pfs", "ar.lc": "lc", "ar.ec": "ec" };
  const WRITTEN = "written", READ = "read";

  // The parts of a text that a form finds, each from one index up to another.
  function spans(text, form) {
    return Array.from(text.matchAll(form), (found) => [found.index, found.index + found[0].length]);
  }

  // Where a text names a resource that it writes or reads: left of `=`, or else in the brackets of a base, what it writes; all
  // but what stands left of `=` outside of brackets what it reads.
  function resource_spans(text, resource, role) {
    const named = spans(text, NAMES).filter(([start, end]) => {
      const name = text.slice(start, end);
      return (ALIASES[name] || name) === resource;
    });
    const guard = text.match(GUARD), body = guard ? guard[0].length : 0;
    const equals = text.indexOf("="), bases = spans(text, BASE);

    function is_left(span) {
      return body <= span[0] && span[0] < equals && !in_base(span);
    }

    function in_base(span) {
      return bases.some(([start, end]) => start <= span[0] && span[0] < end);
    }

    if (role === READ) { return named.filter((span) => !is_left(span)); }
    const left = named.filter(is_left);
    return left.length ? left : named.filter(in_base);
  }

  // The lines of a text, none of them longer than this: broken behind a comma, a blank or a mark, where one is in its second
  // half, and else anywhere.
  function broken(text, width) {
    const marks = Array.from(text), lines = [];
    let start = 0;
    while (marks.length - start > width) {
      let end = start + width;
      while (end > start && !",= ;:".includes(marks[end - 1])) { end -= 1; }
      if (end <= start + Math.floor(width / 2)) { end = start + width; }
      lines.push([start, end]);
      start = end;
    }
    return [...lines, [start, marks.length]];
  }

  // The lines of a sentence, without the blanks between them.
  function wrapped(text, width) {
    return broken(text, width).map(([start, end]) => Array.from(text).slice(start, end).join("").trim());
  }

  // ---- measures.py ---------------------------------------------------------------------------------------------------------

  // Of a character of a text, a caption or a number, and of a label of a pair.
  const CHARACTER = 7.83, SMALL = 6.65, LABEL = 6.65;
  const LINE = 17, CAPTION_LINE = 16;
  const TAB = 18, TEXT_LEFT = 25, TEXT_RIGHT = 14;     // of a slot: the letter of its unit, and what stands beside its text
  const SLOT_PAD = 11, GUTTER = 7, MARGIN = 16;
  const NARROWEST = 10, WIDEST = 34;                   // of a column, in characters
  const TRACK = 19, EXIT_TRACK = 7, GAP = 9;           // heights: of a track with labels and without, and of an empty gap
  const PAIR_LANE = 9, BRANCH_LANE = 10, FIRST_LANE = 20;
  const ENTRY_MARK = 16;
  const BESIDE = 7;                                    // between a line and a label that stands beside it
  const CORNER = 6;                                    // the radius of a line's corners
  const LEAST_WIDTH = 640;

  function is_long(row) {
    return row.units === "mlx";
  }

  // The widths of the three columns in characters.
  function column_widths(figure) {
    const longest = [NARROWEST, NARROWEST, NARROWEST];
    for (const row of figure.rows) {
      for (const slot of row.slots) {
        const column = slot.place[1];
        if (!(is_long(row) && column === 1)) { longest[column] = Math.max(longest[column], Math.min(slot.text.length, WIDEST)); }
      }
    }
    return longest;
  }

  // Of each column where it begins and how wide it is.
  function columns(figure, left) {
    const found = [];
    let x = left;
    for (const characters of column_widths(figure)) {
      const width = TEXT_LEFT + characters * CHARACTER + TEXT_RIGHT;
      found.push([x, width]);
      x += width + GUTTER;
    }
    return found;
  }

  // Where a slot begins and how wide it is: a long one takes two columns.
  function slot_span(row, slot, across) {
    const [x, width] = across[slot.place[1]];
    if (is_long(row) && slot.place[1] === 1) { return [x, width + GUTTER + across[2][1]]; }
    return [x, width];
  }

  function characters_of(width) {
    return Math.trunc((width - TEXT_LEFT - TEXT_RIGHT) / CHARACTER + 0.001);
  }

  // The captions of a row, each with its kind.
  function caption_texts(row) {
    const found = row.labels.map((name) => ["label", `${name}:`]);
    if (row.entry) {
      found.push(["entry", `entry: ${row.entry.why}`]);
      found.push(...row.entry.promises.map((names) => ["promise", names.length > 2 ?
        `promises of ${names.join(", ")}: no two are both 1` : `promises: ${names[0]} and ${names[1]} are never both 1`]));
    }
    return found;
  }

  // The lines of a row's captions, each with its kind.
  function caption_lines(row, width) {
    return caption_texts(row).flatMap(([kind, text]) =>
      wrapped(text, Math.max(20, Math.trunc(width / SMALL))).map((line) => [kind, line]));
  }

  // ---- lanes.py ------------------------------------------------------------------------------------------------------------

  // From one place on a line to another, both of it.
  class Stretch {
    constructor(start, end) { Object.assign(this, { start, end }); }

    get length() { return this.end - this.start; }

    meets(other) { return this.start <= other.end && other.start <= this.end; }
  }

  // The lane of each stretch, from 0. The shortest come first and each takes the innermost lane that is free, so one that is
  // within another is nearer to the code than that, and the two don't cross.
  function lanes(stretches) {
    const taken = [], found = stretches.map(() => 0);
    for (const number of sorted(range(stretches.length), (at) => [stretches[at].length, stretches[at].start, at])) {
      const stretch = stretches[number];
      let lane = taken.findIndex((others) => !others.some((other) => stretch.meets(other)));
      if (lane < 0) { lane = taken.push([]) - 1; }
      taken[lane].push(stretch);
      found[number] = lane;
    }
    return found;
  }

  // How many lanes there are.
  function count(numbers) {
    return Math.max(-1, ...numbers) + 1;
  }

  // ---- routes.py -----------------------------------------------------------------------------------------------------------

  // Where lines touch the boxes of slots: over or below the name of a resource, and no two at one place.
  class Anchors {
    constructor(boxes, lines) { Object.assign(this, { boxes, lines, taken: new Map() }); }

    // The x of a line that comes to a slot for this resource.
    at(slot, resource, role, is_above) {
      const box = this.boxes.get(key_of(slot.place));
      const own = resource_spans(slot.text, resource, role);
      const named = own.length ? own : resource_spans(slot.text, resource, other(role));
      let x = named.length ? this.middle(slot, named[0]) : box[0] + TEXT_LEFT + slot.text.length * CHARACTER / 2;
      const side = `${key_of(slot.place)} ${is_above}`, used = this.taken.get(side) || [];
      const lowest = box[0] + TAB + 4, highest = box[0] + box[1] - 10;
      for (const away of range(50).flatMap((step) => [4 * step, -4 * step])) {
        const tried = Math.min(Math.max(x + away, lowest), highest);
        if (used.every((other_x) => Math.abs(tried - other_x) >= 8)) {
          x = tried;
          break;
        }
      }
      this.taken.set(side, [...used, x]);
      return x;
    }

    middle(slot, [start, end]) {
      const line = this.lines.get(key_of(slot.place)).find((one) => start < one[1] || one[1] === slot.text.length);
      return this.boxes.get(key_of(slot.place))[0] + TEXT_LEFT + ((start + end) / 2 - line[0]) * CHARACTER;
    }
  }

  function other(role) {
    return role === WRITTEN ? READ : WRITTEN;
  }

  // What the two slots of a pair do with its resource.
  function roles(rule) {
    return { WAW: [WRITTEN, WRITTEN], WAR63: [READ, WRITTEN] }[rule] || [WRITTEN, READ];
  }

  function label_width(text) {
    return text.length * LABEL + 10;
  }

  // Where the label of a line stands that goes from one x to another: on it, or beside it where it would hide it.
  function label_place(width, line, [left, right]) {
    const [start, end] = sorted(line);
    if (width + 24 <= end - start) { return (start + end - width) / 2; }
    if (end + BESIDE + width <= right) { return end + BESIDE; }
    if (start - BESIDE - width >= left) { return start - BESIDE - width; }
    return Math.min(Math.max((start + end - width) / 2, left), Math.max(left, right - width));
  }

  // The routes of the pairs. Where the first slot stands in the same row its line leaves it above, else below.
  function routes(figure, anchors, across) {
    const slots = new Map(slots_in(figure).map((slot) => [key_of(slot.place), slot]));
    const edges = [across[0][0], across[2][0] + across[2][1]];
    return figure.pairs.map((pair) => {
      const near = is_near(pair), [first, second] = roles(pair.rule);
      const start = anchor(anchors, slots, pair.first, pair.resources[0], first, pair.first[0] === pair.second[0], edges[0]);
      const end = anchor(anchors, slots, pair.second, pair.resources[0], second, true, edges[0]);
      const width = label_width(label_of(pair));
      const begins = label_place(width, [near ? start : edges[0], end], edges);
      return { pair, start, end, is_near: near, label: new Stretch(begins, begins + width) };
    });
  }

  // Whether the slots of a pair stand in one row, or the second one in the next.
  function is_near(pair) {
    return [0, 1].includes(pair.second[0] - pair.first[0]);
  }

  // Where a line touches a slot, or a row that has none.
  function anchor(anchors, slots, place, resource, role, is_above, left) {
    const slot = slots.get(key_of(place));
    return slot ? anchors.at(slot, resource, role, is_above) : left + 40;
  }

  // The tracks in the gaps above rows: of what comes to the row, and of what leaves the one above it.
  class Gaps {
    constructor(number) {
      this.coming = range(number).map(() => []);
      this.leaving = range(number).map(() => []);
      this.coming_tracks = new Map();
      this.leaving_tracks = new Map();
    }

    // Gives all that runs in the gaps its track. Behind it `heights` are known.
    settle() {
      for (const [rows, tracks] of [[this.coming, this.coming_tracks], [this.leaving, this.leaving_tracks]]) {
        for (const row of rows) {
          lanes(row.map(([, stretch]) => stretch)).forEach((track, at) => tracks.set(row[at][0], track));
        }
      }
      this.comes = this.coming.map((row) => count(row.map(([number]) => this.coming_tracks.get(number))));
      this.leaves = this.leaving.map((row) => count(row.map(([number]) => this.leaving_tracks.get(number))));
    }
  }

  // ---- geometry.py ---------------------------------------------------------------------------------------------------------

  class Box {
    constructor(x, y, width, height) { Object.assign(this, { x, y, width, height }); }

    get right() { return this.x + this.width; }

    get bottom() { return this.y + this.height; }
  }

  // From a line on a track, given by the ends of its stretch there, to a label beside it.
  function tail_to(label, points) {
    const along = sorted(points), [first, y] = along[0], [last] = along[along.length - 1];
    if (label.x > last) { return [[last - CORNER, y], [label.x, y]]; }
    return label.right < first ? [[first + CORNER, y], [label.right, y]] : [];
  }

  // Where everything of a figure stands.
  function geometry(figure) {
    return new Drafting(figure).geometry();
  }

  // The steps to a geometry: columns, routes, tracks, heights, and then points.
  class Drafting {
    constructor(figure) {
      this.figure = figure;
      this.far = figure.pairs.filter((pair) => !is_near(pair));
      this.far_lanes = lanes(this.far.map((pair) => new Stretch(...sorted([pair.first[0], pair.second[0]]))));
      const name = Math.max(...figure.rows.map((row) => row.name.length + 5), ...figure.rows.map((row) => row.lines.length));
      this.numbers = MARGIN + Math.max(7, name) * SMALL;
      this.marks = this.numbers + 5;
      this.left = this.marks + ENTRY_MARK + count(this.far_lanes) * PAIR_LANE + 4;
      this.across = columns(figure, this.left);
      this.right = this.across[2][0] + this.across[2][1];
      this.lay_out_texts();
      this.gaps = new Gaps(figure.rows.length + 1);
      this.routes = routes(figure, new Anchors(this.boxes, this.lines), this.across);
      this.lay_out_branches();
      this.lay_out_tracks();
      this.ways = this.right + FIRST_LANE + this.lane_count * BRANCH_LANE + 4;
    }

    lay_out_texts() {
      this.lines = new Map();
      this.boxes = new Map();
      for (const row of this.figure.rows) {
        for (const slot of row.slots) {
          const span = slot_span(row, slot, this.across);
          this.boxes.set(key_of(slot.place), span);
          this.lines.set(key_of(slot.place), broken(slot.text, characters_of(span[1])));
        }
      }
      this.captions = [...this.figure.rows.map((row) => caption_lines(row, this.right - MARGIN)), []];
    }

    // ---- Branches

    // Whether a branch stands in the last column, from where its line leaves to the right.
    is_at_end(branch) {
      const [index, slot] = branch.place;
      return slot === 2 || is_long(this.figure.rows[index]) && slot === 1;
    }

    // Where a branch leaves, on the scale of lanes: of each row three steps, where lines come, where they leave, and the gap
    // below.
    leaves_at(branch) {
      return 3 * branch.place[0] + (this.is_at_end(branch) ? 1 : 2);
    }

    // Branches to one bundle share a lane.
    lay_out_branches() {
      this.inside = this.figure.branches.filter((branch) => branch.target !== null);
      const targets = [...new Set(this.inside.map((branch) => branch.target))];
      const stretches = targets.map((target) => {
        const ends = this.inside.filter((branch) => branch.target === target).map((branch) => this.leaves_at(branch));
        return new Stretch(Math.min(...ends, 3 * target), Math.max(...ends, 3 * target));
      });
      const numbers = lanes(stretches);
      this.lane_of = new Map(targets.map((target, at) => [target, numbers[at]]));
      this.lane_count = count(numbers);
    }

    lane_x(branch) {
      return this.right + FIRST_LANE + this.lane_of.get(branch.target) * BRANCH_LANE;
    }

    // ---- Tracks

    lay_out_tracks() {
      const numbers = new Map(this.far.map((pair, at) => [pair, this.far_lanes[at]]));
      this.lane_of_pair = this.routes.map((route) => route.is_near ? null : this.left - 6 - numbers.get(route.pair) * PAIR_LANE);
      this.routes.forEach((route, index) => {
        const from_x = route.is_near ? route.start : this.lane_of_pair[index];
        const ends = [from_x, route.end, route.label.start, route.label.end];
        const stretch = new Stretch(Math.min(...ends) - 4, Math.max(...ends) + 4);
        this.gaps.coming[route.pair.second[0]].push([index, stretch]);
        if (!route.is_near) {
          this.gaps.leaving[route.pair.first[0] + 1].push([index, new Stretch(...sorted([from_x, route.start]))]);
        }
      });
      this.figure.branches.forEach((branch, number) => {
        if (!this.is_at_end(branch)) {
          const start = this.branch_x(branch);
          this.gaps.leaving[branch.place[0] + 1].push([-1 - number, new Stretch(start - 2, this.right + FIRST_LANE)]);
        }
      });
      this.gaps.settle();
    }

    branch_x(branch) {
      const [x, width] = this.boxes.get(key_of(branch.place));
      return x + width - 18;
    }

    // ---- Heights

    // The boxes of rows and gaps. A gap has room for its tracks and captions.
    lay_out_rows() {
      const rows = [], gaps = [];
      let y = 0;
      for (const index of range(this.figure.rows.length + 1)) {
        const captions = this.captions[index].length * CAPTION_LINE + (this.captions[index].length ? 4 : 0);
        const comes = this.gaps.comes[index] * TRACK;
        let height = GAP + this.gaps.leaves[index] * EXIT_TRACK;
        height += this.is_aside(index) ? Math.max(captions, comes) : captions + comes;
        gaps.push(new Box(this.left, y, this.right - this.left, height));
        y += height;
        if (index < this.figure.rows.length) {
          const most = Math.max(1, ...this.figure.rows[index].slots.map((slot) => this.lines.get(key_of(slot.place)).length));
          const box = new Box(this.left, y, this.right - this.left, most * LINE + SLOT_PAD);
          rows.push(box);
          y = box.bottom;
        }
      }
      return [rows, gaps, y];
    }

    // Whether the captions of a row have room beside its tracks.
    is_aside(index) {
      return this.captions[index].every(([, text]) => text.length * SMALL < this.marks + ENTRY_MARK - MARGIN);
    }

    coming_y(number, gap) {
      return gap.bottom - GAP / 2 - (this.gaps.coming_tracks.get(number) + 0.5) * TRACK + 2;
    }

    leaving_y(number, gap) {
      return gap.y + 5 + (this.gaps.leaving_tracks.get(number) + 0.5) * EXIT_TRACK;
    }

    // ---- Points

    pair_wire(index, route, rows, gaps) {
      const first = route.pair.first[0], second = route.pair.second[0];
      const track = this.coming_y(index, gaps[second]), end = rows[second].y;
      let points;
      if (first === second) {
        points = [[route.start, rows[first].y], [route.start, track], [route.end, track], [route.end, end]];
      } else if (route.is_near) {
        points = [[route.start, rows[first].bottom], [route.start, track], [route.end, track], [route.end, end]];
      } else {
        const lane = this.lane_of_pair[index], leaving = this.leaving_y(index, gaps[first + 1]);
        points = [[route.start, rows[first].bottom], [route.start, leaving], [lane, leaving], [lane, track],
          [route.end, track], [route.end, end]];
      }
      const label = new Box(route.label.start, track - 7.5, route.label.length, 15);
      return { points, label, tail: tail_to(label, points.filter((point) => point[1] === track)) };
    }

    branch_wire(number, branch, rows, gaps) {
      const row = rows[branch.place[0]];
      let start;
      if (this.is_at_end(branch)) {
        start = [[this.right + 3, row.y + row.height * 0.7]];
      } else {
        const x = this.branch_x(branch), y = this.leaving_y(-1 - number, gaps[branch.place[0] + 1]);
        start = [[x, row.bottom], [x, y]];
      }
      const height = start[start.length - 1][1];
      if (branch.target === null) { return { points: [...start, [this.right + FIRST_LANE - 4, height]], label: null, tail: [] }; }
      const lane = this.lane_x(branch), target = rows[branch.target], at = target.y + target.height * 0.3;
      return { points: [...start, [lane, height], [lane, at], [this.right + 5, at]], label: null, tail: [] };
    }

    geometry() {
      const [rows, gaps, height] = this.lay_out_rows(), slots = new Map();
      this.figure.rows.forEach((row, index) => {
        for (const slot of row.slots) {
          const [x, width] = this.boxes.get(key_of(slot.place));
          slots.set(key_of(slot.place), new Box(x, rows[index].y, width, rows[index].height));
        }
      });
      const captions = this.captions.slice(0, -1).map((texts, index) => {
        const bottom = gaps[index].bottom - GAP / 2 - (this.is_aside(index) ? 0 : this.gaps.comes[index] * TRACK);
        return texts.map(([kind, text], line) => [kind, text, bottom - (texts.length - 1 - line) * CAPTION_LINE - 4]);
      });
      let said = Math.max(0, ...this.figure.branches.flatMap((branch) => branch.only_by).map((line) => line.length));
      said = said ? Math.max(said, "only by this way:".length) : 0;
      const width = Math.max(LEAST_WIDTH, this.ways + said * SMALL + MARGIN);
      const wires = this.routes.map((route, index) => this.pair_wire(index, route, rows, gaps));
      const branches = this.figure.branches.map((branch, number) => this.branch_wire(number, branch, rows, gaps));
      return { width, height: height + MARGIN, left: this.left, right: this.right, numbers: this.numbers, marks: this.marks, rows,
        gaps, slots, lines: this.lines, captions, wires, branches, ways: this.ways };
    }
  }

  // ---- markup.py -----------------------------------------------------------------------------------------------------------

  // What may not stand in XML.
  const UNSPEAKABLE = /[^\t\n\r\u0020-\ud7ff\ue000-\ufffd\u{10000}-\u{10ffff}]/gu;
  const ENTITIES = { "&": "&amp;", "<": "&lt;", ">": "&gt;", '"': "&quot;", "'": "&#39;" };

  function escaped(text) {
    return String(text).replace(UNSPEAKABLE, "?").replace(/[&<>"']/g, (mark) => ENTITIES[mark]);
  }

  // A number of pixels, as short as it can be told.
  function number(value) {
    const told = Number.isInteger(4 * value) ? round(10 * value) / 10 : value;      // so that what is as near to two is even
    return told.toFixed(1).replace(/\.0$/, "");
  }

  function opening(name, attributes) {
    const parts = [name];
    for (const [key, value] of Object.entries(attributes)) {
      if (value !== "") { parts.push(`${key}="${typeof value === "number" ? number(value) : escaped(value)}"`); }
    }
    return parts.join(" ");
  }

  // An element with these attributes and these parts, which are markup.
  function element(name, attributes, ...content) {
    return content.length ? `<${opening(name, attributes)}>${content.join("")}</${name}>` : `<${opening(name, attributes)}/>`;
  }

  // The same of a text.
  function text_element(name, attributes, text) {
    return element(name, attributes, escaped(text));
  }

  // ---- legend.py -----------------------------------------------------------------------------------------------------------

  const UNITS = { M: "memory, integers", I: "integers", F: "floating point", B: "branches", X: "long" };
  const SAMPLE = 26, LEGEND_CHARACTER = 6.3, LEGEND_LINE = 20, BETWEEN = 18;

  // What is explained: units, groups and stops always, and else what occurs.
  function samples(figure) {
    const slots = slots_in(figure), found = [];
    function add(markup, said) { found.push({ markup, said }); }

    for (const [unit, said] of Object.entries(UNITS)) {
      if (slots.some((slot) => slot.unit === unit)) {
        add(element("rect", { x: 4, width: 17, height: 13, rx: 2, class: `unit-${unit.toLowerCase()}` }) +
          text_element("text", { x: 12.5, y: 11, "text-anchor": "middle", class: "letter" }, unit), said);
      }
    }
    const tints = [0, 1].map((at) => element("rect", { x: 13 * at, width: 12, height: 13, class: `tint${at} box` })).join("");
    add(tints, "groups, in turn");
    add(element("rect", { x: 11, y: -1, width: 5, height: 15, class: "stop" }), "a stop: the group ends");
    if (figure.rows.some((row) => row.entry)) {
      add(element("polygon", { points: "8,0 18,6.5 8,13", class: "entry" }), "an entry: walks begin here");
    }
    if (figure.branches.length) { add(line("branch") + head("head"), "where a branch leads"); }
    if (figure.branches.some((branch) => branch.only_by.length)) {
      add(line("way") + head("red"), "a pair clashes only by this way");
    }
    if (figure.pairs.some((pair) => !pair.excuse)) { add(line("violation") + head("red"), "a violation: rule and resource"); }
    if (figure.pairs.some((pair) => pair.excuse)) { add(line("excused") + head("why"), "a pair that predicates excuse"); }
    for (const [mark, said] of [[STOOD_IN, "outside the profile, stood in for"], [UNKNOWN, "outside the profile"]]) {
      if (slots.some((slot) => slot.mark === mark)) { add(text_element("text", { x: 9, y: 11, class: "mark" }, mark), said); }
    }
    return found;
  }

  function line(kind) {
    return element("path", { d: "M0,6.5 L20,6.5", class: `line ${kind}` });
  }

  function head(kind) {
    return element("polygon", { points: "26,6.5 19,3 19,10", class: kind });
  }

  // The samples side by side, in as many lines as they need.
  function legend(figure, width) {
    const parts = [];
    let x = MARGIN, y = 4;
    for (const sample of samples(figure)) {
      const wide = SAMPLE + 7 + sample.said.length * LEGEND_CHARACTER;
      if (x > MARGIN && x + wide > width - MARGIN) {
        x = MARGIN;
        y += LEGEND_LINE;
      }
      parts.push(element("g", { transform: `translate(${number(x)} ${number(y)})` }, sample.markup,
        text_element("text", { x: SAMPLE + 6, y: 10.5, class: "legend" }, sample.said)));
      x += wide + BETWEEN;
    }
    const markup = element("g", { class: "legends", role: "graphics-object group", "aria-label": "legend" }, ...parts);
    return { markup, width, height: y + LEGEND_LINE + 4 };
  }

  // ---- svg.py --------------------------------------------------------------------------------------------------------------

  const TITLE_LINE = 26, VERDICT_LINE = 24, NOTE_LINE = 17;
  const TITLE_CHARACTER = 12.6, VERDICT_CHARACTER = 8.8, NOTE_CHARACTER = 6.7;          // of fonts that are wide
  const GLYPHS = { accepted: "\u2713", violated: "\u2717", "not judged": "?" };
  const MARKS = { [STOOD_IN]: "outside the profile, and another instruction stood in for it", [UNKNOWN]: "outside the profile" };

  // ---- Lines

  // A way through points, with round corners.
  function path_of(points) {
    const parts = [`M${spelled(points[0])}`];
    for (let at = 1; at < points.length - 1; at += 1) {
      const start = towards(points[at], points[at - 1]), end = towards(points[at], points[at + 1]);
      parts.push(`L${spelled(start)} Q${spelled(points[at])} ${spelled(end)}`);
    }
    return [...parts, `L${spelled(points[points.length - 1])}`].join(" ");
  }

  // A point, as attributes have it.
  function spelled(point) {
    return `${number(point[0])},${number(point[1])}`;
  }

  // A point near a corner, on the way to another one.
  function towards(corner, point) {
    const across = point[0] - corner[0], down = point[1] - corner[1], length = Math.abs(across) + Math.abs(down);
    const part = length ? Math.min(CORNER, length / 2) / length : 0;
    return [corner[0] + across * part, corner[1] + down * part];
  }

  // The head of an arrow at the end of a way.
  function arrow(points, kind) {
    const [[x0, y0], [x, y]] = points.slice(-2);
    let corners;
    if (Math.abs(x - x0) > Math.abs(y - y0)) {
      const back = x > x0 ? -6.5 : 6.5;
      corners = [[x, y], [x + back, y - 3.6], [x + back, y + 3.6]];
    } else {
      const back = y > y0 ? -6.5 : 6.5;
      corners = [[x, y], [x - 3.6, y + back], [x + 3.6, y + back]];
    }
    return element("polygon", { points: corners.map(spelled).join(" "), class: kind });
  }

  // The line of a pair.
  function pair_line(pair, wire, prefix, at) {
    const said = said_pair(pair), [kind, end] = pair.excuse ? ["excused", "why"] : ["violation", "red"];
    const way = [wire.points, wire.tail].filter((points) => points.length).map(path_of).join(" ");
    return element("g", { id: `${prefix}pair-${at}`, class: `pair is-${kind}`, role: "graphics-symbol img", "aria-label": said,
      "data-slots": slots_of(pair, prefix) },
    text_element("title", {}, said), element("path", { d: way, class: `line ${kind}` }), arrow(wire.points, end));
  }

  // The label of a pair, which stands over all lines.
  function pair_label(pair, wire, prefix) {
    const box = wire.label, [edge, label] = pair.excuse ? ["box", "why"] : ["violation", "red-label"];
    return element("g", { class: "pair-label", "aria-hidden": "true", "data-slots": slots_of(pair, prefix) },
      text_element("title", {}, said_pair(pair)),
      element("rect", { x: box.x, y: box.y, width: box.width, height: box.height, rx: 4, class: `cased ${edge}` }),
      text_element("text", { x: box.x + box.width / 2, y: box.y + 11.2, "text-anchor": "middle", class: label }, label_of(pair)));
  }

  // A pair in words, each of its resources by itself.
  function said_pair(pair) {
    return pair.said.join("; ") + (pair.excuse ? `; excused: ${pair.excuse}` : "");
  }

  function slots_of(pair, prefix) {
    return [pair.first, pair.second].map((place) => slot_id(prefix, place)).join(" ");
  }

  function branch_line(branch, wire) {
    const is_way = branch.only_by.length > 0, kind = is_way ? "way" : "branch";
    const said = `branch from ${branch.said}` + branch.only_by.map((name) => `; ${name} clashes only by this way`).join("");
    return element("g", { class: `edge is-${kind}`, role: "graphics-symbol img", "aria-label": said,
      "data-place": key_of(branch.place) },
    text_element("title", {}, said), element("path", { d: path_of(wire.points), class: `line ${kind}` }),
    arrow(wire.points, is_way ? "red" : "head"));
  }

  // What is said of the branches by which alone pairs clash, at the right, in the height of their slots.
  function way_words(branches, wires, at) {
    const parts = [];
    branches.forEach((branch, index) => {
      if (branch.only_by.length) {
        const points = wires[index].points, [x, y] = points[points.length - (branch.target === null ? 1 : 3)];
        const way = `M${number(x)},${number(y)} L${number(at - 3)},${number(y)}`;
        parts.push(element("path", { d: way, class: "line way leader" }));
        ["only by this way:", ...branch.only_by].forEach((text, row) => {
          parts.push(text_element("text", { x: at, y: y + 4 + 13 * row, class: "red-label halo" }, text));
        });
      }
    });
    return parts.join("");
  }

  // ---- Slots

  function slot_id(prefix, place) {
    return `${prefix}slot-${place[0]}-${place[1]}`;
  }

  // Names of resources as they are told.
  function said_names(names) {
    return ranges(in_order(names).map(shown)) || "nothing";
  }

  // A slot in words, for those who don't see it.
  function said_slot(slot, pairs) {
    const parts = [`${slot.name}, unit ${slot.unit}: ${slot.text}` + (slot.has_stop ? " ;;" : ""), slot.canonical];
    if (slot.accesses) {
      parts.push(`reads ${said_names(slot.accesses.reads)}`, `writes ${said_names(slot.accesses.writes)}`);
    }
    parts.push(`group ${slot.group + 1}`, MARKS[slot.mark], slot.source);
    for (const pair of pairs) {
      parts.push(...pair.said.map((said) => said + (pair.excuse ? ` (excused: ${pair.excuse})` : "")));
    }
    return parts.filter(Boolean).join("; ");
  }

  // Where a slot's text names what it clashes on.
  function red_spans(slot, pairs) {
    const found = [];
    for (const pair of pairs.filter((each) => !each.excuse)) {
      const [first, second] = roles(pair.rule);
      for (const [place, role] of [[pair.first, first], [pair.second, second]]) {
        if (key_of(place) === key_of(slot.place)) {
          for (const resource of pair.resources) { found.push(...resource_spans(slot.text, resource, role)); }
        }
      }
    }
    return sorted(found);
  }

  // A line of a slot's text, with what it clashes on in red.
  function text_line(text, [first, last], found) {
    const parts = [];
    let at = first;
    for (const span of found) {
      const start = Math.max(span[0], at), end = Math.min(span[1], last);
      if (start < end) {
        if (at < start) { parts.push(text_element("tspan", {}, text.slice(at, start))); }
        parts.push(text_element("tspan", { class: "red" }, text.slice(start, end)));
        at = end;
      }
    }
    if (at < last) { parts.push(text_element("tspan", {}, text.slice(at, last))); }
    return parts.join("");
  }

  // The box of a slot, with its unit, its text and the bar of its stop.
  function slot_box(slot, box, lines, pairs, prefix) {
    const is_broken = pairs.some((pair) => !pair.excuse);
    const kinds = ["box", ...is_broken ? ["broken"] : [], ...slot.mark ? ["outside"] : []].join(" ");
    const red = red_spans(slot, pairs), first = box.y + box.height / 2 - (lines.length - 1) * LINE / 2 + 4.5;
    const parts = [text_element("title", {}, said_slot(slot, pairs)),
      element("rect", { x: box.x, y: box.y, width: box.width, height: box.height, rx: 3,
        class: `tint${slot.group % 2} ${kinds}` }),
      element("rect", { x: box.x + 1, y: box.y + 1, width: TAB - 1, height: box.height - 2, rx: 2,
        class: `unit-${slot.unit.toLowerCase()}` }),
      text_element("text", { x: box.x + 1 + (TAB - 1) / 2, y: box.y + box.height / 2 + 4.3, "text-anchor": "middle",
        class: "letter" }, slot.unit)];
    lines.forEach((span, index) => {
      parts.push(element("text", { x: box.x + TEXT_LEFT, y: first + index * LINE, class: slot.is_nop ? "nop" : "text" },
        text_line(slot.text, span, red)));
    });
    if (slot.mark) { parts.push(text_element("text", { x: box.right - 12, y: box.y + 11, class: "mark" }, slot.mark)); }
    if (slot.has_stop) {
      parts.push(element("rect", { x: box.right - 2, y: box.y - 2.5, width: 5, height: box.height + 5, rx: 1, class: "stop" }));
    }
    return element("g", { id: slot_id(prefix, slot.place), class: `slot group-${slot.group}`, tabindex: 0,
      role: "graphics-symbol img", "aria-label": said_slot(slot, pairs), "data-group": slot.group }, ...parts);
  }

  // ---- Rows

  // A bundle with what stands beside it.
  function bundle(row, index, shape, pairs, prefix) {
    const box = shape.rows[index], parts = [text_element("title", {}, `bundle ${row.name}`)];
    const middle = box.y + box.height / 2;
    parts.push(element("text", { x: shape.numbers, y: middle + (row.lines || !row.is_walked ? 0 : 4), "text-anchor": "end" },
      text_element("tspan", { class: "number", "font-weight": "bold" }, row.name),
      text_element("tspan", { class: "quiet" }, row.units ? ` .${row.units}` : "")));
    const below = row.is_walked ? row.lines : "on no walk";
    if (below) {
      parts.push(text_element("text", { x: shape.numbers, y: middle + 12, "text-anchor": "end", class: "quiet" }, below));
    }
    if (row.entry) {
      const corners = [[shape.marks, middle - 6], [shape.marks + 10, middle], [shape.marks, middle + 6]];
      parts.push(element("polygon", { points: corners.map(spelled).join(" "), class: "entry" }));
    }
    for (const [kind, text, y] of shape.captions[index]) {
      const classes = { label: "label", entry: "entry", promise: "entry promise" }[kind];
      parts.push(text_element("text", { x: MARGIN, y, class: `${classes} halo` }, text));
    }
    for (const slot of row.slots) {
      const key = key_of(slot.place);
      parts.push(slot_box(slot, shape.slots.get(key), shape.lines.get(key), pairs.get(key) || [], prefix));
    }
    if (!row.slots.length) {
      parts.push(element("rect", { x: box.x, y: box.y, width: box.width, height: box.height, rx: 3,
        class: "cased box outside" }));
      parts.push(text_element("text", { x: box.x + TEXT_LEFT, y: middle + 4.5, class: "nop" }, row.said));
    }
    return element("g", { class: "bundle", role: "graphics-object group",
      "aria-label": `bundle ${row.name} ${row.units}`.trim() }, ...parts);
  }

  // Where a group goes on from a row to the next: the gap between them has its tint.
  function bands(figure, shape) {
    const parts = [];
    figure.rows.slice(1).forEach((following, index) => {
      const slots = figure.rows[index].slots, last = slots[slots.length - 1];
      if (last && following.slots.length && !last.has_stop) {
        const gap = shape.gaps[index + 1];
        parts.push(element("rect", { x: gap.x + 2, y: gap.y - 1, width: gap.width - 4, height: gap.height + 2, opacity: "0.55",
          class: `tint${last.group % 2}` }));
      }
    });
    return parts.join("");
  }

  // The bundles of a figure and its lines, without a head.
  function drawing(figure, prefix) {
    const shape = geometry(figure), pairs = touching(figure);
    const rows = figure.rows.map((row, index) => bundle(row, index, shape, pairs, prefix));
    const edges = figure.branches.map((branch, at) => [branch, shape.branches[at]]);
    const arcs = sorted(figure.pairs.map((pair, at) => [pair, shape.wires[at], at]), ([pair]) => !pair.excuse);
    const lines = [...sorted(edges, ([branch]) => branch.only_by.length > 0).map(([branch, wire]) => branch_line(branch, wire)),
      ...arcs.map(([pair, wire, at]) => pair_line(pair, wire, prefix, at)),
      ...arcs.map(([pair, wire]) => pair_label(pair, wire, prefix))];
    const markup = [bands(figure, shape), ...rows, ...lines, way_words(figure.branches, shape.branches, shape.ways)].join("");
    return { markup, width: shape.width, height: shape.height };
  }

  // ---- The whole

  // The head of a figure: what is drawn, the verdict, and what is proved of it.
  function head_of(figure, width) {
    const parts = [], kind = figure.verdict.replace(" ", "-");
    let y = 0;
    function add(text, character, height, classes) {
      for (const said of wrapped(text, Math.trunc((width - 2 * MARGIN) / character))) {
        y += height;
        parts.push(text_element("text", { x: MARGIN, y, class: classes }, said));
      }
    }
    add(title_of(figure), TITLE_CHARACTER, TITLE_LINE, "title");
    add(`${GLYPHS[figure.verdict]} ${figure.said}`, VERDICT_CHARACTER, VERDICT_LINE, `verdict ${kind}`);
    y += 4;
    for (const note of figure.notes) { add(note, NOTE_CHARACTER, NOTE_LINE, "note"); }
    return { markup: parts.join(""), width, height: y + 8 };
  }

  function moved(drawn, y) {
    return element("g", { transform: `translate(0 ${number(y)})` }, drawn.markup);
  }

  // A figure with its head and its legend.
  function with_head(figure, prefix) {
    const body = drawing(figure, prefix), top = head_of(figure, body.width), key = legend(figure, body.width);
    const height = top.height + key.height;
    const markup = element("g", { role: "graphics-object group", "aria-label": `${title_of(figure)}: ${figure.said}` },
      top.markup, moved(key, top.height), moved(body, height));
    return { markup, width: body.width, height: height + body.height };
  }

  function opening_of(width, height) {
    return { viewBox: `0 0 ${number(width)} ${number(height)}`, width: round(width), height: round(height),
      role: "graphics-document document" };
  }

  // Figures, one below another, as a picture that stands alone, with this style sheet.
  function document(figures, sheet) {
    const drawn = figures.map((figure, at) => with_head(figure, `f${at}-`)), parts = [];
    const width = Math.max(...drawn.map((part) => part.width));
    let height = 0;
    for (const part of drawn) {
      parts.push(moved(part, height));
      height += part.height + MARGIN;
    }
    const title = figures.map((figure) => `${title_of(figure)}: ${figure.said}`).join(", ");
    const described = [...new Set(figures.flatMap((figure) => figure.notes))].join(" ");
    return element("svg", { xmlns: "http://www.w3.org/2000/svg", "aria-labelledby": "title", "aria-describedby": "desc",
      lang: "en", ...opening_of(width, height) },
    text_element("title", { id: "title" }, title), text_element("desc", { id: "desc" }, described),
    element("style", {}, sheet), element("rect", { width: "100%", height: "100%", class: "paper" }), ...parts) + "\n";
  }

  // The bundles of a figure and its legend, as a part of a page that has its head in words.
  function inline(figure, prefix) {
    const body = drawing(figure, prefix), key = legend(figure, body.width);
    return element("svg", opening_of(body.width, key.height + body.height),
      text_element("title", {}, `${title_of(figure)}: ${figure.said}`), key.markup, moved(body, key.height));
  }

  ia64.drawing = { document, inline, in_order, is_number, key_of, label_place, number, put, ranges, sorted, GLYPHS, MARKS };
}());
