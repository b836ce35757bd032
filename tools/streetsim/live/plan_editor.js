// The editor of a signal plan: a row for each movement, its greens as bars over the cycle, which mouse, touch and keys change.

const SVG = "http://www.w3.org/2000/svg";
const LABEL = 150, RULER = 18, STAGES = 16; // pixels
const MOST_HIGH = 300, ROW_LEAST = 12, ROW_MOST = 22; // of all rows, and of one
const NEAR_END = { mouse: 6, touch: 14, pen: 8 }; // pixels
const SET_EVERY = 250; // ms, while dragging

function drawn(tag, words, ...children) {
  const made = document.createElementNS(SVG, tag);
  for (const [name, value] of Object.entries(words)) made.setAttribute(name, value);
  made.append(...children);
  return made;
}

class PlanEditor {
  // made() makes the bars of the plan that is set; set(command) sets one; light: its name and its state's length.
  constructor({ made, set, clock, light, wide }) {
    Object.assign(this, { made, set, clock, light, wide });
    this.chosen = null; this.stage = 0; this.isSetting = false; this.lastSet = 0;
    this.bars = made();
    this.svg = drawn("svg", { class: "plan", tabindex: 0, role: "application", "aria-label": "greens of this light: arrows choose and move, E changes what is moved, O the offset, Delete takes a green away, Enter sets the plan" });
    watchPointer(this.svg, this);
    this.svg.onkeydown = event => this.key(event);
    this.makeTools();
    this.show();
  }

  get high() { return Math.max(ROW_LEAST, Math.min(ROW_MOST, Math.floor(MOST_HIGH / Math.max(1, this.bars.rows.length)))); }
  get each() { return (this.wide - LABEL - 2) / this.bars.cycle; } // pixels a second
  x(second) { return LABEL + round(second - this.bars.offset, this.bars.cycle) * this.each; }
  top(row) { return RULER + STAGES + row * this.high; }

  // The pieces of a stretch, which may go on at the left: [x, width].
  pieces({ begin, length }) {
    const from = round(begin - this.bars.offset, this.bars.cycle), first = Math.min(length, this.bars.cycle - from);
    return [[from, first], [0, length - first]].filter(piece => piece[1] > 0).map(([at, seconds]) => [LABEL + at * this.each, seconds * this.each]);
  }

  show() {
    const { bars, svg } = this, high = this.top(bars.rows.length) + 2;
    svg.setAttribute("width", this.wide); svg.setAttribute("height", high); svg.setAttribute("viewBox", `0 0 ${this.wide} ${high}`);
    const hatch = drawn("pattern", { id: "lost", width: 5, height: 5, patternUnits: "userSpaceOnUse", patternTransform: "rotate(45)" }, drawn("rect", { width: 5, height: 5, class: "lost-ground" }), drawn("rect", { width: 2, height: 5, class: "lost-line" }));
    this.now = drawn("line", { y1: 0, y2: high, class: "now" });
    svg.replaceChildren(drawn("defs", {}, hatch), ...this.ruler(), ...this.stageBoxes(), ...bars.rows.flatMap((row, i) => this.rowOf(row, i)), this.now);
    this.tick();
    this.showTools();
  }

  fit(wide) { if (wide !== this.wide) { this.wide = wide; this.show(); } }

  tick() {
    const x = LABEL + round(this.clock(), this.bars.cycle) * this.each;
    this.now.setAttribute("x1", x); this.now.setAttribute("x2", x);
  }

  ruler() {
    const step = [5, 10, 20, 30, 60, 120, 300].find(seconds => seconds * this.each >= 28) ?? 600, marks = [];
    for (let second = 0; second < this.bars.cycle; second += step) marks.push(drawn("text", { x: this.x(second) + 1, y: 12, class: second ? "mark" : "mark begin" }, `${second}`), drawn("line", { x1: this.x(second), x2: this.x(second), y1: 2, y2: RULER, class: "grid" }));
    return [drawn("rect", { x: LABEL, y: 0, width: this.wide - LABEL, height: RULER, class: "ruler" }), drawn("text", { x: 2, y: 12, class: "mark" }, "offset: drag here ↔"), ...marks];
  }

  stageBoxes() {
    const boxes = this.bars.stages().flatMap((stage, i) => this.pieces(stage).flatMap(([x, width]) => [
      drawn("rect", { x, y: RULER, width, height: STAGES - 2, class: i === this.stage ? "stage chosen" : "stage" }),
      drawn("text", { x: x + width / 2, y: RULER + 11, class: "mark middle" }, width > 14 ? `${stage.length}` : "")]));
    return [drawn("text", { x: 2, y: RULER + 11, class: "mark" }, "phases, seconds"), ...boxes];
  }

  rowOf(row, i) {
    const top = this.top(i), name = streetName(row.street), inside = this.high - 3;
    const bar = ({ begin, length }, kind) => this.pieces({ begin, length }).map(([x, width]) => drawn("rect", { x, y: top + 1, width, height: inside, class: kind }));
    const isChosen = ({ begin }) => this.chosen?.row === i && this.chosen.green?.begin === begin;
    return [
      drawn("rect", { x: LABEL, y: top, width: this.wide - LABEL, height: this.high - 1, class: "empty" }),
      drawn("text", { x: 2, y: top + this.high / 2 + 3, class: "name" }, `${ARROWS[row.kind]} ${windOf(row.street)} ${this.labelOf(row, name)}`, drawn("title", {}, `${row.kind} from ${name} to ${streetName(row.next)}`)),
      ...this.bars.greens(row).flatMap(green => bar(green, isChosen(green) ? `green chosen ${this.chosen.part}` : "green")),
      ...this.bars.lost(row).flatMap(lost => bar(lost, "lost")), ...this.bars.faults(i).flatMap(fault => bar(fault, "crossed")),
    ];
  }

  // A row's street, and where it leads to if another row goes by the same arrow.
  labelOf(row, name) {
    const isAlone = this.bars.rows.every(other => other.next.name === row.next.name || other.street.name !== row.street.name || other.kind !== row.kind);
    return isAlone ? shortened(name, 16) : `${shortened(name, 8)} → ${shortened(streetName(row.next), 8)}`;
  }

  makeTools() {
    [this.tools, this.tool] = fromTemplate("planTools");
    const acts = {
      split: () => this.bars.split(this.stage), remove: () => this.bars.removeStage(this.stage),
      add: () => { this.bars.addStage(this.stage); this.stage++; },
      given: () => { this.bars = this.made(); this.chosen = null; },
    };
    const takes = {
      seconds: value => this.bars.setSeconds(this.stage, value),
      offset: value => { this.bars.offset = round(value, this.bars.cycle); },
      from: value => this.dragTo("dragBegin", value), to: value => this.dragTo("dragEnd", value),
    };
    for (const [id, act] of Object.entries(acts)) this.tool(id).onclick = () => { act(); this.show(); };
    for (const [id, take] of Object.entries(takes)) {
      this.tool(id).onchange = ({ target }) => { take(Math.round(+target.value) || 0); this.show(); };
    }
    this.tool("setPlan").onclick = () => guarded(() => this.send());
    this.tool("dragging").onchange = ({ target }) => { this.isSetting = target.checked; };
    this.tool("saveForSumo").hidden = !this.light;
    const { name, size } = this.light ?? {}, additional = () => this.bars.additional(name, size);
    this.tool("saveForSumo").onclick = () => saveAs(`${name}.add.xml`, additional(), "application/xml");
  }

  showTools() {
    const { bars, chosen } = this, stages = bars.stages(), green = chosen?.green;
    const isRed = bars.rows.some((_, i) => bars.faults(i).length);
    const fault = isRed ? "Red: movements that cross are green together." : "";
    this.stage = Math.min(this.stage, stages.length - 1);
    this.tool("stageTold").textContent = `${this.stage + 1} of ${stages.length}`;
    this.tool("cycle").textContent = bars.cycle;
    this.tool("seconds").value = stages[this.stage].length;
    this.tool("offset").value = bars.offset;
    this.tool("greens").hidden = !green;
    this.tool("from").value = green?.begin;
    this.tool("to").value = green && round(green.begin + green.length, bars.cycle);
    this.tool("planFault").textContent = bars.lacking() || fault;
  }

  // Drags an end of the chosen green to a second, the short way round.
  dragTo(part, second) {
    const { begin, length } = this.chosen.green, { cycle } = this.bars;
    const by = round(second - begin - (part === "dragEnd" ? length : 0), cycle);
    this.moveChosen(by > cycle / 2 ? by - cycle : by, part);
  }

  async send() { if (!this.bars.lacking()) await this.set(this.bars.command()); else throw new Error(this.bars.lacking()); }

  hit(event) {
    const box = this.svg.getBoundingClientRect(), scale = this.wide / box.width, x = (event.clientX - box.left) * scale, y = (event.clientY - box.top) * scale;
    const second = round(Math.floor((x - LABEL) / this.each) + this.bars.offset, this.bars.cycle), row = Math.floor((y - RULER - STAGES) / this.high);
    if (x < LABEL || row >= this.bars.rows.length) return null;
    if (y < RULER) return { part: "offset" };
    return y < RULER + STAGES ? { part: "stage", second } : this.hitRow(row, x, second, NEAR_END[event.pointerType] ?? 6);
  }

  hitRow(row, x, second, near) {
    const greens = this.bars.greens(this.bars.rows[row]), away = (at, from) => Math.abs(at - from);
    for (const green of greens.filter(({ length }) => length < this.bars.cycle)) {
      const ends = [["dragEnd", this.x(green.begin + green.length - 1) + this.each], ["dragBegin", this.x(green.begin)]];
      for (const [part, at] of ends) if (away(at, x) < Math.min(near, Math.max(3, green.length * this.each / 3))) return { row, green, part, second };
    }
    const green = greens.find(({ begin, length }) => round(second - begin, this.bars.cycle) < length);
    return { row, green, part: green ? "move" : "empty", second };
  }

  press(event) {
    const hit = this.hit(event);
    if (!hit) return;
    event.preventDefault();
    this.svg.focus(); this.svg.setPointerCapture(event.pointerId);
    if (hit.part === "stage") { this.stage = this.bars.stageAt(hit.second); this.show(); return; }
    if (hit.part === "empty") { const green = this.bars.add(this.bars.rows[hit.row], hit.second); this.chosen = { row: hit.row, green, part: "move" }; this.stage = this.bars.stageAt(hit.second); this.show(); return; }
    this.chosen = hit.part === "offset" ? { part: "offset" } : hit;
    const { offset, rows } = this.bars, states = rows.map(row => [...row.states]);
    this.held = { from: event.clientX, chosen: { ...this.chosen }, offset, states };
    this.show();
  }

  move(event) {
    if (!this.held) return;
    const scale = this.wide / this.svg.getBoundingClientRect().width, by = Math.round((event.clientX - this.held.from) * scale / this.each);
    this.bars.offset = this.held.offset;
    this.bars.rows.forEach((row, i) => { row.states = [...this.held.states[i]]; });
    this.chosen = { ...this.held.chosen };
    this.moveChosen(by);
    this.show();
    if (this.isSetting && performance.now() - this.lastSet > SET_EVERY) this.sendLater();
  }

  lift() { if (this.held) { this.held = null; if (this.isSetting) this.sendLater(); } }
  sendLater() { this.lastSet = performance.now(); guarded(() => this.send()); }

  moveChosen(by, part = this.chosen.part) {
    const { row, green } = this.chosen;
    if (part === "offset") this.bars.offset = round(this.bars.offset - by, this.bars.cycle);
    else this.chosen.green = this.bars[part](this.bars.rows[row], green, by);
  }

  key(event) {
    const step = event.shiftKey ? 5 : 1, keys = {
      ArrowLeft: () => this.moveChosen(-step), ArrowRight: () => this.moveChosen(step), ArrowUp: () => this.choose(-1), ArrowDown: () => this.choose(1),
      e: () => this.otherPart(), o: () => { this.chosen = { part: "offset" }; }, Delete: () => this.takeAway(),
      Enter: () => guarded(() => this.send()),
    };
    if (event.ctrlKey || event.metaKey || !keys[event.key]) return;
    event.preventDefault(); event.stopPropagation();
    if (this.chosen || !["ArrowLeft", "ArrowRight"].includes(event.key)) keys[event.key]();
    this.show();
    if (this.isSetting && /Left|Right|Delete/.test(event.key)) this.sendLater();
  }

  takeAway() {
    const { row, green } = this.chosen ?? {};
    if (green) this.bars.fill(this.bars.rows[row], green.begin, green.length, RED_SECOND);
    this.chosen = null;
  }

  // The green before or behind the chosen one, row by row.
  choose(by) {
    const all = this.bars.rows.flatMap((row, i) => this.bars.greens(row).map(green => ({ row: i, green, part: "dragEnd" })));
    const at = all.findIndex(({ row, green }) => this.chosen?.row === row && this.chosen.green?.begin === green.begin);
    this.chosen = all[Math.max(0, Math.min(all.length - 1, at < 0 ? 0 : at + by))] ?? null;
  }

  otherPart() {
    const parts = ["dragEnd", "dragBegin", "move"];
    if (this.chosen?.green) this.chosen.part = parts[(parts.indexOf(this.chosen.part) + 1) % 3];
  }
}

const shortened = (text, most) => text.length > most ? `${text.slice(0, most - 1)}…` : text;
