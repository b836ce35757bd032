// A signal plan as bars: for each movement what each second of the cycle shows, and what a hand changes in it.

const RED_SECOND = 0, GREEN_SECOND = 1, LOST_SECOND = 2; // lost: the light is green, and nobody passes
const MOST_PHASES = 16;
const NEW_PHASE = 10, YELLOW = 3; // seconds
const GOES_BEFORE = { straight: [], right: ["straight"], left: ["straight", "right"], back: ["straight", "right", "left"] }; // of those who cross
const SHORT_PAUSE = 12; // seconds in a green, of a street whose other movements have none then

const round = (value, cycle) => ((value % cycle) + cycle) % cycle;

// The parts of a cycle, {begin, length}, one after another; isBegin(second): whether one begins there, as at second 0.
function partsOf(cycle, isBegin) {
  const begins = Array.from({ length: cycle }, (_, second) => second).filter(second => second === 0 || isBegin(second));
  return begins.map((begin, i) => ({ begin, length: (begins[i + 1] ?? cycle) - begin }));
}

// The stretches of a cycle in which a test holds, {begin, length}; the last may go on at the begin.
function runsOf(cycle, holds) {
  const runs = partsOf(cycle, second => holds(second) !== holds(second - 1)).filter(({ begin }) => holds(begin));
  const goesOn = runs.length > 1 && runs[0].begin === 0 && holds(cycle - 1);
  if (goesOn) runs.at(-1).length += runs.shift().length;
  return runs;
}

class Bars {
  // known: plans of the run for this node; who goes together there does not cross.
  constructor(plan, movements, known) {
    this.node = plan.node; this.offset = plan.offset;
    this.cycle = cycleOf(plan);
    this.rows = movements.flatMap(movement => rowsOf(movement, plan));
    const together = known.map(one => greensOf(one));
    this.crossing = this.rows.map(row => this.rows.map(other => areCrossing(row, other) && !together.some(greens => goTogether(greens, row, other))));
    this.cuts = cutsOf(plan);
    this.rows.forEach((row, i) => this.findLost(row, i));
  }

  // Whether one who crosses a row is green in a second.
  isCrossed(i, second) { return this.rows.some((other, j) => this.crossing[i][j] && other.states[second] === GREEN_SECOND); }

  // Seconds between two greens of a movement, or before its green while its street has one, that nobody who crosses it has: the light
  // shows green there, and the import left them out for a queue's slow start, or for those who go first.
  findLost(row, i) {
    const { cycle } = this, seconds = [...row.states], isFree = second => seconds[second] === RED_SECOND && !this.isCrossed(i, second);
    const beside = this.rows.filter(other => other.street.name === row.street.name && other !== row);
    for (const { begin, length } of runsOf(cycle, second => seconds[second] === RED_SECOND)) {
      if (length === cycle) continue;
      const gap = Array.from({ length }, (_, at) => round(begin + at, cycle));
      const isPause = gap.every(isFree) && (gap.every(second => beside.some(other => other.states[second] !== RED_SECOND)) || length <= SHORT_PAUSE && gap.every(second => this.rows.some(other => other.states[second] === GREEN_SECOND)));
      const lead = isPause ? length : this.lead(gap, isFree, beside);
      for (const second of gap.slice(length - lead)) row.states[second] = LOST_SECOND;
    }
  }

  // How many of the last seconds of a gap are the begin of a green of the same street that goes on behind the gap.
  lead(gap, isFree, beside) {
    const next = round(gap.at(-1) + 1, this.cycle), others = beside.filter(one => one.states[next] === GREEN_SECOND);
    const lastRed = ({ states }) => gap.findLastIndex(second => !isFree(second) || states[second] === RED_SECOND);
    return Math.max(0, ...others.map(other => gap.length - 1 - lastRed(other)));
  }

  greens(row) { return runsOf(this.cycle, second => row.states[second] !== RED_SECOND); }
  lost(row) { return runsOf(this.cycle, second => row.states[second] === LOST_SECOND); }

  // The seconds of a row in which one who crosses it is green too.
  faults(i) { return runsOf(this.cycle, second => this.rows[i].states[second] === GREEN_SECOND && this.isCrossed(i, second)); }

  fill(row, begin, length, state) { for (let at = 0; at < length; at++) row.states[round(begin + at, this.cycle)] = state; }

  // A hand drags the begin of a green, its end, or all of it, by some seconds; each gives the green as it is then.
  dragBegin(row, { begin, length }, by) {
    const room = this.roomBefore(row, begin), moved = Math.max(-room, Math.min(length - 1, by));
    if (moved < 0) this.fill(row, begin + moved, -moved, GREEN_SECOND); else this.fill(row, begin, moved, RED_SECOND);
    return { begin: round(begin + moved, this.cycle), length: length - moved };
  }

  dragEnd(row, { begin, length }, by) {
    const room = this.roomBehind(row, begin + length), moved = Math.max(1 - length, Math.min(room, by));
    if (moved > 0) this.fill(row, begin + length, moved, GREEN_SECOND); else this.fill(row, begin + length + moved, -moved, RED_SECOND);
    return { begin, length: length + moved };
  }

  move(row, { begin, length }, by) {
    const moved = Math.max(-this.roomBefore(row, begin), Math.min(this.roomBehind(row, begin + length), by));
    const states = Array.from({ length }, (_, at) => row.states[round(begin + at, this.cycle)]);
    this.fill(row, begin, length, RED_SECOND);
    states.forEach((state, at) => { row.states[round(begin + moved + at, this.cycle)] = state; });
    return { begin: round(begin + moved, this.cycle), length };
  }

  // Seconds that are red before a second, and from it on.
  roomBefore(row, second) { let room = 0; while (room < this.cycle && row.states[round(second - 1 - room, this.cycle)] === RED_SECOND) room++; return room; }
  roomBehind(row, second) { let room = 0; while (room < this.cycle && row.states[round(second + room, this.cycle)] === RED_SECOND) room++; return room; }

  // A green of the whole stage of a second, where the row is red.
  add(row, second) {
    const stage = this.stages()[this.stageAt(second)];
    for (let at = stage.begin; at < stage.begin + stage.length; at++) row.states[at] ||= GREEN_SECOND;
    return this.greens(row).find(({ begin, length }) => round(second - begin, this.cycle) < length);
  }

  // Stages are the phases as the light shows them: {begin, length}, one after another from second 0 on.
  stages() { return this.parts(state => state !== RED_SECOND, this.cuts); }

  parts(seen, cuts) {
    const isOther = (second, before) => this.rows.some(({ states }) => seen(states[second]) !== seen(states[before]));
    return partsOf(this.cycle, second => cuts.has(second) || isOther(second, second - 1));
  }

  stageAt(second) { return this.stages().findLastIndex(({ begin }) => begin <= second); }

  // A stage takes so many seconds: its last ones are doubled or left out, lost ones last of all.
  setSeconds(which, seconds) {
    const { begin, length: before } = this.stages()[which];
    for (let left = before; left < seconds; left++) this.insert(this.plainIn(begin, left), 1, state => state === RED_SECOND ? RED_SECOND : GREEN_SECOND);
    for (let left = before; left > Math.max(1, seconds); left--) this.cutOut(this.plainIn(begin, left), 1);
  }

  // The last second of a stretch in which no row has lost one, or its last.
  plainIn(begin, seconds) {
    const all = Array.from({ length: seconds }, (_, at) => begin + at);
    return all.findLast(second => this.rows.every(({ states }) => states[second] !== LOST_SECOND)) ?? all.at(-1);
  }

  // Puts seconds behind a second, which show what is made of it.
  insert(second, count, made) {
    for (const row of this.rows) row.states.splice(second + 1, 0, ...Array(count).fill(made(row.states[second])));
    this.cuts = new Set([...this.cuts].map(cut => cut > second ? cut + count : cut));
    this.cycle += count;
  }

  cutOut(begin, count) {
    for (const row of this.rows) row.states.splice(begin, count);
    this.cuts = new Set([...this.cuts].filter(cut => cut <= begin || cut >= begin + count).map(cut => cut > begin ? cut - count : cut));
    this.cycle -= count; this.offset = round(this.offset, this.cycle);
  }

  // Two stages of one, which is two seconds long at least.
  split(which) {
    const { begin, length } = this.stages()[which];
    if (length > 1) this.cuts.add(begin + Math.ceil(length / 2));
  }

  // A stage more behind one, all red.
  addStage(which) {
    const { begin, length } = this.stages()[which], end = begin + length;
    this.insert(end - 1, NEW_PHASE, () => RED_SECOND);
    this.cuts.add(end); this.cuts.add(end + NEW_PHASE);
    this.cuts.delete(this.cycle);
  }

  removeStage(which) {
    const stages = this.stages();
    if (stages.length > 1) this.cutOut(stages[which].begin, stages[which].length);
  }

  // The phases that the engine is told: lost seconds are red. Splits that change nothing are told where there is room for them.
  phases() {
    const seen = state => state === GREEN_SECOND, all = this.parts(seen, this.cuts), parts = all.length > MOST_PHASES ? this.parts(seen, new Set()) : all;
    const shown = second => this.rows.filter(row => seen(row.states[second])).flatMap(row => row.turns);
    return parts.map(({ begin, length }) => [length, shown(begin).map(turn => turn.key).sort(compareTurns)]);
  }

  command() { return { cmd: "signal", node: this.node, offset: round(this.offset, this.cycle), phases: this.phases() }; }

  // What the plan lacks, in words; nothing where the engine may be asked.
  lacking() {
    const count = this.phases().length;
    return count > MOST_PHASES ? `these greens change ${count} times in a cycle, and a plan has ${MOST_PHASES} phases at most: let more of them begin or end together` : "";
  }

  // The light's program as an additional file for SUMO; lost seconds are green there. A green is a small g while it lets others go first,
  // and yellow follows where there is time for it.
  additional(light, size) {
    const states = Array.from({ length: this.cycle }, (_, second) => this.stateOf(second, size));
    const phases = partsOf(this.cycle, second => states[second] !== states[second - 1]);
    const lines = phases.map(({ begin, length }) => `    <phase duration="${length}" state="${states[begin]}"/>`);
    const words = `id="${escaped(light)}" type="static" programID="live" offset="${round(-this.offset, this.cycle)}"`;
    return ["<additional>", `  <tlLogic ${words}>`, ...lines, "  </tlLogic>", "</additional>", ""].join("\n");
  }

  stateOf(second, size) {
    const state = Array(size).fill("r");
    this.rows.forEach((row, i) => {
      if (row.states[second] === RED_SECOND) { if (this.isYellow(row, i, second)) this.write(state, row, "y"); return; }
      const goesFirst = !this.rows.some(other => GOES_BEFORE[row.kind].includes(other.kind) && other.states[second] !== RED_SECOND && areCrossing(row, other));
      this.write(state, row, goesFirst ? "G" : "g");
    });
    return state.join("");
  }

  write(state, row, letter) { for (const { index } of row.turns) if (index !== null && index < state.length) state[index] = letter; }

  // Whether a red second is one of the first behind a green, while nobody who crosses has green.
  isYellow(row, i, second) { return !this.isCrossed(i, second) && Array.from({ length: YELLOW }, (_, at) => round(second - 1 - at, this.cycle)).some(before => row.states[before] !== RED_SECOND); }
}

const escaped = text => text.replace(/[&<>"]/g, one => ({ "&": "&amp;", "<": "&lt;", ">": "&gt;", '"': "&quot;" })[one]);
const compareTurns = (one, other) => one[0] - other[0] || one[1] - other[1] || one[2] - other[2];

// A movement's rows: one for all turns that are green in the same seconds.
function rowsOf(movement, plan) {
  const isIn = (greens, { key }) => greens.some(green => String(green) === String(key));
  const states = turn => plan.phases.flatMap(([seconds, greens]) => Array(seconds).fill(Number(isIn(greens, turn))));
  const rows = groupsOf(movement.turns, turn => states(turn).join());
  return Array.from(rows.values(), turns => ({ ...movement, turns, states: states(turns[0]) }));
}

// The seconds at which a plan begins a phase that shows what the one before shows.
function cutsOf({ phases }) {
  const cuts = new Set(), texts = phases.map(([, greens]) => greens.map(String).sort().join(" "));
  let second = 0;
  phases.forEach(([seconds], i) => { if (i && texts[i] === texts[i - 1]) cuts.add(second); second += seconds; });
  return cuts;
}

const greensOf = ({ phases }) => phases.map(([, greens]) => new Set(greens.map(String)));
const isGreenIn = (green, row) => row.turns.some(turn => green.has(String(turn.key)));
const goTogether = (greens, row, other) => greens.some(green => isGreenIn(green, row) && isGreenIn(green, other));
