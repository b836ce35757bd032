// Plays one run, or two side by side at the same clock and place.
const slider = at("slider");
let sides = [], clocks = [], step = 0, playing = false, last = 0, pointed = null, linking = 0;

// A run on a canvas.
class Side {
  constructor(run, place) {
    this.run = run;
    const name = element("div", { className: "name", textContent: run.name, hidden: place === null });
    name.style.borderBottom = place ? `3px solid ${LIGHT.now}` : `3px dashed ${LIGHT.was}`; // as its lines in the charts
    this.canvas = element("canvas", { tabIndex: 0, role: "img", ariaLabel: `streets and vehicles of ${run.name}` });
    at("sides").append(element("div", { className: "side" }, this.canvas, name));
    this.scene = new Scene(this.canvas, run.links);
    this.plans = groupsOf(run.signals, plan => plan[1]);
    // The rows of each clock, end to end, and where those of each begin.
    this.begins = new Int32Array(run.clocks.length + 1);
    for (const place of run.frame) this.begins[place + 1]++;
    for (const place of run.clocks.keys()) this.begins[place + 1] += this.begins[place];
    const next = this.begins.slice();
    this.rows = new Int32Array(run.frame.length);
    run.frame.forEach((place, row) => { this.rows[next[place]++] = row; });
  }

  // What stood there at the last clock of the page that is not after a clock, else the first: vehicles on cells, [link, lane, rear, front, speed], how many were in buffers, and closed stretches, [link, lane, first, last].
  frameAt(clock) {
    const { run } = this, place = Math.max(0, run.clocks.findLastIndex(one => one <= clock)), cars = [];
    const rows = this.rows.subarray(this.begins[place], this.begins[place + 1]);
    for (const row of rows) {
      const cell = run.cell[row], slot = run.slot[row];
      if (cell >= 0) cars.push([run.links[slot >> 1], slot & 1, Math.max(0, cell - run.size[row] + 1), cell, run.speed[row]]);
    }
    return { clock: run.clocks[place], cars, buffered: rows.length - cars.length, closed: run.closed.findLast(([from]) => from <= place)[1] };
  }

  // Whether a link's signal shows it green; null where there is none.
  isGreen(link, clock) {
    const plan = (this.plans.get(this.run.links[link].end) || []).findLast(plan => plan[0] <= clock);
    return plan ? greensOfPlan({ offset: plan[2], phases: plan[3] }, clock).includes(link) : null;
  }

  streetAt(point) { return point ? (this.scene.nearestLink(point) || { name: "" }).name : ""; }

  // What is shown, also for tests: clock, its text, the scale bar, the street pointed at, vehicles on cells, the cells that they cover, vehicles in buffers, standing, red stop lines, closed stretches.
  shown(now) {
    const { clock, cars, buffered, closed } = this.frameAt(now);
    return { clock, time: clockText(clock), scale: metresText(this.scene.scaleMetres()), street: this.streetAt(pointed), vehicles: cars.length, covered: cars.reduce((sum, [, , rear, front]) => sum + front - rear + 1, 0), buffered, standing: cars.filter(car => car[4] === 0).length,
             red: this.run.links.filter((_, link) => this.isGreen(link, clock) === false).length, closed: closed.length };
  }

  draw(now) {
    const { scene, run } = this, { clock, cars, closed } = this.frameAt(now);
    scene.clear();
    run.links.forEach(link => scene.drawLink(link));
    for (const [number, lane, first, end] of closed) scene.drawCells(run.links[number], lane, first, end, "#000");
    scene.drawCars(cars);
    run.links.forEach((link, number) => { const green = this.isGreen(number, clock); if (green !== null) scene.drawStopLine(link, green); });
    if (at("names").checked) scene.drawNames(run.links.filter(link => scene.isInView(link)), scene.drawJunctions(run.junctions));
    scene.drawScale();
    if (this.streetAt(pointed)) scene.drawName(this.streetAt(pointed), pointed);
  }
}

// What charts show of each run, and how its line is drawn.
const BANDS = ["vehicles", "standing", "arrived"].map((words, i) => ({ words, of: point => point[i + 1], digits: 0 }));
const LINES = [{ colour: LIGHT.was, dashes: [5, 3] }, { colour: LIGHT.now, dashes: [] }]; // the last one alone of one run

// The charts beside one another below the sides.
function drawCharts(now) {
  const { width, height } = at("chart"), pen = at("chart").getContext("2d"), wide = width / BANDS.length;
  const own = sides.map(({ run }, i) => ({ ...LINES.at(i - sides.length), points: run.chart, word: sides.length > 1 ? run.name : "" })), span = [clocks[0], clocks.at(-1)];
  pen.fillStyle = "#fff"; pen.fillRect(0, 0, width, height);
  BANDS.forEach((band, i) => drawBand(pen, { band, left: i * wide, top: 2, wide, sides: own, span, ink: "#222", now }));
}

function goToChart({ offsetX }) {
  const wide = at("chart").width / BANDS.length, share = (offsetX % wide - CHART_LEFT) / (wide - CHART_LEFT - 6);
  go(clocks[0] + share * (clocks.at(-1) - clocks[0]));
}

function draw() {
  const now = clocks[step], shown = sides.map(side => side.shown(now));
  for (const side of sides) side.draw(now);
  if (at("charts").checked) drawCharts(now);
  at("told").textContent = `${clockText(now)}, ` + shown.map(one => `${one.vehicles + one.buffered} vehicles, ${one.standing} standing`).join(" | ");
  document.body.dataset.shown = JSON.stringify(shown[0]);
  if (sides.length > 1) document.body.dataset.other = JSON.stringify(shown[1]);
  slider.value = step;
  clearTimeout(linking);
  if (!playing) linking = setTimeout(link, 300);
}

// The page's address leads to what is shown; a frame in another page has no address of its own, and no button for it.
function link() {
  if (at("copy").hidden) return;
  const { x, y, scale, moved } = sides[0].scene, place = moved ? [x, y, scale].map(value => `,${+value.toFixed(3)}`).join("") : "";
  history.replaceState(null, "", `#${clocks[step]}${place}`);
}

// Every side is seen from one place.
function look({ x, y, scale, moved }) { for (const side of sides) Object.assign(side.scene, { x, y, scale, moved }); }
function follow(scene) { look(scene); draw(); }

// Takes the window's size; the middle and the zoom stay where somebody has chosen them.
function resize() {
  Object.assign(at("chart"), { width: innerWidth, height: BAND + 4, hidden: !at("charts").checked });
  const isColumn = innerWidth < 700, [across, down] = isColumn ? [1, sides.length] : [sides.length, 1], high = innerHeight - at("bar").offsetHeight - at("chart").offsetHeight;
  at("sides").className = isColumn ? "column" : "";
  for (const { scene } of sides) scene.resize(Math.floor(innerWidth / across) - (across - 1), Math.floor(high / down) - (down - 1));
}

function tick(time) {
  if (!playing) return;
  const every = Math.min(...sides.map(side => side.run.every)), steps = Math.floor((time - last) / 1000 * at("rate").value / every);
  if (steps >= 1) {
    last = time;
    step = Math.min(clocks.length - 1, step + steps);
    if (step === clocks.length - 1) toggle();
    draw();
  }
  if (playing) requestAnimationFrame(tick);
}

function toggle() {
  playing = !playing;
  at("play").textContent = playing ? "Pause" : "Play";
  last = performance.now();
  if (playing) requestAnimationFrame(tick); else draw();
}

function go(clock) { const found = clocks.findIndex(one => one >= clock); step = found < 0 ? clocks.length - 1 : found; draw(); }

// Shows the step of a hash: #STEP, #STEP,X,Y with a place in metres that is in the middle and pointed at, or with a scale in pixels a metre after them.
function goTo(hash) {
  const [clock, x, y, scale] = hash.slice(1).split(",").map(Number);
  if (Number.isFinite(x) && Number.isFinite(y)) {
    pointed = scale > 0 ? null : [x, y];
    look({ x, y, scale: scale > 0 ? scale : sides[0].scene.scale, moved: true });
  }
  go(clock || 0);
}

const goToStep = wanted => { step = Math.max(0, Math.min(clocks.length - 1, wanted)); draw(); };
const moving = act => () => { act(sides[0].scene); follow(sides[0].scene); };
const KEYS = {
  ArrowLeft: () => goToStep(step - 1), ArrowRight: () => goToStep(step + 1), Home: () => goToStep(0),
  End: () => goToStep(Infinity), PageUp: () => go(clocks[step] - 60), PageDown: () => go(clocks[step] + 60),
  "+": moving(scene => scene.zoom(1.3)), "-": moving(scene => scene.zoom(1 / 1.3)), 0: moving(scene => scene.fit()),
  n: () => at("names").click(), c: () => at("charts").click(), " ": toggle,
};

function onKey(event) {
  const { key } = event, own = { INPUT: true, SELECT: true, BUTTON: key === " " }; // what controls do by themselves
  if (own[event.target.tagName] || event.ctrlKey || event.altKey || event.metaKey) return;
  const move = event.shiftKey && MOVES[key], plain = key === "=" ? "+" : key;
  const action = move ? moving(scene => scene.drag(...move)) : KEYS[plain] ?? KEYS[plain.toLowerCase()];
  if (action) { event.preventDefault(); action(); }
}

function listen({ canvas, scene }) {
  canvas.onwheel = event => { event.preventDefault(); scene.zoom(Math.exp(-event.deltaY / 500)); follow(scene); };
  canvas.onpointermove = event => {
    pointed = scene.world(event.offsetX, event.offsetY);
    if (event.buttons) { scene.drag(event.movementX, event.movementY); follow(scene); } else if (!playing) draw();
  };
  canvas.onpointerleave = () => { pointed = null; draw(); };
}

// The runs of a page: a line of JSON, and behind it the columns that each names, of each entry how much more it is than the one before.
function runsOf(bytes) {
  const end = bytes.indexOf(10), runs = JSON.parse(new TextDecoder().decode(bytes.subarray(0, end))), kinds = { 8: Int8Array, 16: Int16Array, 32: Int32Array };
  let begin = end + 1;
  for (const run of runs)
    for (const [name, bits, count] of run.columns) {
      const steps = new kinds[bits](bytes.slice(begin, begin += count * bits / 8).buffer);
      let entry = 0;
      run[name] = Int32Array.from(steps, step => entry += step);
    }
  return runs;
}

unpack(at("data").textContent).then(answer => answer.arrayBuffer()).then(buffer => {
  const runs = runsOf(new Uint8Array(buffer));
  sides = runs.map((run, place) => new Side(run, runs.length > 1 ? place : null));
  clocks = [...new Set(runs.flatMap(run => run.clocks))].sort((a, b) => a - b);
  slider.max = clocks.length - 1;
  sides.forEach(listen);
  at("play").onclick = toggle;
  at("legend").replaceChildren(...legendOf(LIGHT));
  for (const [id, factor] of [["in", 1.3], ["out", 1 / 1.3]]) at(id).onclick = moving(scene => scene.zoom(factor));
  at("names").onchange = draw;
  at("charts").onchange = () => { resize(); draw(); };
  at("chart").onclick = goToChart;
  at("copy").hidden = location.protocol === "about:";
  at("copy").onclick = () => { link(); navigator.clipboard?.writeText(location.href); };
  slider.oninput = () => { step = +slider.value; draw(); };
  onresize = () => { resize(); draw(); };
  onhashchange = () => goTo(location.hash);
  onkeydown = onKey;
  resize(); goTo(location.hash);
});
