// Buttons, keys and pointers.

// What a hand does next on a map, by the button that begins it.
const MODES = { works: "Draw a stretch along a street.", path: "Choose the junctions of a path, one after another." };
let playing = false, due = 0, pointed = null, mode = null;
const wave = new Wave();

function showPlaying() { at("play").textContent = playing ? "Pause" : "Play"; }
function toggle() { playing = !playing; due = performance.now(); showPlaying(); }
function stop() { playing = false; showPlaying(); }
const oneStep = () => guarded(async () => { await advance(1); draw(1); showTables(); });

// Runs all anew, and shows what is then.
function anew(act) {
  stop();
  return guarded(async () => {
    await act();
    wave.lines = new Map();
    draw(1); showTables();
    if (chosen?.node !== undefined) choose(chosen);
  });
}

const goBack = () => anew(() => {
  const second = secondsOf(at("second").value);
  if (second > session.clock) throw new Error(`${clockText(second)} is still to come`);
  return session.act("go_back", { clock: second });
});

const switchTheme = () => setTheme(theme === "dark" ? "light" : "dark");

function setTheme(wanted) {
  theme = document.body.className = wanted;
  at("legend").replaceChildren(...legendOf(colours()));
  draw(1); showTables();
}

// Begins what a hand does next on a map, by its button's name; ends it where it is begun already.
function setMode(wanted) {
  mode = mode === wanted ? null : wanted;
  if (mode === "path") wave.clear();
  for (const name of Object.keys(MODES)) at(name).ariaPressed = mode === name;
  at("mode").textContent = MODES[mode] ?? "";
  showWave();
}

function showWave() {
  wave.draw(at("wave"));
  at("waveTold").textContent = wave.said();
  at("waveHead").hidden = !wave.path.length && mode !== "path";
}

const KEYS = {
  " ": toggle, ".": oneStep, "+": () => scene.zoom(1.25), "-": () => scene.zoom(.8), b: goBack, d: switchTheme,
  w: () => setMode("works"), g: () => setMode("path"), Escape: () => { setMode(null); choose(null); },
  0: () => scene.fit(),
};
for (const [key, move] of Object.entries(MOVES)) KEYS[key] = () => scene.drag(...move);
const BUTTONS = { play: " ", step: ".", back: "b", works: "w", path: "g", whole: 0, dark: "d" }; // that do what keys do

function onKey(event) {
  const act = KEYS[event.key];
  if (!act || event.ctrlKey || event.metaKey || ["INPUT", "SELECT"].includes(event.target.tagName)) return;
  if (event.key === " " && event.target.tagName === "BUTTON") return;
  event.preventDefault();
  act();
  draw(1);
}

// A click on a map: a junction of a path, or what is chosen.
function click(point, view) {
  if (mode !== "path") { choose(nearest(point, view)); return; }
  const near = nodeAt(point, 30 / scene.scale);
  if (near) guarded(async () => { wave.pick(near.number); draw(1); showWave(); });
}

// Pointers on a map: one drags it or draws works, two zoom.
class Pointers {
  constructor(view) {
    Object.assign(this, { view, down: new Map(), dragged: 0, apart: 0, from: null });
    const { canvas } = view;
    watchPointer(canvas, this);
    canvas.onpointerleave = () => { pointed = null; };
    canvas.onwheel = event => { event.preventDefault(); scene.zoom(Math.exp(-event.deltaY / 500)); if (!playing) draw(1); };
  }

  place(event) { return this.view.scene.world(event.offsetX, event.offsetY); }

  press(event) {
    this.down.set(event.pointerId, event); this.dragged = 0; this.apart = 0;
    this.view.canvas.setPointerCapture(event.pointerId);
    if (mode === "works" && this.down.size === 1) this.from = laneAt(this.place(event), this.view.scene);
    if (this.from) chosen = drawnTo(this.from, this.place(event));
  }

  move(event) {
    pointed = { point: this.place(event), view: this.view };
    if (this.down.has(event.pointerId)) this.drag(event);
    if (!playing) draw(1);
  }

  drag(event) {
    const last = this.down.get(event.pointerId);
    this.down.set(event.pointerId, event);
    if (this.from) { chosen = drawnTo(this.from, this.place(event)); return; }
    if (this.down.size === 1) {
      const [dx, dy] = [event.offsetX - last.offsetX, event.offsetY - last.offsetY];
      scene.drag(dx, dy);
      this.dragged += Math.abs(dx) + Math.abs(dy);
      return;
    }
    const [a, b] = [...this.down.values()], now = Math.hypot(a.offsetX - b.offsetX, a.offsetY - b.offsetY);
    if (this.apart) scene.zoom(now / this.apart);
    this.apart = now;
  }

  lift(event) {
    const single = this.down.size === 1;
    this.down.delete(event.pointerId);
    if (this.from) { this.from = null; setMode(null); choose(chosen); return; }
    if (single && this.dragged < 5 && event.type === "pointerup") click(this.place(event), this.view);
  }
}

async function setOffset(command) {
  const name = junctions.get(command.node).name;
  if (chosen?.node !== command.node) choose({ node: command.node });
  await setPlan(name, command);
  choose(chosen); showWave();
}

function watchButtons() {
  for (const [id, key] of Object.entries(BUTTONS)) at(id).onclick = () => { KEYS[key](); draw(1); };
  at("save").onclick = () => guarded(async () => saveAs("session.jsonl", await session.text(), "application/x-ndjson"));
  const compare = wanted => guarded(async () => {
    await session.act("compare", { wanted, shows_was: at("maps").value !== "now" });
    showMaps(); draw(1); showTables();
  });
  at("maps").onchange = () => compare(session.wanted);
  at("compare").onchange = () => compare(at("compare").checked);
  onkeydown = onKey;
}
