// The page: what is run, what is shown, and how it begins.

let session, scene, views = [], stepped = 0, shownTables = 0, told = -1;

async function advance(steps) {
  await session.act("step", { steps });
  stepped = performance.now();
  if (wave.path.length) wave.note(session.now);
}

function draw(part) {
  follow(part);
  const shown = at("maps").value, [first, second] = views;
  first.world = shown === "was" && session.was ? session.was : session.now;
  const far = first.draw(part, playing);
  if (shown === "both" && session.was) {
    second.world = session.was;
    second.scene.look(first.scene);
    second.draw(part, playing);
  }
  if (chosen?.link) for (const view of views) view.drawStretch(chosen);
  if (pointed) drawPointed(pointed);
  editor?.tick();
  showTold(far);
}

function follow(part) {
  if (followed === null || !session.now.cars.has(followed)) return;
  const [x, y] = placeOfCar(session.now.between(followed, part));
  scene.look({ x, y });
}

function drawPointed({ point, view }) {
  const junction = nodeAt(point, 10 / scene.scale), link = view.scene.nearestLink(point);
  if (junction) view.scene.drawName(`junction ${junction.name}`, point);
  else if (link) view.scene.drawName(streetName(link), point);
}

function showTold(far) {
  const { clock, driving, arrived, coming, closed, cars } = session.now;
  if (playing && told === clock) return;
  told = clock;
  const standing = session.now.standing.reduce((sum, count) => sum + count, 0);
  at("told").textContent = `${clockText(clock)}, ${driving} driving, ${standing} standing, ${arrived} arrived, ${coming} to come${far ? "; streets by density" : ""}`;
  document.body.dataset.shown = JSON.stringify({ clock, driving, standing, arrived, seen: cars.size, closed: closed.length, far, gain: session.gain });
}

function showTables() {
  showQueues(session.now, (link, lane) => { showPlace(link); choose(stretchOf({ link, lane }, 0, link.metres)); });
  showChanges(session); showComparison(); showWave(); showBefore(); showLog(session);
  showDetectors(session).catch(() => {});
}

function showPlace(link) {
  const [x, y] = placeOnLane(link, 0, 1);
  scene.look({ x, y, scale: Math.max(scene.scale, 2) });
}

function showComparison() {
  at("gain").textContent = session.gainText;
  at("sides").hidden = !session.isChanged;
  at("compare").checked = Boolean(session.was);
  drawComparison(at("chart"), { now: session.now, was: session.was, watched: session.watched });
  showMaps();
}

// One map, or two beside each other.
function showMaps() {
  const both = at("maps").value === "both" && Boolean(session.was);
  if (at("secondScene").hidden === both) { at("secondScene").hidden = !both; resize(); }
}

function resize() {
  const shown = views.filter(({ canvas }) => !canvas.parentElement.hidden);
  for (const { scene: own, canvas: { parentElement: box } } of shown) own.resize(box.clientWidth, box.clientHeight);
  editor?.fit(at("chosen").clientWidth);
  draw(1);
}

function frame(time) {
  const rate = +at("rate").value, each = 1000 / Math.min(rate, 50);
  if (playing && !busy && time - due >= each) {
    due = time - due > 3 * each ? time : due + each;
    guarded(async () => {
      await advance(Math.max(1, Math.round(rate / 50)));
      if (time - shownTables > 500) { shownTables = time; showTables(); }
    });
  }
  if (playing) draw(Math.min(1, (performance.now() - stepped) / each));
  requestAnimationFrame(frame);
}

async function start() {
  const data = await (await unpack(at("data").textContent)).json();
  at("claim").textContent = data.claim;
  for (const node of data.nodes) junctions.set(node.number, node);
  for (const link of data.links) links.set(link.number, link);
  session = new Session(data);
  views = [new View(at("map"), session.now, data.links), new View(at("second-map"), session.now, data.links)];
  scene = views[0].scene;
  await begin();
}

async function begin() {
  at("told").textContent = "The run begins; what was kept of a session is done again, which takes as long as its steps.";
  await session.act("begin");
  at("take").hidden = true; at("fault").textContent = "";
  watchButtons();
  for (const view of views) new Pointers(view);
  watchPointer(at("wave"), wave);
  // The bar above may take another line at any time.
  for (const box of [at("scene"), at("secondScene")]) new ResizeObserver(resize).observe(box);
  resize(); setTheme(theme); watchPlace();
  requestAnimationFrame(frame);
  document.body.dataset.ready = "yes";
}

// Told by the bridge for as long as this page is the one that it serves.
async function watchPlace() {
  try { await (await answered("stay")).text(); } catch { /* the bridge has ended */ }
  stop();
  at("fault").textContent = "Another page has taken over, or the bridge has ended.";
}

function failed(fault) {
  at("fault").textContent = fault.message;
  at("take").hidden = !fault.isTaken;
  at("take").onclick = () => answered("take").then(begin).catch(failed);
  document.body.dataset.ready = "no";
}
start().catch(failed);
