// What is chosen on the map, and its panel: a light's plan, a vehicle, or a stretch of lanes.

const STOP_LINE = 12, CAR = 6, LANE = 14, JUNCTION = 8; // pixels within which each is found
const JUNCTION_METRES = 5;
const CHOSEN_METRES = 18; // to both sides of the place that was clicked

let chosen = null, followed = null, editor = null;

// What is at a place: a stop line with a light, a vehicle, a junction, or a stretch of a lane.
function nearest(point, { scene, world, links: inView }) {
  const lit = [...inView].filter(link => session.plans.has(link.end));
  const stopLine = link => metresTo(point, placeOnLane(link, (link.lanes - 1) / 2, 1));
  const light = nearestOf(lit, stopLine, STOP_LINE / scene.scale);
  if (light) return { node: light.end };
  const car = nearestOf(world.cars, ([, place]) => metresTo(point, placeOfCar(place)), CAR / scene.scale + 1);
  return car ? { car: car[0] } : junctionAt(point, scene) ?? stretchAt(point, scene);
}

// The node that is nearest to a place, within some metres.
const nodeAt = (point, most) => nearestOf(session.data.nodes, ({ x, y }) => metresTo(point, [x, y]), most);

// The junction at a place into which more than one street leads.
function junctionAt(point, { scale }) {
  const node = nodeAt(point, Math.max(JUNCTION_METRES, JUNCTION / scale))?.number;
  return node !== undefined && approaches(node).length > 1 ? { node } : null;
}

// The streets that lead to a junction, each with its links.
const approaches = node => [...groupsOf(session.data.links.filter(one => one.end === node), one => one.name).values()];

// The lane that is nearest to a place, and how far along: {link, lane, metres}.
function laneAt(point, scene) {
  const reach = LANE / scene.scale, near = scene.links.filter(link => metresToLink(point, link) < reach + LANE_METRES);
  const places = near.flatMap(link => [0, 1].slice(0, link.lanes).flatMap(lane => placesAlong(link, lane)));
  return nearestOf(places, ({ place }) => metresTo(point, place), reach);
}

// Places along a lane from its begin to its end, at equal parts, of a metre: {link, lane, metres, place}.
function placesAlong(link, lane, parts = Math.ceil(link.metres)) {
  const placeAt = share => ({ link, lane, metres: share * link.metres, place: placeOnLane(link, lane, share) });
  return Array.from({ length: parts + 1 }, (_, i) => placeAt(i / parts));
}

function stretchAt(point, scene) {
  const found = laneAt(point, scene);
  return found && stretchOf(found, Math.max(0, found.metres - CHOSEN_METRES), Math.min(found.link.metres, found.metres + CHOSEN_METRES));
}

function choose(what) {
  chosen = what; followed = null; editor = null;
  if (!what) showChosen("Choose a stop line, a junction, a street or a vehicle");
  else if (what.node !== undefined) (session.plans.has(what.node) ? chooseLight : chooseJunction)(what.node);
  else if (what.car !== undefined) guarded(() => chooseCar(what.car));
  else chooseStretch(what);
  draw(1);
}

function showChosen(title, ...parts) {
  at("title").textContent = title;
  at("chosen").replaceChildren(...parts);
  at("join").hidden = true;
  say("");
}

// Tells below what is chosen what came of what was asked last.
const say = (text, kind = "said") => Object.assign(at("said"), { textContent: text, className: kind });

// Makes a change, and tells below what is chosen what came of it.
async function change(text, command, told) {
  const { refused } = await session.act("change", { text, commands: [{ clock: session.clock, command }] });
  return changed(refused, told);
}

// Shows what a change has made; gives whether it was done.
function changed(refused, told) {
  say(refused || told, refused ? "fault" : "said");
  draw(1); showTables();
  return !refused;
}

// Has the chart show the queue before a junction.
const watch = node => guarded(async () => { await session.watch(node); showComparison(); });

function chooseLight(node) {
  const own = session.data, { light, name } = junctions.get(node), movements = movementsAt(node, own.turns, links, light?.name);
  const known = own.signals.filter(command => command.node === node);
  watch(node);
  editor = new PlanEditor({
    made: () => new Bars(session.plans.get(node), movements, known), set: command => setPlan(name, command), light,
    clock: () => session.clock, wide: at("chosen").clientWidth || 300,
  });
  showChosen(`Light at ${name}`, editor.svg, editor.tools);
  const driven = "Detectors drive this light: its bars have the listed seconds. A plan that is set takes their place.";
  if (session.now.shown.has(node)) say(driven);
}

// A junction without a light: the chart has its queue, and how vehicles give way there is told.
function chooseJunction(node) {
  watch(node);
  const own = "Vehicles give way here as in the run, by the gaps that were found before it.";
  const none = session.data.yields ? "Nobody gives way here on this page." : "";
  const told = `There is no light here. ${session.givers.has(node) ? own : none} The chart shows who stands before it.`;
  showChosen(`Junction ${junctions.get(node).name}`, element("div", {}, told), element("table", { id: "before" }));
  showBefore();
}

// Who stands before the junction that is chosen, by street.
function showBefore() {
  if (chosen?.node === undefined || !document.getElementById("before")) return;
  const rows = approaches(chosen.node).map(own => rowOf([`${streetName(own[0])}, from the ${own[0].from}`, String(own.reduce((sum, link) => sum + session.now.of(session.now.standing, link), 0))]));
  at("before").replaceChildren(rowOf(["street", "standing"], "th"), ...rows);
}

const setPlan = (name, command) => change(`plan of ${name}`, command, `set: a cycle of ${cycleOf(command)} s`);

async function chooseCar(car) {
  const [reply] = await session.ask({ cmd: "vehicle", car }), name = session.data.cars[session.now.owners[car]] ?? car;
  const where = reply.link === undefined ? "" : ` on ${laneText(links.get(reply.link), reply.lane ?? 0)}`;
  const state = { cell: reply.speed ? "drives" : "stands", buffer: "is to leave", waiting: "waits to enter" }[reply.state] ?? reply.state;
  const speed = reply.speed === undefined ? "" : `, ${reply.speed * KMH} km/h`;
  const way = (reply.plan ?? []).map(link => streetName(links.get(link)));
  const streets = way.filter((street, i) => street !== way[i - 1]).join(", "), command = { cmd: "takeout", car };
  const takeOut = () => change(`vehicle ${name} taken out`, command, "taken out");
  showChosen(
    `Vehicle ${name}`,
    element("div", {}, state + where + speed), element("div", {}, streets && `its way: ${streets}`),
    element("button", { textContent: "Follow it", onclick: () => { followed = car; } }),
    element("button", { textContent: "Take it out", onclick: () => guarded(takeOut) }));
}

function chooseStretch(what) {
  const put = async (lane, cell, period) => {
    const command = { cmd: "meter", link: what.link.number, lane, cell, period };
    const text = `detector: ${laneText(what.link, lane)}, ${metresAt(what.link, cell)} m`;
    if (await change(text, command, "the detector is placed")) await showDetectors(session);
  };
  showChosen(`${streetName(what.link)}, towards ${endText(what.link)}`, stretchPanel(what, put));
}
