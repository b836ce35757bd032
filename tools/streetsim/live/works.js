// Road works: a stretch of a street's lanes in metres, drawn on the map or typed, from one clock to another.

// A stretch of a lane, of whole metres, at least one.
function stretchOf({ link, lane }, one, other) {
  const begin = Math.floor(Math.min(one, other));
  return { link, lanes: [lane], begin, end: Math.ceil(Math.max(one, other, begin + 1)) };
}

// What a hand draws: from where it began on a lane to what is nearest to a point there.
function drawnTo(from, point) {
  const to = nearestOf(placesAlong(from.link, from.lane), ({ place }) => metresTo(point, place));
  return stretchOf(from, from.metres, to.metres);
}

// The panel of a stretch, of the page's template; put(lane, cell, period) places a detector.
function stretchPanel(what, put) {
  const { link } = what, [panel, part] = fromTemplate("stretchTools");
  const middle = Math.round((what.begin + what.end) / 2), from = clockText(session.clock);
  const values = { first: what.begin, last: what.end, from, cell: middle };
  for (const [id, value] of Object.entries(values)) part(id).value = value;
  for (const [id, key] of [["first", "begin"], ["last", "end"]]) part(id).oninput = ({ target }) => {
    what[key] = Math.max(0, Math.min(Math.ceil(link.metres), +target.value));
    draw(1);
  };
  part("metres").textContent = Math.round(link.metres);
  const box = lane => element("input", { type: "checkbox", id: `lane${lane}`, checked: what.lanes.includes(lane) });
  part("lanes").append(...link.words.map((word, lane) => element("label", {}, box(lane), ` ${word || "its lane"} `)));
  part("lanes").oninput = () => { what.lanes = [0, 1].filter(lane => part(`lane${lane}`)?.checked); draw(1); };
  const work = cmd => guarded(() => closeOrOpen(cmd, what, part("from").value, part("until").value));
  for (const cmd of ["close", "reopen"]) part(cmd).onclick = () => work(cmd);
  const cell = () => Math.min(link.cells - 1, Math.floor(+part("cell").value * link.cells / link.metres));
  part("place").onclick = () => guarded(() => put(what.lanes[0] ?? 0, cell(), +part("period").value));
  return panel;
}

async function closeOrOpen(cmd, what, from, until) {
  const { link, lanes, begin, end } = what, first = secondsOf(from), last = until.trim() ? secondsOf(until) : null;
  if (!lanes.length) throw new Error("choose a lane");
  if (begin >= end) throw new Error("works end behind their begin");
  if (last !== null && last <= Math.max(first, session.clock)) throw new Error("works end behind their begin, and after now");
  const place = `${wayText(link)}, ${begin} to ${end} m, ${lanes.length === link.lanes ? "all lanes" : lanes.map(lane => link.words[lane]).join(" and ")}`;
  const turns = cmd === "close" && link.lanes === 2 && lanes.length === 1 ? "; before the works the lanes take turns" : "";
  const when = first > session.clock ? ` at ${clockText(first)}` : "", back = last === null ? "" : ` until ${clockText(last)}`;
  const text = `${cmd === "close" ? "works" : "reopened"}: ${place}${when}${back}`;
  const wish = { cmd, link: link.number, lanes, begin, end, from: first, until: last, text };
  const { refused, joint } = await session.act("works", { wish });
  at("join").hidden = !joint;
  at("join").onclick = () => joinLanes(joint);
  changed(refused, `${cmd === "close" ? "closed" : "open"}${when}${back}${turns}`);
}

// The bridge imports anew; the page then begins again.
const joinLanes = name => guarded(async () => { await answered("join", name); location.reload(); });
