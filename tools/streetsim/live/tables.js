// Tables beside the map: changes, queues, detectors, the last lines.

const MOST_ROWS = 50;

// Each change with its own way back, the last one first.
function showChanges({ changes }) {
  const key = JSON.stringify(changes), { dataset } = at("changes");
  if (dataset.shown === key) return;
  dataset.shown = key;
  const undo = number => () => anew(() => session.act("undo", { number }));
  const undoing = number => element("button", { textContent: "Undo", onclick: undo(number) });
  const rows = changes.map(([made, text], number) => rowOf([clockText(made), text, undoing(number)])).reverse();
  const none = rows.length ? "" : "None so far: the traffic is that of the run.";
  at("changes").replaceChildren(element("table", {}, ...rows), none);
}

function showQueues({ standing, waiting }, show) {
  const comers = new Map(waiting), slots = [...standing.keys()].filter(slot => standing[slot] || comers.has(slot));
  const rows = slots.map(slot => [slot, standing[slot], comers.get(slot) ?? 0]).sort((a, b) => b[1] + b[2] - a[1] - a[2] || a[0] - b[0]);
  const body = rows.slice(0, MOST_ROWS).map(([slot, still, coming]) => {
    const link = links.get(slot >> 1), onclick = () => show(link, slot & 1);
    return rowOf([laneText(link, slot & 1), String(still), String(coming)], "td", { onclick });
  });
  at("queues").replaceChildren(rowOf(["lane", "standing", "to enter"], "th"), ...body);
}

let reading = Promise.resolve();

// Reads all detectors, one reading behind another.
function showDetectors(session) {
  reading = reading.catch(() => {}).then(() => readDetectors(session));
  return reading;
}

async function readDetectors(session) {
  const { detectors } = session.now;
  if (!detectors.length) { at("detectors").textContent = "None. Choose a place of a lane to put one."; return; }
  const replies = await session.ask(...detectors.map(({ number }) => ({ cmd: "read", meter: number })));
  const rows = replies.map((reply, i) => {
    const { link, lane, cell, period } = detectors[i], last = reply.rows.at(-1), on = links.get(link);
    const told = last ? [String(Math.round(last[1] * 3600 / period)), last[1] ? (last[2] / last[1] * KMH).toFixed(0) : "–", `${(last[3] / period * 100).toFixed(0)} %`] : ["–", "–", "–"];
    return rowOf([`${laneText(on, lane)}, ${metresAt(on, cell)} m`, ...told, flowBars(reply.rows.map(row => row[1] * 3600 / period))]);
  });
  at("detectors").replaceChildren(element("table", {}, rowOf(["place", "an hour", "km/h", "occupied", "last periods"], "th"), ...rows));
}

function showLog({ log }) {
  const texts = log.toReversed().map(([line, reply]) => `> ${shortened(line, 150)}\n${shortened(reply, 150)}`);
  at("log").textContent = texts.join("\n");
}
