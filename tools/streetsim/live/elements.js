// Parts of a page, and words for what a person reads.

const KMH = 27; // of a cell in a second
const links = new Map(), junctions = new Map(); // by number

// A copy of a template of the page, and its parts by their ids.
function fromTemplate(id) {
  const made = at(id).content.firstElementChild.cloneNode(true);
  return [made, part => made.querySelector(`#${part}`)];
}

const rowOf = (cells, tag = "td", words = {}) => element("tr", words, ...cells.map(cell => element(tag, {}, cell)));

const streetName = link => link.street || link.name;
// Where a link leads: the junction at its end, by its other streets where it goes by all.
function endText(link, by = link.street) {
  const { name } = junctions.get(link.end);
  return name.split(" / ").filter(street => street !== by).join(" / ") || name;
}
const wayText = link => link.street ? `${link.street} towards ${endText(link)}` : link.name;
// A lane as a person says it.
const laneText = (link, lane) => [wayText(link), link.words[lane]].filter(Boolean).join(", ");
const metresAt = (link, cell) => Math.round(cell * link.metres / link.cells);

// The seconds of a clock: 90, 1:30 or 0:01:30.
function secondsOf(text) {
  if (!/^\d+(:\d+){0,2}$/.test(text.trim())) throw new Error("a clock is hours:minutes:seconds, as 0:12:30");
  return text.split(":").reduce((sum, part) => sum * 60 + +part, 0);
}

// Does something of the engine's, one after another; what goes wrong is told.
let turn = Promise.resolve(), busy = false;
function guarded(act) {
  turn = turn.then(async () => {
    busy = true;
    try { at("fault").textContent = ""; await act(); } catch (fault) { stop(); at("fault").textContent = fault.message; } finally { busy = false; }
  });
  return turn;
}

// Tells a hearer of a pointer on an element.
function watchPointer(on, hearer) {
  on.onpointerdown = event => hearer.press(event);
  on.onpointermove = event => hearer.move(event);
  on.onpointerup = on.onpointercancel = event => hearer.lift(event);
}

function saveAs(name, text, type) { element("a", { href: URL.createObjectURL(new Blob([text], { type })), download: name }).click(); }
