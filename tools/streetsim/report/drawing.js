// What pages draw of a network: its links, vehicles on cells, stop lines, scale. Places are metres, y to the north.
"use strict";
const SPEED_COLOURS = ["#a50026", "#f08000", "#3b7fc4"], SPEED_WORDS = ["standing", "27 km/h", "54 km/h and more"]; // by cells a second
const SPEED_WIDTHS = [1.3, 1, .7]; // of vehicles, so that who sees no colours tells them apart
const LANE_METRES = 3.2;
// What a picture is drawn with; a page may have others.
const LIGHT = {
  ground: "#fff", street: "#ccc", mark: "#fff", ink: "#222", name: "#333", label: "#ffffe0", closed: "#000", green: "#0a8f6a",
  red: "#b3001b", speeds: SPEED_COLOURS, was: "#8a6d00", now: "#0055b8",
};
const MOVES = { ArrowLeft: [60, 0], ArrowRight: [-60, 0], ArrowUp: [0, 60], ArrowDown: [0, -60] }; // pixels
const APART = 1.5; // pixels at least from the line of a street to that of each direction
const LEAST_NAME = 60, NAME_AWAY = 9; // pixels of a street that bears its name, and from its edge to the name's middle
const FARTHEST_HOP = 60; // metres between two places of a vehicle that it is drawn between
const clockText = seconds => [seconds / 3600, seconds / 60 % 60, seconds % 60].map(part => String(Math.floor(part)).padStart(2, "0")).join(":");
const metresText = metres => metres < 1000 ? `${metres} m` : `${metres / 1000} km`;

const at = id => document.getElementById(id);
function element(tag, words = {}, ...children) {
  const made = Object.assign(document.createElement(tag), words);
  made.append(...children);
  return made;
}

async function unpack(text) {
  const bytes = Uint8Array.from(atob(text.trim()), character => character.charCodeAt(0));
  return new Response(new Blob([bytes]).stream().pipeThrough(new DecompressionStream("gzip")));
}

// The seconds of a plan's phases, each [seconds, greens].
const cycleOf = ({ phases }) => phases.reduce((sum, [seconds]) => sum + seconds, 0);

// The greens of a plan at a clock.
function greensOfPlan(plan, clock) {
  let left = (clock + plan.offset) % cycleOf(plan);
  return plan.phases.find(([seconds]) => (left -= seconds) < 0)[1];
}

function distance([x, y], [ax, ay], [bx, by]) {
  const size = (bx - ax) ** 2 + (by - ay) ** 2, share = size ? Math.max(0, Math.min(1, ((x - ax) * (bx - ax) + (y - ay) * (by - ay)) / size)) : 0;
  return Math.hypot(x - ax - share * (bx - ax), y - ay - share * (by - ay));
}

// Things by what each has as its key, in the order in which keys come.
function groupsOf(things, keyOf) {
  const found = new Map();
  for (const thing of things) found.set(keyOf(thing), [...found.get(keyOf(thing)) ?? [], thing]);
  return found;
}

const metresTo = ([x, y], [px, py]) => Math.hypot(px - x, py - y);
// The thing that is least far away, and less than some metres; none where there is none. away(thing): its metres.
function nearestOf(things, away, most = Infinity) {
  const near = Array.from(things, thing => [away(thing), thing]).filter(([metres]) => metres < most);
  return near.sort((one, other) => one[0] - other[0])[0]?.[1] ?? null;
}

const metresToLink = (point, { points }) =>
  Math.min(...points.slice(1).map((end, i) => distance(point, points[i], end)));

// The point and the direction at a share of a link's length, moved to the lane's side, and to the right as the link is drawn.
function placeOnLane(link, lane, share) {
  let left = share * link.total, i = 0;
  while (i < link.lengths.length - 1 && left > link.lengths[i]) left -= link.lengths[i++];
  const [a, b] = [link.points[i], link.points[i + 1]], size = link.lengths[i] || 1, dx = (b[0] - a[0]) / size, dy = (b[1] - a[1]) / size;
  const side = ((link.lanes - 1) / 2 - lane) * LANE_METRES + (link.aside ?? 0);
  return [a[0] + dx * left + dy * side, a[1] + dy * left - dx * side, dx, dy];
}

// The same at the middle of a vehicle.
const placeOfCar = ([link, lane, rear, front]) => placeOnLane(link, lane, (rear + front + 1) / 2 / link.cells);

// What colours and shapes mean: a key, its height and, with gaps, that of a green light; and its word.
function legendOf({ speeds, closed, red, green }) {
  const vehicles = SPEED_WORDS.map((word, i) => [word, speeds[i], 9 * SPEED_WIDTHS[i]]);
  const keys = [...vehicles, ["closed", closed, 9], ["red light", red, 4], ["green light", green, 4, "gaps"]];
  const styled = (colour, high) => `height:${high}px;--key:${colour}`;
  return keys.map(([word, colour, high, more = ""]) =>
    element("span", {}, element("i", { className: `key ${more}`, style: styled(colour, high) }), word));
}

// A line moved to its right by some metres: each point by the direction from the one before it to the one behind it.
function movedAside(points, aside) {
  return points.map(([x, y], i) => {
    const [ax, ay] = points[Math.max(0, i - 1)], [bx, by] = points[Math.min(i + 1, points.length - 1)];
    const size = Math.hypot(bx - ax, by - ay) || 1;
    return [x + aside * (by - ay) / size, y - aside * (bx - ax) / size];
  });
}

// Links on a canvas, seen from a place at a scale (pixels a metre).
class Scene {
  constructor(canvas, links) {
    const pen = canvas.getContext("2d", { alpha: false }); // who draws fills it whole
    // moved: whether somebody has chosen the place and the scale.
    Object.assign(this, { canvas, pen, links, colours: LIGHT, x: 0, y: 0, scale: 1, moved: false });
    for (const link of links) {
      link.lengths = link.points.slice(1).map((point, i) => Math.hypot(point[0] - link.points[i][0], point[1] - link.points[i][1]));
      link.total = link.lengths.reduce((sum, length) => sum + length, 0);
      const xs = link.points.map(point => point[0]), ys = link.points.map(point => point[1]);
      link.box = [Math.min(...xs), Math.min(...ys), Math.max(...xs), Math.max(...ys)];
    }
  }

  // The whole network in the canvas.
  fit() {
    const [x0, y0, x1, y1] = this.links.reduce((all, { box }) => [Math.min(all[0], box[0]), Math.min(all[1], box[1]), Math.max(all[2], box[2]), Math.max(all[3], box[3])], [Infinity, Infinity, -Infinity, -Infinity]);
    this.x = (x0 + x1) / 2; this.y = (y0 + y1) / 2;
    this.scale = .95 * Math.min(this.canvas.width / (x1 - x0 + 20), this.canvas.height / (y1 - y0 + 20));
    this.moved = false;
  }

  // Takes a size; the middle and the scale stay where somebody has chosen them.
  resize(width, height) {
    this.canvas.width = width; this.canvas.height = height;
    if (!this.moved) this.fit();
  }

  look({ x, y, scale = this.scale }) { Object.assign(this, { x, y, scale, moved: true }); }
  zoom(factor) { this.scale *= factor; this.moved = true; }
  drag(dx, dy) { this.x -= dx / this.scale; this.y += dy / this.scale; this.moved ||= dx !== 0 || dy !== 0; }
  screen(x, y) { return [(x - this.x) * this.scale + this.canvas.width / 2, this.canvas.height / 2 - (y - this.y) * this.scale]; }
  world(left, top) { return [(left - this.canvas.width / 2) / this.scale + this.x, (this.canvas.height / 2 - top) / this.scale + this.y]; }

  isInView({ box }) {
    const wide = this.canvas.width / 2 / this.scale + 10, high = this.canvas.height / 2 / this.scale + 10;
    return box[0] < this.x + wide && box[2] > this.x - wide && box[1] < this.y + high && box[3] > this.y - high;
  }

  // The link whose line is nearest to a place, within some pixels; none where there is none.
  nearestLink(point, pixels = 12) {
    const inView = this.links.filter(link => this.isInView(link));
    return nearestOf(inView, link => metresToLink(point, link), pixels / this.scale);
  }

  // Begins a picture; links are drawn so far to their right that both directions of a street are seen from far away.
  clear() {
    for (const link of this.links) link.aside = Math.max(0, APART / this.scale - LANE_METRES * link.lanes / 2);
    this.pen.fillStyle = this.colours.ground; this.pen.fillRect(0, 0, this.canvas.width, this.canvas.height);
  }

  line(points, colour, width) {
    this.pen.strokeStyle = colour; this.pen.lineWidth = width; this.pen.beginPath();
    for (const [x, y] of points) this.pen.lineTo(...this.screen(x, y));
    this.pen.stroke();
  }

  drawLink(link, colour = this.colours.street) { this.line(movedAside(link.points, link.aside), colour, Math.max(1, LANE_METRES * link.lanes * this.scale)); }

  // A stretch of cells of a lane, ends included.
  drawCells(link, lane, first, last, colour, width = Math.max(4, 2.6 * this.scale)) {
    this.line([first, last + 1].map(cell => placeOnLane(link, lane, cell / link.cells)), colour, width);
  }

  // Vehicles, [link, lane, rear, front, speed]: one stroke a colour. A sixth value is a place before the link, from which they come, and the
  // share of the way that they have made.
  drawCars(cars) {
    const paths = SPEED_COLOURS.map(() => []);
    for (const car of cars) {
      const [, , rear, front, speed, hop] = car;
      let [x, y, dx, dy] = placeOfCar(car);
      if (hop && Math.hypot(x - hop.x, y - hop.y) < FARTHEST_HOP) [x, y] = [hop.x + (x - hop.x) * hop.share, hop.y + (y - hop.y) * hop.share];
      const half = Math.max(2.5 + (front - rear) * 3.75, 3 / this.scale);
      paths[Math.min(2, speed)].push([x - dx * half, y - dy * half, x + dx * half, y + dy * half]);
    }
    paths.forEach((path, i) => {
      this.pen.lineWidth = SPEED_WIDTHS[i] * Math.max(4, 2.6 * this.scale);
      this.pen.strokeStyle = this.colours.speeds[i]; this.pen.beginPath();
      for (const [ax, ay, bx, by] of path) { this.pen.moveTo(...this.screen(ax, ay)); this.pen.lineTo(...this.screen(bx, by)); }
      this.pen.stroke();
    });
  }

  // The stop line at a link's end: whole where it is red, with gaps where it is green.
  drawStopLine(link, isGreen) {
    const [x, y, dx, dy] = placeOnLane(link, (link.lanes - 1) / 2, 1);
    const half = LANE_METRES / 2 * link.lanes + 1 / this.scale;
    this.pen.setLineDash(isGreen ? [Math.max(2, this.scale), Math.max(2, this.scale)] : []);
    this.line([[x + dy * half, y - dx * half], [x - dy * half, y + dx * half]], isGreen ? this.colours.green : this.colours.red, Math.max(2, 1.5 * this.scale));
    this.pen.setLineDash([]);
  }

  // The greatest 1, 2 or 5 times a power of ten of metres that is at most 200 pixels long.
  scaleMetres() {
    const most = 200 / this.scale, power = 10 ** Math.floor(Math.log10(most));
    return [5, 2, 1].map(times => times * power).find(metres => metres <= most);
  }

  // A bar of so many metres, and behind it an arrow to the north.
  drawScale() {
    const { pen } = this, metres = this.scaleMetres(), wide = metres * this.scale, y = this.canvas.height - 16, x = wide + 40;
    pen.fillStyle = this.colours.ink; pen.fillRect(16, y, wide, 4);
    pen.font = "12px sans-serif"; pen.fillText(metresText(metres), 20, y - 5);
    pen.beginPath();
    for (const [across, down] of [[0, -18], [-6, 4], [0, -1], [6, 4]]) pen.lineTo(x + across, y + down);
    pen.fill(); pen.fillText("N", x + 10, y + 2);
  }

  // The name of each street once, beside the longest of some links that bears it, where that is long enough and it lies on
  // none of the texts that are written, [left, base line, width].
  drawNames(links, written = []) {
    const { pen, scale } = this, longest = new Map();
    for (const link of links) if (link.street && !(longest.get(link.street)?.total >= link.total)) longest.set(link.street, link);
    pen.font = "12px sans-serif"; pen.textAlign = "center";
    for (const [name, link] of longest) {
      const wide = pen.measureText(name).width;
      if (link.total * scale < Math.max(LEAST_NAME, wide + 8)) continue;
      const [x, y, dx, dy] = placeOnLane(link, -.5 - NAME_AWAY / scale / LANE_METRES, .5);
      const [left, top] = this.screen(x, y), turned = Math.atan2(-dy, dx);
      const across = Math.abs(dx) * wide / 2 + 8, down = Math.abs(dy) * wide / 2 + 8; // of half its box
      if (written.some(([l, t, w]) => left + across > l && left - across < l + w && top + down > t - 12 && top - down < t)) continue;
      pen.save(); pen.translate(left, top); pen.rotate(Math.abs(turned) > Math.PI / 2 ? turned + Math.PI : turned);
      pen.strokeStyle = this.colours.ground; pen.lineWidth = 3; pen.fillStyle = this.colours.name;
      pen.strokeText(name, 0, 4); pen.fillText(name, 0, 4); pen.restore();
    }
    pen.textAlign = "start";
  }

  // Writes names of junctions, [name, x, y], beside them where they lie over no other; gives [left, base line, width] of each that is written.
  drawJunctions(junctions) {
    const { pen, canvas, colours } = this, taken = [], places = junctions.map(([name, x, y]) => [name, ...this.screen(x, y)]);
    pen.font = "bold 12px sans-serif"; pen.lineWidth = 3; pen.strokeStyle = colours.ground; pen.fillStyle = colours.ink;
    for (const [name, x, y] of places) {
      const wide = pen.measureText(name).width, isFree = left => left > 0 && left + wide < canvas.width && y > 18 && y < canvas.height &&
        !taken.some(([l, t, w]) => Math.abs(y - 6 - t) < 14 && left < l + w + 4 && l < left + wide + 4) &&
        !places.some(([, px, py]) => px > left - 4 && px < left + wide + 4 && Math.abs(py - y + 10) < 20);
      for (const left of [x + 6, x - 6 - wide].filter(isFree).slice(0, 1)) {
        taken.push([left, y - 6, wide]); pen.strokeText(name, left, y - 6); pen.fillText(name, left, y - 6);
      }
    }
    return taken;
  }

  // A name beside a place.
  drawName(name, [px, py]) {
    const [x, y] = this.screen(px, py);
    this.pen.font = "12px sans-serif";
    this.pen.fillStyle = this.colours.label; this.pen.fillRect(x + 10, y - 26, this.pen.measureText(name).width + 8, 18);
    this.pen.fillStyle = this.colours.ink; this.pen.fillText(name, x + 14, y - 13);
  }
}
