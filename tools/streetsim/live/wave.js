// A green wave: a path of streets over time, with the greens of its lights, the band in which one comes through, and vehicles as lines.

const PAST = 150, COMING = 90; // seconds that are shown
const WAVE_LEFT = 92, WAVE_FOOT = 16, WAVE_HIGH = 300, BAR = 7, NEAR_BAR = { touch: 18 }; // pixels

// The links of the shortest way from one node to another; nothing where there is none.
function wayBetween(from, to, all) {
  const found = new Map([[from, { metres: 0, way: [] }]]), far = { metres: Infinity, way: [] };
  const best = node => found.get(node) ?? far;
  const isShorter = ({ begin, end, metres }) => best(begin).metres + metres < best(end).metres;
  for (let open = all; open.length; open = all.filter(isShorter)) {
    for (const link of open) {
      const { metres, way } = best(link.begin);
      if (isShorter(link)) found.set(link.end, { metres: metres + link.metres, way: [...way, link] });
    }
  }
  return best(to).way;
}

class Wave {
  constructor() { this.nodes = []; this.path = []; this.lines = new Map(); this.held = null; this.shift = 0; }

  // A junction more on the path.
  pick(node) {
    const last = this.nodes.at(-1), way = last === undefined ? [] : wayBetween(last, node, session.data.links);
    if (last !== undefined && !way.length) throw new Error(`no way leads from ${junctions.get(last).name} to ${junctions.get(node).name}`);
    this.nodes.push(node);
    for (const link of way) {
      const from = this.path.at(-1)?.to ?? 0;
      this.path.push({ link, from, to: from + link.metres });
    }
    this.lines = new Map();
  }

  clear() { this.nodes = []; this.path = []; this.lines = new Map(); }

  // Notes where the vehicles of the path are.
  note(world) {
    const { clock } = world, parts = new Map(this.path.map(part => [part.link.name, part]));
    for (const [car, [link, , , front]] of world.cars) {
      const part = parts.get(link.name), points = this.lines.get(car) ?? [];
      if (part) this.lines.set(car, [...points, [clock, part.from + (front + 1) / link.cells * part.link.metres]]);
    }
    for (const [car, points] of this.lines) if (points.at(-1)[0] < clock - PAST) this.lines.delete(car);
  }

  // The lights of the path: where each stands, and whether it lets the path through at a clock.
  lights() {
    return this.path.slice(0, -1).flatMap((part, i) => {
      const node = part.link.end, plan = session.plans.get(node), next = this.path[i + 1].link;
      if (!plan?.phases.length) return [];
      const offset = this.held?.node === node ? plan.offset - this.shift : plan.offset;
      const isWay = ([from, , to]) => links.get(from).name === part.link.name && links.get(to).name === next.name;
      const cycle = cycleOf(plan);
      const greens = plan.phases.flatMap(([seconds, own]) => Array(seconds).fill(own.some(isWay)));
      return [{ node, at: part.to, plan, isGreen: clock => greens[round(clock + offset, cycle)] }];
    });
  }

  // Seconds from the first light to a place of the path, at the mean speed of those whom nobody hinders.
  secondsTo(metres) {
    return this.path.reduce((sum, { link, from, to }) => sum + Math.max(0, Math.min(to, metres) - from) / (Math.max(1, link.limit - session.data.dawdle) * link.metres / link.cells), 0);
  }

  draw(canvas) {
    canvas.hidden = !this.path.length;
    if (!this.path.length) return;
    Object.assign(canvas, { width: canvas.parentElement.clientWidth - 4, height: WAVE_HIGH });
    const pen = canvas.getContext("2d"), length = this.path.at(-1).to, now = session.clock, from = now - PAST;
    this.each = (canvas.width - WAVE_LEFT - 4) / (PAST + COMING);
    this.x = clock => WAVE_LEFT + (clock - from) * this.each;
    this.y = metres => 8 + (canvas.height - WAVE_FOOT - 16) * (1 - metres / length);
    pen.fillStyle = colours().ground; pen.fillRect(0, 0, canvas.width, canvas.height);
    const lights = this.lights();
    this.drawBand(pen, lights, from);
    this.drawVehicles(pen);
    for (const light of lights) this.drawLight(pen, light, from);
    pen.strokeStyle = colours().ink; pen.lineWidth = 1; pen.beginPath(); pen.moveTo(this.x(now), 0); pen.lineTo(this.x(now), canvas.height - WAVE_FOOT); pen.stroke();
    pen.fillStyle = colours().ink; pen.font = "11px sans-serif"; pen.textAlign = "center";
    pen.fillText(clockText(now), this.x(now), canvas.height - 3); pen.textAlign = "start";
  }

  drawLight(pen, { node, at, isGreen }, from) {
    for (let second = 0; second < PAST + COMING; second++) {
      pen.fillStyle = isGreen(from + second) ? colours().green : colours().red;
      const thick = isGreen(from + second) ? BAR - 4 : BAR;
      pen.fillRect(this.x(from + second), this.y(at) - thick / 2, this.each + .5, thick);
    }
    pen.fillStyle = colours().ink; pen.font = "11px sans-serif"; pen.fillText(shortened(endText(this.path.find(part => part.to === at).link), 15), 2, this.y(at) + 4);
  }

  // Where one who drives freely meets green at all lights.
  drawBand(pen, lights, from) {
    if (!lights.length) return;
    const begin = this.secondsTo(lights[0].at), delays = lights.map(light => this.secondsTo(light.at) - begin), last = lights.at(-1);
    const isThrough = clock => lights.every((light, i) => light.isGreen(Math.round(clock + delays[i])));
    pen.fillStyle = colours().green; pen.globalAlpha = .25;
    for (let clock = from - Math.ceil(delays.at(-1)); clock < from + PAST + COMING; clock++) {
      if (!isThrough(clock)) continue;
      pen.beginPath();
      for (const [second, metres] of [[clock, lights[0].at], [clock + 1, lights[0].at], [clock + 1 + delays.at(-1), last.at], [clock + delays.at(-1), last.at]]) pen.lineTo(Math.max(WAVE_LEFT, this.x(second)), this.y(metres));
      pen.fill();
    }
    pen.globalAlpha = 1;
    this.width = Array.from({ length: cycleOf(lights[0].plan) }, (_, i) => from + i).filter(isThrough).length;
  }

  drawVehicles(pen) {
    pen.strokeStyle = colours().now; pen.lineWidth = 1; pen.beginPath();
    for (const points of this.lines.values()) points.forEach(([clock, metres], i) => {
      const isNext = i && this.x(clock) > WAVE_LEFT && clock - points[i - 1][0] <= 2 && metres >= points[i - 1][1];
      if (isNext) pen.lineTo(this.x(clock), this.y(metres)); else pen.moveTo(this.x(clock), this.y(metres));
    });
    pen.stroke();
  }

  said() { return this.path.length ? `Through all lights one comes in ${this.width ?? 0} s of the first one's cycle. Drag a light's bar to change its offset.` : ""; }

  press(event) {
    const away = ({ at }) => Math.abs(this.y(at) - event.offsetY);
    const light = nearestOf(this.lights(), away, NEAR_BAR[event.pointerType] ?? 10);
    if (!light) return;
    event.target.setPointerCapture(event.pointerId);
    this.held = { node: light.node, from: event.clientX }; this.shift = 0;
  }

  move(event) {
    if (!this.held) return;
    this.shift = Math.round((event.clientX - this.held.from) / this.each);
    this.draw(event.target);
  }

  // Sets what was dragged.
  lift() {
    const { held, shift } = this;
    this.held = null; this.shift = 0;
    if (!held || !shift) return;
    const { node } = held, plan = session.plans.get(node), offset = round(plan.offset - shift, cycleOf(plan));
    guarded(() => setOffset({ cmd: "signal", node, offset, phases: plan.phases }));
  }
}
