// One traffic: where its vehicles are, what its lights show and what is closed, as the bridge told it last. Lanes go by twice their link and
// the lane.

class World {
  constructor(data) {
    Object.assign(this, { data, clock: data.start, owners: [], cars: new Map(), before: new Map(), plans: new Map(), shown: new Map(), points: [], lit: new Map() });
    this.standing = new Uint32Array(2 * data.links.length); this.covering = new Uint32Array(2 * data.links.length);
  }

  // told: a part of a message; rows: its vehicles, each its number, lane, cell (below 0 behind the lane's end) and speed.
  take(told, rows) {
    this.points.length = told.first;
    if (told.whole) { this.owners = []; this.plans.clear(); this.shown.clear(); }
    const isNext = !told.whole && told.clock === this.clock + 1;
    const { clock, arrived, coming, waiting, detectors, closed } = told;
    Object.assign(this, { clock, arrived, coming, waiting, detectors, closed });
    for (const owner of told.owners) this.owners.push(owner);
    for (const point of told.points) this.points.push(point);
    for (const plan of told.plans) { this.plans.set(plan.node, plan); this.shown.delete(plan.node); }
    for (const plan of told.shown) this.shown.set(plan.node, plan);
    this.driving = rows.length / 4;
    if (told.clock !== this.seen || told.whole) { this.before = isNext ? this.cars : new Map(); this.seen = told.clock; }
    this.takeCars(rows);
  }

  takeCars(rows) {
    this.cars = new Map(); this.standing.fill(0); this.covering.fill(0);
    for (let at = 0; at < rows.length; at += 4) {
      const [car, slot, cell, speed] = rows.subarray(at, at + 4), size = this.data.sizes[this.owners[car]] ?? 1;
      if (cell < 0 || speed === 0) this.standing[slot]++;
      if (cell < 0) continue;
      this.covering[slot] += size;
      this.cars.set(car, [this.data.links[slot >> 1], slot & 1, Math.max(0, cell - size + 1), cell, speed]);
    }
  }

  // A vehicle between its last two places.
  between(car, part) {
    const now = this.cars.get(car), then = this.before.get(car);
    if (!then || part >= 1) return now;
    if (then[0] === now[0]) return [now[0], then[1] + (now[1] - then[1]) * part, then[2] + (now[2] - then[2]) * part, then[3] + (now[3] - then[3]) * part, now[4]];
    const [x, y] = placeOfCar(then);
    return [...now, { x, y, share: part }];
  }

  of(counts, link) { return counts[2 * link.number] + counts[2 * link.number + 1]; }
  // How full a link is.
  density(link) { return this.of(this.covering, link) / (link.lanes * link.cells); }

  // The links that have a green at a light now; nothing where there is no light.
  greensAt(node) {
    const plan = this.shown.get(node) ?? this.plans.get(node), { clock } = this, known = this.lit.get(node);
    if (!plan?.phases.length) return null;
    if (known?.plan === plan && known.clock === clock) return known.links;
    const links = new Set(greensOfPlan(plan, clock).map(([from]) => from));
    this.lit.set(node, { plan, clock, links });
    return links;
  }
}
