// A map of one traffic: streets, junctions, vehicles, stop lines, what is closed and what is chosen.

const MOST_LANES = 700, ROUND = 10; // lanes in view with which vehicles are drawn, and seconds between colours of streets beyond them
const MARKS = 2.2, DIRECTIONS = 1; // pixels a metre from which on lane marks and directions are drawn

class View {
  constructor(canvas, world, of) { Object.assign(this, { canvas, world, scene: new Scene(canvas, of), kept: null }); }

  // The links in view, kept while nobody looks elsewhere.
  get links() {
    const { x, y, scale, links, canvas: { width, height } } = this.scene, key = `${x} ${y} ${scale} ${width} ${height}`;
    if (this.inView?.key !== key) this.inView = { key, links: new Set(links.filter(link => this.scene.isInView(link))) };
    return this.inView.links;
  }

  draw(part, isPlaying) {
    const { scene } = this, shown = [...this.links], lanes = shown.reduce((sum, link) => sum + link.lanes, 0), far = lanes > MOST_LANES;
    scene.colours = colours();
    this.drawStreets(shown, far, isPlaying);
    if (!far) {
      this.drawClosed();
      this.drawCars(part);
      this.drawStopLines(shown);
    }
    this.drawDetectors();
    scene.drawScale();
    return far;
  }

  // The streets, from a kept picture while nothing but vehicles moves; in a far view they are coloured anew once in a round.
  drawStreets(shown, far, isPlaying) {
    const { scene } = this, { x, y, scale, pen, canvas: { width, height } } = scene, key = [x, y, scale, width, height, theme, far ? Math.floor(this.world.clock / ROUND) : "near"].join();
    if (!isPlaying || this.kept?.key !== key) {
      this.kept = { key, canvas: this.kept?.canvas ?? element("canvas") };
      Object.assign(this.kept.canvas, { width, height });
      scene.pen = this.kept.canvas.getContext("2d", { alpha: false });
      scene.clear();
      this.drawGround(shown, far);
      scene.pen = pen;
    }
    pen.drawImage(this.kept.canvas, 0, 0);
  }

  drawGround(shown, far) {
    const { scene } = this, own = colours();
    if (!far) this.drawAreas();
    for (const link of shown) scene.drawLink(link, far ? scaled(own.density, Math.min(1, this.world.density(link) / .5)) : own.street);
    if (far) this.drawClosed();
    if (scene.scale > MARKS) for (const link of shown) this.drawMarks(link);
    if (scene.scale > DIRECTIONS) for (const link of shown) this.drawDirection(link);
    scene.drawNames(shown, scene.drawJunctions(Array.from(junctions.values()).filter(node => node.light).map(({ name, x, y }) => [name, x, y])));
  }

  drawAreas() {
    const { pen } = this.scene;
    pen.fillStyle = colours().junction;
    for (const { area } of junctions.values()) {
      if (area.length < 3) continue;
      pen.beginPath();
      for (const [x, y] of area) pen.lineTo(...this.scene.screen(x, y));
      pen.fill();
    }
  }

  drawMarks(link) {
    const { scene } = this, { pen } = scene;
    pen.setLineDash([3 * scene.scale, 3 * scene.scale]);
    for (let lane = 1; lane < link.lanes; lane++) {
      const places = placesAlong(link, lane - .5, link.points.length === 2 ? 1 : 12).map(({ place }) => place);
      scene.line(places, colours().mark, Math.max(1, .15 * scene.scale));
    }
    pen.setLineDash([]);
  }

  drawDirection(link) {
    if (link.total * this.scene.scale < 40) return;
    const { scene } = this, [x, y, dx, dy] = placeOnLane(link, (link.lanes - 1) / 2, .35), size = 1.2;
    scene.line([[x - dx * size + dy * size, y - dy * size - dx * size], [x + dx * size, y + dy * size], [x - dx * size - dy * size, y - dy * size + dx * size]], colours().mark, Math.max(1, .3 * scene.scale));
  }

  drawCars(part) {
    const { world, links } = this, cars = [];
    for (const [car, [link]] of world.cars) if (links.has(link)) cars.push(world.between(car, part));
    this.scene.drawCars(cars);
  }

  drawClosed() {
    for (const [slot, first, last] of this.world.closed) {
      const link = links.get(slot >> 1);
      if (this.links.has(link)) this.scene.drawCells(link, slot & 1, first, last, colours().closed);
    }
  }

  drawStopLines(shown) {
    for (const link of shown) {
      const now = this.world.greensAt(link.end);
      if (now) this.scene.drawStopLine(link, now.has(link.number));
    }
  }

  drawDetectors() {
    for (const { link, lane, cell } of this.world.detectors) {
      const on = links.get(link);
      if (this.links.has(on)) this.scene.drawCells(on, lane, cell, cell, colours().detector, 3);
    }
  }

  // A stretch of some lanes, in metres.
  drawStretch({ link, lanes, begin, end }) {
    const ends = lane => [begin, end].map(metres => placeOnLane(link, lane, Math.min(1, metres / link.metres)));
    for (const lane of lanes) this.scene.line(ends(lane), colours().chosen, 3);
  }
}
