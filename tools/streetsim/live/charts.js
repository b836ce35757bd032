// Charts of what was seen so far: the traffic as it is, and beside it the one as it was.

// Both traffics in one picture: a band for each value.
function drawComparison(canvas, { now, was, watched }) {
  const bands = [
    { words: "mean delay so far, s", of: ([, mean]) => mean, digits: 1 }, { words: "arrived", of: ([, , ended]) => ended, digits: 0 },
    ...(watched === null ? [] : [{ words: `standing before ${shortened(junctions.get(watched).name, 24)}`, of: ([, , , queue]) => queue, digits: 0 }]),
  ];
  Object.assign(canvas, { width: canvas.parentElement.clientWidth - 4, height: bands.length * BAND + 14 });
  const pen = canvas.getContext("2d"), own = colours(), wide = canvas.width;
  pen.fillStyle = own.ground; pen.fillRect(0, 0, wide, canvas.height);
  pen.fillStyle = own.ink; pen.font = "12px sans-serif";
  if (now.points.length < 2) { pen.fillText("Nothing yet: press Play.", 8, 20); return; }
  const side = ({ points }, colour, dashes, word) => ({ points, colour, dashes, word });
  const sides = was ? [side(was, own.was, [5, 3], "as it was"), side(now, own.now, [], "as it is")] : [side(now, own.now, [], "")];
  const span = [now.points[0][0], now.points.at(-1)[0]];
  bands.forEach((band, i) => drawBand(pen, { band, top: i * BAND, wide, sides, span, ink: own.ink }));
  pen.fillStyle = own.ink;
  pen.fillText(clockText(span[0]), CHART_LEFT, canvas.height - 3); pen.fillText(clockText(span[1]), wide - 52, canvas.height - 3);
}

// A small picture of the last periods' flows, which says them in words too.
function flowBars(flows) {
  const last = flows.slice(-16), most = Math.max(1, ...last), words = last.map(flow => Math.round(flow)).join(", ");
  const canvas = element("canvas", { width: 70, height: 20, role: "img", title: words ? `${words} vehicles an hour` : "no period is over yet" }), pen = canvas.getContext("2d");
  pen.fillStyle = colours().detector;
  last.forEach((flow, i) => pen.fillRect(i * 4, 20 - 20 * flow / most, 3, 20 * flow / most));
  return canvas;
}
