// Charts over time: a band for each value, of one traffic or of two.

const BAND = 74, CHART_LEFT = 34; // pixels: the height of one band, and where lines begin

// A band at a place of a picture: {words, digits, of(point): a value, null where there is none}. sides: {points, each with its clock first,
// colour, dashes, word}; span: the first and the last clock; now: that of which values are told.
function drawBand(pen, { band, left = 0, top, wide, sides, span, ink, now = Infinity }) {
  const points = sides.map(side => side.points.filter(point => band.of(point) !== null)), all = points.flat().map(band.of);
  const most = all.reduce((one, other) => Math.max(one, other), 1), least = all.reduce((one, other) => Math.min(one, other), 0), high = BAND - 22;
  const y = value => top + 18 + high * (1 - (value - least) / (most - least)), x = clock => left + CHART_LEFT + (wide - CHART_LEFT - 6) * (clock - span[0]) / Math.max(1, span[1] - span[0]);
  pen.font = "11px sans-serif"; pen.fillStyle = ink; pen.setLineDash([]);
  pen.fillText(band.words, left + 2, top + 11); pen.fillText(most.toFixed(most < 10 ? band.digits : 0), left + 2, top + 26); pen.fillText("0", left + 2, y(0) + 3);
  if (now <= span[1]) pen.fillRect(x(now), top + 18, 1, high);
  sides.forEach(({ colour, dashes }, i) => {
    pen.strokeStyle = colour; pen.setLineDash(dashes); pen.lineWidth = 1.5; pen.beginPath();
    const own = points[i], each = Math.ceil(own.length / wide), isDrawn = (_, at) => (own.length - 1 - at) % each === 0;
    for (const point of own.filter(isDrawn)) pen.lineTo(x(point[0]), y(band.of(point)));
    pen.stroke();
  });
  pen.setLineDash([]);
  const values = points.map(own => own.findLast(([clock]) => clock <= now)).map(last => last ? band.of(last).toFixed(band.digits) : "");
  const named = sides.map(({ word }, i) => `${word} ${values[i]}`), room = text => pen.measureText(text).width + 10;
  const rooms = texts => texts.reduce((sum, text) => sum + room(text), 0);
  const texts = rooms([band.words, ...named]) < wide + 6 ? named : values; // without names the lines' colours tell whose one is
  sides.forEach(({ colour }, i) => { pen.fillStyle = colour; pen.fillText(texts[i], left + wide + 6 - rooms(texts.slice(i)), top + 11); });
}
