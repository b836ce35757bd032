// The movements at a light: from a street to the next one, which way they turn, and who crosses whom.

const ARROWS = { left: "↰", straight: "↑", right: "↱", back: "↶" };
const PATH_POINTS = 12;
// Where one comes from who drives along a link's end, in one or two letters.
const windOf = link => link.from.split("-").map(word => word[0].toUpperCase()).join("");

// The points of a way across a junction, from the end of a lane to the begin of the next.
function pathAcross(link, lane, next, nextLane) {
  const [ax, ay, adx, ady] = placeOnLane(link, lane, 1), [bx, by, bdx, bdy] = placeOnLane(next, nextLane, 0), reach = Math.hypot(bx - ax, by - ay) / 3;
  const corners = [[ax, ay], [ax + adx * reach, ay + ady * reach], [bx - bdx * reach, by - bdy * reach], [bx, by]];
  return Array.from({ length: PATH_POINTS + 1 }, (_, i) => bezier(corners, i / PATH_POINTS));
}

function bezier([a, b, c, d], share) {
  const left = 1 - share, weights = [left ** 3, 3 * left ** 2 * share, 3 * left * share ** 2, share ** 3];
  return [0, 1].map(axis => weights[0] * a[axis] + weights[1] * b[axis] + weights[2] * c[axis] + weights[3] * d[axis]);
}

const side = ([ax, ay], [bx, by], [x, y]) => Math.sign((bx - ax) * (y - ay) - (by - ay) * (x - ax));
const segmentsCross = (a, b, c, d) => side(a, b, c) * side(a, b, d) < 0 && side(c, d, a) * side(c, d, b) < 0;
const pathsCross = (one, other) => one.slice(1).some((end, i) => other.slice(1).some((far, j) => segmentsCross(one[i], end, other[j], far)));

// The turns at a node as movements, {street, next, kind, turns}: those from an edge to the next one are one. A turn has its place in a
// light's state where the light controls it.
function movementsAt(node, turns, links, signal) {
  const here = turns.filter(([link]) => links.get(link).end === node);
  const groups = groupsOf(here, ([link, , next]) => `${links.get(link).name} ${links.get(next).name}`);
  const found = Array.from(groups.values(), own => movementOf(own, signal));
  const byStreet = ({ street }, other) => street.name.localeCompare(other.street.name);
  return found.sort((one, other) => byStreet(one, other) || order(one.kind) - order(other.kind));
}

function movementOf(turns, signal) {
  const made = ([link, lane, next, nextLane, light, index]) => ({
    key: [link, lane, next], index: light === signal ? index : null, into: `${next} ${nextLane}`,
    path: pathAcross(links.get(link), lane, links.get(next), nextLane),
  });
  return { street: links.get(turns[0][0]), next: links.get(turns[0][2]), kind: turns[0][6], turns: turns.map(made) };
}

const order = kind => Object.keys(ARROWS).indexOf(kind);

// Whether two movements cannot both go: they come from two streets and cross or end on one lane.
function areCrossing(one, other) {
  if (one.street.name === other.street.name) return false;
  return one.turns.some(turn => other.turns.some(against => turn.into === against.into || pathsCross(turn.path, against.path)));
}
