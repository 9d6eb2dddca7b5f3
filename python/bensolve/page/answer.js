// What the page shows, from the data that stand in it. Exact numbers are texts there; places in the picture run from -1 to 1.
const data = JSON.parse(document.getElementById('data').textContent);
const answer = {
  maximises: data.maximises,
  c: data.c.map(parseExact),
  ...Object.fromEntries(['points', 'directions', 'lines', 'facets'].map(part => [part, data[part].map(row => row.map(parseExact))])),
};
const objectives = data.names.length, pointCount = answer.points.length;
const box = data.box.map(([low, high]) => [parseExact(low), parseExact(high)]);
// The least and the greatest weight of each objective among the facets: the ends of its slider.
const ends = answer.c.map((_, i) => answer.facets.reduce(
  ([least, greatest], { [i]: weight }) => [below(weight, least) ? weight : least, below(greatest, weight) ? weight : greatest],
  [answer.facets[0][i], answer.facets[0][i]]));

const $ = selector => document.querySelector(selector);
const all = selector => [...document.querySelectorAll(selector)];
const dot = (u, v) => u.reduce((sum, x, i) => sum + x * v[i], 0);

// What is looked at: the chosen point, the one under the mouse (-1: none), the weights with what they choose, and the view.
const state = { chosen: 0, hot: -1, weights: null, verdict: {}, turn: data.maximises ? 35 : 215, tilt: data.maximises ? 28 : -28 };
const bestPoints = () => state.verdict.best || [];
// Points in the order of their labels: the chosen one first, then the best ones.
const labelOrder = () => [...new Set([state.chosen, ...bestPoints(), ...answer.points.keys()])];
const pointText = k => `(${answer.points[k].map(exactText).join(', ')})`;

const FAR = 1e4;

// The part within the box of the plane (or line) of all vectors whose weighed sum is the best one.
function supportPlace() {
  const { unit, value, best } = state.verdict;
  if (!unit) return null;
  const turned = unit.map(weight => (answer.maximises ? minus(ZERO, weight) : weight));
  const normal = turned.map((weight, i) => toNumber(times(weight, minus(box[i][1], box[i][0]))));
  const flat = (objectives === 2 ? [[-normal[1], normal[0]]] : flatBasis(normal)).map(unitLength);
  const steps = objectives === 2 ? [[1], [-1]] : [[1, 1], [1, -1], [-1, -1], [-1, 1]];
  const corners = inBox(steps.map(step => step.reduce((place, s, i) => moved(place, flat[i], s * FAR), data.places[best[0]])));
  if (objectives === 2) corners.sort((a, b) => dot(flat[0], a) - dot(flat[0], b));
  return { normal, corners: objectives === 2 ? [corners[0], corners.at(-1)] : corners, support: true };
}

const unitLength = v => v.map(x => x / Math.hypot(...v));
const cross = (a, b) => [a[1] * b[2] - a[2] * b[1], a[2] * b[0] - a[0] * b[2], a[0] * b[1] - a[1] * b[0]];

function flatBasis(normal) {
  const least = [0, 1, 2].sort((i, j) => Math.abs(normal[i]) - Math.abs(normal[j]))[0];
  const first = cross(normal, [0, 1, 2].map(i => +(i === least)));
  return [first, cross(normal, first)];
}

// The part of a polygon, or of a line from its first to its last corner, in the box from -1 to 1.
function inBox(corners) {
  for (let i = 0; i < objectives; i++) {
    for (const side of [1, -1]) {
      corners = corners.flatMap((corner, k) => {
        const next = corners[(k + 1) % corners.length], a = 1 + side * corner[i], b = 1 + side * next[i];
        const kept = a >= 0 ? [corner] : [];
        return a < 0 !== b < 0 ? [...kept, moved(corner, moved(next, corner, -1), a / (a - b))] : kept;
      });
    }
  }
  return corners;
}
