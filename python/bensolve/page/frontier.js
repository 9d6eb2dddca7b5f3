// Two objectives: the frontier, where it goes on without end, and the line of the best weighed sum.
const AROUND = [[-1, 1], [-1, 0], [0, 1], [1, 1], [-1, -1], [1, 0], [0, -1], [1, -1]];
const outside = AROUND.map(spot => spot.map(x => (data.maximises ? -x : x) || 0));
const inside = [...outside].reverse();
const onRim = place => place.some(x => Math.abs(x) > 1 - 1e-9);

function drawFrontier(sheet) {
  const left = 58, bottom = 44, top = 28, right = 14;
  const at = ([x, y]) => [left + (x + 1) / 2 * (sheet.width - left - right), sheet.height - bottom - (y + 1) / 2 * (sheet.height - bottom - top)];
  drawScales(sheet, at, left);
  if (data.area.length > 2) sheet.put('polygon', { points: pathOf(data.area.map(at)), class: 'image' });
  for (const face of data.faces) sheet.stroke(face.corners.map(at), 'edge');
  const support = supportPlace();
  if (support) sheet.stroke(support.corners.map(at), 'support');
  drawDots(sheet, at);
  labelDots(sheet, at);
  for (const face of data.faces) face.corners.forEach((corner, k) => { if (onRim(corner)) drawEndless(sheet, at, face, k); });
  if (support) support.corners.some(corner => sheet.label(at(corner), `weighed sum ${exactText(state.verdict.value)}`, outside, 8));
}

function drawScales(sheet, at, left) {
  sheet.label([left - 50, 12], fitting(data.names[1], sheet.width - 70), [[1, 0]], 0);
  sheet.label([sheet.width - 10, sheet.height - 10], fitting(data.names[0], sheet.width - 70), [[-1, 0]], 0);
  for (const i of [0, 1]) {
    for (const [place, text] of ticksFor(i, i ? sheet.height / 60 : sheet.width / 90)) {
      const line = [[place, -1], [place, 1]].map(end => at(i ? end.reverse() : end));
      sheet.put('polyline', { points: pathOf(line), class: 'grid' });
      sheet.label(line[0], text, [i ? [-1, 0] : [0, 1]], 5);
    }
  }
}

// The finest of the prepared scales of an axis that has at most so many numbers; without one the coarsest.
const ticksFor = (axis, most) => data.ticks[axis].find(ticks => ticks.length <= most) || data.ticks[axis].at(-1);

// A head at the end of an edge that goes on, and the direction or line along which it does.
function drawEndless(sheet, at, face, k) {
  const [x, y] = at(face.corners[k]), other = at(face.corners[1 - k]), angle = Math.atan2(y - other[1], x - other[0]) * 180 / Math.PI;
  sheet.put('path', { d: 'M0 0L-12 -6V6z', transform: `translate(${x} ${y}) rotate(${angle})`, class: 'ray' });
  sheet.take([x, y], 18);
  const number = face.touching.find(j => j >= pointCount);
  const name = number === undefined ? 'line 1' : `direction ${number + 1}`;
  const vector = number === undefined ? answer.lines[0] : answer.directions[number - pointCount];
  [11, 24].some(gap => [`${name}: (${vector.map(exactText).join(', ')})`, name].some(text => sheet.label([x, y], text, inside, gap)));
}

function drawDots(sheet, at, hidden = () => false) {
  for (const k of labelOrder().reverse()) {
    if (hidden(k)) continue;
    const place = at(data.places[k]);
    sheet.take(place, 16);
    put(sheet.put('circle', { cx: place[0], cy: place[1], 'data-point': k }), 'title', {}, `point ${k + 1}`);
  }
}

const LABELLED = 200;

// The chosen point has a number in any case that there is room for; entries stand where there are few points.
function labelDots(sheet, at, hidden = () => false) {
  for (const k of labelOrder().slice(0, LABELLED)) {
    if (hidden(k)) continue;
    const place = at(data.places[k]), full = `${k + 1}: ${pointText(k)}`, apart = [sheet.taken, sheet.crossed];
    const long = full.length < 32 && (pointCount <= 12 || k === state.chosen), gaps = k === state.chosen ? [9, 22, 36] : [9];
    (long && [9, 16, 24].some(gap => sheet.label(place, full, outside, gap, apart)))
      || gaps.some(gap => sheet.label(place, `${k + 1}`, outside, gap, apart)) || gaps.some(gap => sheet.label(place, `${k + 1}`, outside, gap));
  }
}
