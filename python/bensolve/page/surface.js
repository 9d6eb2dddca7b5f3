// Three objectives: the surface within a box, seen from where the eye was turned to, and the plane of the best weighed sum.
const FEW = 60;

class View {
  constructor(sheet) {
    const [turn, tilt] = [state.turn, state.tilt].map(degrees => degrees * Math.PI / 180);
    this.eye = [Math.cos(tilt) * Math.cos(turn), Math.cos(tilt) * Math.sin(turn), Math.sin(tilt)];
    this.right = [-Math.sin(turn), Math.cos(turn), 0];
    this.up = cross(this.eye, this.right);
    this.middle = [sheet.width / 2, sheet.height / 2];
    this.size = Math.min(sheet.width - 40, sheet.height - 30) / 3.5;
    this.at = place => [this.middle[0] + this.size * dot(this.right, place), this.middle[1] - this.size * dot(this.up, place)];
  }

  looksAt(face) {
    return dot(face.normal, this.eye) < 0;
  }
}

// Of a convex surface no two faces that look to the eye cover each other, and no two that look away. So this order is right.
function drawSurface(sheet) {
  const view = new View(sheet), support = supportPlace();
  drawBox(sheet, view);
  const [back, front] = [false, true].map(turned => data.faces.filter(face => view.looksAt(face) === turned));
  const seen = new Set(front.flatMap(face => face.touching)), hidden = k => !seen.has(k);
  const supportBehind = support && !view.looksAt(support);
  if (support && supportBehind) drawFace(sheet, view, support);
  back.forEach(face => drawFace(sheet, view, face));
  for (const k of answer.points.keys()) {
    const [x, y] = view.at(data.places[k]);
    if (hidden(k)) sheet.put('circle', { cx: x, cy: y, 'data-point': k, class: 'back' });
  }
  front.forEach(face => drawFace(sheet, view, face));
  if (support && !supportBehind) drawFace(sheet, view, support);
  if (support && pointCount <= FEW) sheet.takeLine([...support.corners, support.corners[0]].map(view.at), sheet.crossed);
  drawDots(sheet, view.at, hidden);
  labelDots(sheet, view.at, hidden);
}

function drawFace(sheet, view, face) {
  if (face.corners.length < 2) return;
  const polygon = sheet.put('polygon', { points: pathOf(face.corners.map(view.at)), class: face.support ? 'support' : 'face' });
  if (face.support) return;
  const steep = 1 - Math.abs(dot(face.normal, view.eye)) / Math.hypot(...face.normal);
  polygon.style.fill = `color-mix(in srgb, var(--edge) ${Math.round(8 + 34 * steep)}%, var(--fill))`;
  face.corners.forEach((corner, k) => {
    const next = face.corners[(k + 1) % face.corners.length];
    const cut = corner.some((x, i) => Math.abs(x) > 1 - 1e-9 && Math.abs(x - next[i]) < 1e-9), line = [corner, next].map(view.at);
    sheet.put('polyline', { points: pathOf(line), class: cut ? 'grid' : 'edge' });
    if (!cut && pointCount <= FEW && view.looksAt(face)) sheet.takeLine(line, sheet.crossed);
  });
}

// The edges of the box; numbers and a name at one edge of each axis, on the rim and low in the picture.
function drawBox(sheet, view) {
  const names = [], numbers = [];
  for (const axis of [0, 1, 2]) {
    const [j, h] = [0, 1, 2].filter(other => other !== axis), rim = [];
    for (const first of [-1, 1]) {
      for (const second of [-1, 1]) {
        const along = value => view.at([0, 1, 2].map(i => (i === axis ? value : i === j ? first : second)));
        sheet.put('polyline', { points: pathOf([along(-1), along(1)]), class: 'grid' });
        if (first * view.eye[j] > 0 !== second * view.eye[h] > 0) rim.push([along(0)[1] - 0.7 * along(0)[0], along]);
      }
    }
    rim.sort((a, b) => b[0] - a[0]);
    prepareScale(sheet, view, axis, rim[0][1], names, numbers);
  }
  [...names, ...numbers].forEach(write => write());
}

function prepareScale(sheet, view, axis, along, names, numbers) {
  const start = along(-1), end = along(1), middle = along(0), length = Math.hypot(end[0] - start[0], end[1] - start[1]);
  if (length < 30) return;
  let out = [(end[1] - start[1]) / length, (start[0] - end[0]) / length];
  if (dot(out, moved(middle, view.middle, -1)) < 0) out = out.map(x => -x);
  const beside = [out.map(x => (Math.abs(x) < 0.35 ? 0 : Math.sign(x)))], name = room => fitting(data.names[axis], room);
  names.push(() => {
    const room = Math.min(150, sheet.width / 3.2), shares = [0, 0.4, -0.4, 0.7, -0.7, 0.95, -0.95];
    shares.some(share => [24, 38, 6].some(gap => sheet.label(moved(along(share), out, gap), name(room), beside, 6)))
      || sheet.label(end, name(150), [[0, -1], [-1, -1]]) || sheet.label(middle, name(55), beside, 30);
  });
  for (const [place, text] of ticksFor(axis, Math.max(3, length / 45))) {
    const at = along(place);
    sheet.put('polyline', { points: pathOf([at, moved(at, out, 5)]), class: 'grid' });
    numbers.push(() => sheet.label(at, text, beside, 6));
  }
}
