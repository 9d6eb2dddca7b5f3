// The page: what is chosen by weights, by the mouse or by keys, and the pictures and tables that show it.
const viewSheet = new Sheet($('#view')), mapSheet = new Sheet($('#map'));
const drawView = { 2: drawFrontier, 3: drawSurface }[objectives] || drawParallel;
const scrolls = () => objectives > 4 && viewSheet.svg.parentNode.clientWidth < objectives * NARROWEST;
let weightMap = null, drawing = 0, linking = 0;

function draw() {
  drawing = 0;
  const room = Math.max(280, Math.round(viewSheet.svg.parentNode.clientWidth) - 2);
  viewSheet.clear(scrolls() ? objectives * NARROWEST : room, Math.round(Math.max(300, Math.min(room * 0.95, 520))));
  viewSheet.svg.style.minWidth = scrolls() ? `${objectives * NARROWEST}px` : '';
  drawView(viewSheet);
  if (mapped) {
    weightMap = new WeightMap(mapSheet, Math.min($('#side').clientWidth, 400));
    weightMap.draw();
  }
  mark();
}

// However many changes come, the pictures are drawn once for each frame.
function redraw() {
  mark();
  if (!drawing) drawing = requestAnimationFrame(draw);
}

function mark() {
  const best = new Set(bestPoints());
  for (const element of all('[data-point]')) {
    const k = +element.dataset.point;
    element.classList.toggle('best', best.has(k));
    element.classList.toggle('chosen', k === state.chosen);
    element.classList.toggle('hot', k === state.hot);
  }
}

// Beside the pictures stands what the table says of one point.
function showPoint() {
  const k = state.hot < 0 ? state.chosen : state.hot;
  $('#chosen h2').textContent = `Point ${k + 1}`;
  $('#chosen dl').replaceChildren(...[...$(`#plans tr[data-point="${k}"]`).cells].slice(1).flatMap(cell => {
    const term = document.createElement('dt'), details = document.createElement('dd');
    term.textContent = cell.dataset.label;
    details.append(cell.firstChild.cloneNode(true));
    return [term, details];
  }));
}

function point(k, hot = -1) {
  [state.chosen, state.hot] = [k, hot];
  showPoint();
  redraw();
}

// ---- weights
function weigh(weights, from) {
  const verdict = state.verdict = choose(answer, weights);
  state.weights = from === 'slider' ? weights : verdict.unit || weights;       // while a slider moves, the others stay
  if (verdict.best && !verdict.best.includes(state.chosen)) state.chosen = verdict.best[0];
  const link = wholeNumbers(weights).join();
  if (from !== 'typed') $('#typed').value = link;
  $('#typed').setAttribute('aria-invalid', false);
  weights.forEach((weight, i) => showWeight(i, (verdict.unit || weights)[i], Boolean(verdict.unit), from));
  $('#verdict').textContent = verdict.why || verdictText(verdict);
  const best = new Set(bestPoints());
  all('#plans .mark').forEach((element, k) => { element.textContent = best.has(k) ? (answer.maximises ? '● greatest' : '● least') : ''; });
  clearTimeout(linking);
  linking = setTimeout(() => history.replaceState(null, '', `#w=${link}`), 400);       // browsers limit how often
  showPoint();
  redraw();
}

// The least whole numbers in the same proportion.
function wholeNumbers(weights) {
  const common = weights.reduce((product, [, under]) => product * under / greatestDivisor(product, under), 1n);
  const whole = weights.map(([over, under]) => over * common / under), divisor = whole.reduce(greatestDivisor, 0n) || 1n;
  return whole.map(weight => weight / divisor);
}

function showWeight(i, weight, scaled, from) {
  const slider = $(`#slider${i}`), text = scaled ? exactText(weight) + decimalText(weight) : '–';
  if (from !== 'slider') slider.value = signOf(minus(ends[i][1], ends[i][0])) ? shareOf(weight, i) * 100 : 50;
  slider.disabled = !signOf(minus(ends[i][1], ends[i][0]));
  slider.setAttribute('aria-valuetext', text);
  $(`#weight${i}`).textContent = text;
}

function verdictText({ best, value }) {
  const names = best.slice(0, 12).map(k => k + 1).join(', ') + (best.length > 12 ? ', ..' : '');
  return `${best.length > 1 ? `Points ${names} tie: each is` : `Point ${names} is`} ${answer.maximises ? 'greatest' : 'least'}, `
    + `with the weighed sum ${exactText(value)}${decimalText(value)}.`;
}

function parseWeights(text) {
  const weights = text.split(',').map(parseExact);
  return weights.length === objectives && weights.every(weight => weight) ? weights : null;
}

function linkedWeights(address) {
  const match = /[#?&]w=([^&#]+)/.exec(address);
  try {
    return match && parseWeights(decodeURIComponent(match[1]));
  } catch {
    return null;
  }
}

ends.forEach(([least, greatest], i) => {
  $(`#slider${i}`).oninput = event => {
    const share = ratio(BigInt(event.target.value), 100n), weight = plus(least, times(minus(greatest, least), share));
    weigh(state.weights.map((other, j) => (j === i ? weight : other)), 'slider');
  };
});
$('#typed').oninput = event => {
  const weights = parseWeights(event.target.value);
  if (weights) weigh(weights, 'typed');
  else event.target.setAttribute('aria-invalid', true);
};
onhashchange = event => {
  const weights = linkedWeights(event.newURL);
  if (weights) weigh(weights);
};

// A place in the map of weights is taken as exact weights: those there, where they choose the point, else the middle of its cell.
function aim(event) {
  const cell = document.elementFromPoint(event.clientX, event.clientY)?.closest('#map [data-point]');
  if (!cell) return;
  const frame = mapSheet.svg.getBoundingClientRect(), scale = mapSheet.width / frame.width, k = +cell.dataset.point;
  const place = weightMap.placeOf((event.clientX - frame.left) * scale, (event.clientY - frame.top) * scale);
  const weights = place.slice(0, objectives - 1).map((share, i) => plus(ends[i][0], times(ratio(BigInt(Math.round(share * 200)), 200n), minus(ends[i][1], ends[i][0]))));
  weights.push(minus([1n, 1n], product(weights, answer.c)));
  weigh(choose(answer, weights).best?.includes(k) ? weights : parseWeights($(`#plans tr[data-point="${k}"] [data-weights]`).dataset.weights));
}
mapSheet.svg.onpointerdown = aim;
mapSheet.svg.onpointermove = event => { if (event.buttons) aim(event); };

// ---- the picture
let drag = null;

function turnBy(across, down) {
  state.turn += across;
  state.tilt = Math.max(-89, Math.min(89, state.tilt + down));
  redraw();
}

const pointUnder = event => document.elementFromPoint(event.clientX, event.clientY)?.closest('#view [data-point]');
viewSheet.svg.onpointerdown = event => { drag = { at: [event.clientX, event.clientY], moved: false }; };
viewSheet.svg.onpointermove = event => {
  if (!drag || !event.buttons || objectives !== 3) return;
  const [across, down] = [event.clientX - drag.at[0], event.clientY - drag.at[1]];
  if (!drag.moved && Math.hypot(across, down) <= 4) return;
  if (!drag.moved) viewSheet.svg.setPointerCapture(event.pointerId);
  drag = { at: [event.clientX, event.clientY], moved: true };
  turnBy(-across / 2, down / 2);
};
viewSheet.svg.onpointerup = event => {
  const hit = drag && !drag.moved && pointUnder(event);
  drag = null;
  if (hit) point(+hit.dataset.point);
};
document.onpointerover = event => {
  const hit = event.pointerType === 'mouse' && !event.buttons && event.target.closest?.('#view [data-point]');
  const k = hit ? +hit.dataset.point : -1;
  if (k === state.hot) return;
  state.hot = k;
  mark();
  showPoint();
};

const ARROWS = { ArrowLeft: [-1, 0], ArrowRight: [1, 0], ArrowUp: [0, 1], ArrowDown: [0, -1] };
viewSheet.svg.onkeydown = event => {
  const arrow = ARROWS[event.key], step = { n: 1, p: -1 }[event.key.toLowerCase()] || (arrow && objectives !== 3 && (arrow[0] || -arrow[1]));
  if (event.ctrlKey || event.metaKey || event.altKey || !(arrow || step)) return;
  event.preventDefault();
  if (step) point((state.chosen + step + pointCount) % pointCount);
  else turnBy(arrow[0] * 5, arrow[1] * 5);
};

document.onclick = event => {
  const button = event.target.closest('button');
  if (!button) return;
  if (button.dataset.choose) point(+button.dataset.choose);
  if (button.dataset.weights) {
    const row = button.closest('[data-point]');
    if (row) state.chosen = +row.dataset.point;
    weigh(parseWeights(button.dataset.weights));
  }
  if (button.dataset.turn) turnBy(...button.dataset.turn.split(',').map(Number));
};

// ---- the start
function firstWeights() {
  const equal = answer.c.map(() => [1n, 1n]), sum = answer.facets.reduce((total, facet) => total.map((weight, i) => plus(weight, facet[i])), answer.c.map(() => ZERO));
  return data.orthant && choose(answer, equal).best ? equal : sum;
}

viewSheet.svg.classList.toggle('many', pointCount > FEW);
viewSheet.svg.classList.toggle('turns', objectives === 3);
mapSheet.svg.style.display = mapped ? '' : 'none';
weigh(linkedWeights(location.href) || firstWeights());
draw();
let roomBefore = viewSheet.svg.parentNode.clientWidth;
new ResizeObserver(() => {
  if (viewSheet.svg.parentNode.clientWidth === roomBefore) return;
  roomBefore = viewSheet.svg.parentNode.clientWidth;
  redraw();
}).observe(viewSheet.svg.parentNode);
onbeforeprint = () => all('details').forEach(part => { part.open = true; });
