// The map of weights: a bar for two objectives, an area for three, in which each point has the cell of the weights that choose it.
// A place in it is the share of the way from the least to the greatest weight, of the first objective and of the second.
const mapped = data.cells.length > 0;
const triangle = objectives === 3 && data.orthant;

function shareOf(weight, i) {
  const [least, greatest] = ends[i], span = minus(greatest, least);
  return signOf(span) ? toNumber(divided(minus(weight, least), span)) : 0;
}

class WeightMap {
  constructor(sheet, width) {
    [this.sheet, this.width, this.top, this.height] = [sheet, width, objectives === 2 ? 4 : 20, objectives === 2 ? 36 : width * 0.6];
    this.tip = triangle ? 0.5 : 0;
  }

  at([x, y]) {
    const across = objectives === 3 ? 0.8 * x + 0.8 * this.tip * y + 0.1 : x;
    return [12 + (this.width - 24) * across, this.top + this.height * (1 - y)];
  }

  placeOf(x, y) {
    const across = (x - 12) / (this.width - 24), down = 1 - (y - this.top) / this.height;
    return [objectives === 3 ? (across - 0.1 - 0.8 * this.tip * down) / 0.8 : across, down];
  }

  draw() {
    const { sheet } = this;
    sheet.clear(this.width, this.top + this.height + 24);
    sheet.svg.style.maxWidth = `${this.width}px`;
    data.cells.forEach((cell, k) => sheet.put('polygon', { points: pathOf(cell.map(corner => this.at(corner))), class: 'cell', 'data-point': k }));
    const { unit } = state.verdict;
    const needle = unit && this.at(objectives === 2 ? [shareOf(unit[0], 0), 0.5] : [shareOf(unit[0], 0), shareOf(unit[1], 1)]);
    if (needle) sheet.take(needle, 14);
    this.nameEnds();
    for (const k of labelOrder().slice(0, LABELLED)) this.number(k);
    if (needle) sheet.put('circle', { cx: needle[0], cy: needle[1], class: 'needle' });
  }

  nameEnds() {
    const { sheet, width } = this, y = this.top + this.height + 13, short = data.names.map(name => fitting(name, width * 0.42));
    if (objectives === 2) {
      sheet.label([2, y], exactText(ends[0][0]), [[1, 0]], 8);
      sheet.label([width - 2, y], exactText(ends[0][1]), [[-1, 0]], 8);
      sheet.label([width / 2, y], fitting(`weight of ${data.names[0]}`, width - 120), [[0, 0]]);
    } else if (triangle) {
      sheet.label([width / 2, 10], short[1], [[0, 0]]);
      sheet.label([width * 0.02, y], short[2], [[1, 0]], 0);
      sheet.label([width * 0.98, y], short[0], [[-1, 0]], 0);
    } else {
      sheet.label([2, 10], `↑ weight of ${short[1]}`, [[1, 0]], 0);
      sheet.label([width - 2, y], `weight of ${short[0]} →`, [[-1, 0]], 0);
    }
  }

  number(k) {
    const cell = data.cells[k].map(corner => this.at(corner)), across = cell.map(corner => corner[0]);
    if (Math.max(...across) - Math.min(...across) < 18) return;
    const middle = [0, 1].map(i => cell.reduce((sum, corner) => sum + corner[i], 0) / cell.length);
    this.sheet.label(middle, `${k + 1}`, objectives === 2 ? [[0, 0]] : [[0, 0], [1, 0], [-1, 0], [0, -1], [0, 1]]);
  }
}
