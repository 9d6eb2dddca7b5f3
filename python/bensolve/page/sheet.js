// An SVG element that is drawn anew, with labels that meet nothing that stands there already.
const SVG = 'http://www.w3.org/2000/svg', LINE_HEIGHT = 15;
const measure = document.createElement('canvas').getContext('2d');
measure.font = '12px system-ui, sans-serif';

const moved = (place, along, share) => place.map((x, i) => x + along[i] * share);
const pathOf = places => places.map(place => place.map(x => x.toFixed(1)).join()).join(' ');

function put(parent, tag, attributes, text) {
  const element = document.createElementNS(SVG, tag);
  for (const name in attributes) element.setAttribute(name, attributes[name]);
  if (text !== undefined) element.textContent = text;
  parent.append(element);
  return element;
}

// The text, cut where it is wider than there is room.
function fitting(text, width) {
  let cut = text;
  while (cut && measure.measureText(cut).width > width) cut = cut.slice(0, -2);
  return cut === text ? text : cut.trim() + '…';
}

class Sheet {
  constructor(svg) {
    this.svg = svg;
  }

  clear(width, height) {
    [this.width, this.height, this.taken, this.crossed] = [width, height, [], []];
    this.svg.replaceChildren();
    this.svg.setAttribute('viewBox', `0 0 ${width} ${height}`);
  }

  put(tag, attributes, text) {
    return put(this.svg, tag, attributes, text);
  }

  // Keeps labels away from a square around a place; where it is only crossed, while there is room elsewhere.
  take([x, y], size, list = this.taken) {
    list.push([x - size / 2, y - size / 2, size, size]);
  }

  takeLine(places, list = this.taken) {
    for (let i = 1; i < places.length; i++) {
      const along = moved(places[i], places[i - 1], -1), steps = Math.ceil(Math.hypot(...along) / 6) || 1;
      for (let step = 0; step <= steps; step++) this.take(moved(places[i - 1], along, step / steps), 4, list);
    }
  }

  // Draws a line, and keeps labels away from it.
  stroke(places, style) {
    this.put('polyline', { points: pathOf(places), class: style });
    this.takeLine(places);
  }

  // Writes a text beside a place, at the first of the spots where it meets nothing. Where there is none, it is left out.
  label([x, y], text, spots, gap = 9, lists = [this.taken]) {
    const width = measure.measureText(text).width + 4;
    for (const [across, down] of spots) {
      const left = x + across * gap - width * (1 - across) / 2, top = y + down * gap - LINE_HEIGHT * (1 - down) / 2;
      if (left < 0 || top < 0 || left + width > this.width || top + LINE_HEIGHT > this.height) continue;
      const meets = ([a, b, w, h]) => left < a + w && a < left + width && top < b + h && b < top + LINE_HEIGHT;
      if (lists.some(list => list.some(meets))) continue;
      this.taken.push([left, top, width, LINE_HEIGHT]);
      this.put('text', { x: left + 2, y: top + 11.5 }, text);
      return true;
    }
    return false;
  }
}
