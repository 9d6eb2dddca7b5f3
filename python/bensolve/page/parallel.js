// One objective, or four and more: each objective has an axis, and each point is a way from axis to axis.
const NARROWEST = 56, BESIDE = objectives === 1 ? 14 : 6;

function drawParallel(sheet) {
  const top = 44, bottom = 30, gap = objectives > 1 ? (sheet.width - 90) / (objectives - 1) : sheet.width;
  const x = i => 40 + (objectives > 1 ? i * gap : (sheet.width - 90) / 2), y = place => sheet.height - bottom - (place + 1) / 2 * (sheet.height - bottom - top);
  for (let i = 0; i < objectives; i++) {
    const room = Math.min(gap * (gap < 110 ? 1.8 : 0.95), 2 * Math.min(x(i), sheet.width - x(i)) - 6);
    sheet.put('polyline', { points: pathOf([[x(i), top], [x(i), sheet.height - bottom]]), class: 'grid' });
    sheet.label([x(i), i % 2 && gap < 110 ? 30 : 12], fitting(data.names[i], room), [[0, 0]], 0);
  }
  for (const k of labelOrder().reverse()) {
    const points = pathOf(data.places[k].map((place, i) => [x(i), y(place)]));
    sheet.put('polyline', { points, class: 'way', 'data-point': k });
    put(sheet.put('polyline', { points, class: 'catch', 'data-point': k }), 'title', {}, `point ${k + 1}`);
  }
  for (let i = 0; i < objectives; i++) {
    for (const [place, text] of ticksFor(i, 6)) {
      sheet.put('polyline', { points: pathOf([[x(i) - 4, y(place)], [x(i), y(place)]]), class: 'grid' });
      sheet.label([x(i), y(place)], text, [[-1, 0]], BESIDE);
    }
  }
  if (objectives === 1) {
    for (const k of labelOrder()) sheet.put('circle', { cx: x(0), cy: y(data.places[k][0]), 'data-point': k });
  }
  for (const k of labelOrder().slice(0, LABELLED)) {
    sheet.label([x(objectives - 1), y(data.places[k].at(-1))], `${k + 1}`, [[1, 0]], BESIDE);
  }
}
