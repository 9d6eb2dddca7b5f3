// Which points are best for given weights, or why none is. All numbers are exact.
function choose(answer, weights) {
  if (weights.every(weight => !signOf(weight))) return { why: 'Not all weights may be 0.' };
  const worse = answer.maximises ? -1 : 1;
  const endless = name => ({ why: `No plan is best for these weights: along ${name} the weighed sum improves without end.` });
  for (const [i, line] of answer.lines.entries()) {
    if (signOf(product(weights, line))) return endless(`line ${i + 1}`);
  }
  for (const [i, direction] of answer.directions.entries()) {
    if (signOf(product(weights, direction)) * worse < 0) return endless(`direction ${answer.points.length + i + 1}`);
  }
  const scale = product(weights, answer.c), unit = weights.map(weight => divided(weight, scale));
  const sums = answer.points.map(point => product(unit, point));
  const value = sums.reduce((best, sum) => ((worse > 0 ? below(sum, best) : below(best, sum)) ? sum : best));
  return { unit, value, best: sums.flatMap((sum, i) => (signOf(minus(sum, value)) ? [] : [i])) };
}
