// Exact rational numbers: [numerator, denominator] of BigInt, in lowest terms, the denominator positive.
const ZERO = [0n, 1n];

function greatestDivisor(a, b) {
  while (b) [a, b] = [b, a % b];
  return a < 0n ? -a : a;
}

function ratio(over, under) {
  const divisor = greatestDivisor(over, under) * (under < 0n ? -1n : 1n);
  return [over / divisor, under / divisor];
}

const plus = (a, b) => ratio(a[0] * b[1] + b[0] * a[1], a[1] * b[1]);
const minus = (a, b) => ratio(a[0] * b[1] - b[0] * a[1], a[1] * b[1]);
const times = (a, b) => ratio(a[0] * b[0], a[1] * b[1]);
const divided = (a, b) => ratio(a[0] * b[1], a[1] * b[0]);
const signOf = a => (a[0] > 0n) - (a[0] < 0n);
const below = (a, b) => a[0] * b[1] < b[0] * a[1];
const product = (u, v) => u.reduce((sum, x, i) => plus(sum, times(x, v[i])), ZERO);
const toNumber = a => Number(a[0]) / Number(a[1]);
const exactText = a => (a[1] === 1n ? `${a[0]}` : `${a[0]}/${a[1]}`);

// A number as "2", "-1/3" or "0.5"; null where the text is none.
function parseExact(text) {
  const match = /^([+-]?)(?=\.?\d)(\d{0,60})(?:\.(\d{0,60}))?(?:\/(\d{1,60}))?$/.exec(String(text).trim());
  if (!match || !BigInt(match[4] || 1)) return null;
  const digits = match[3] || '';
  return ratio(BigInt(match[1] + '1') * BigInt(match[2] + digits), 10n ** BigInt(digits.length) * BigInt(match[4] || 1));
}

// What stands beside a fraction: a decimal, with "=" where it is exact.
function decimalText(a) {
  if (a[1] === 1n) return '';
  const near = String(+toNumber(a).toPrecision(4)), value = parseExact(near);
  return `${value && !signOf(minus(value, a)) ? ' =' : ' ≈'} ${near}`;
}
