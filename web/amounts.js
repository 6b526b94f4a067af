// Amounts, values and operators, as docs/AMOUNTS.md has them. A value is a whole number of millionths (a BigInt), UNDEFINED or OVER.

export const UNDEFINED = null;
export const OVER = 'over';
export const UNIT = 1_000_000n;
export const GREATEST = 10_000_000_000_000n * UNIT;

const HALF_AND_MORE = 500_050n;
const DECIMALS = 6;
const AMOUNT = /^(-?)([0-9]+)(?:\.([0-9]+))?$/;

// An amount, or OVER where it is beyond the greatest one.
function bounded(amount) {
  return amount > GREATEST || amount < -GREATEST ? OVER : amount;
}

// The nearest whole number to a quotient; of two equally near, the one farther from zero.
function rounded(numerator, denominator) {
  const quotient = numerator / denominator;
  const rest = numerator % denominator;
  const doubled = 2n * (rest < 0n ? -rest : rest);
  if (doubled < (denominator < 0n ? -denominator : denominator)) return quotient;
  return numerator < 0n === denominator < 0n ? quotient + 1n : quotient - 1n;
}

function truth(holds) {
  return holds ? UNIT : 0n;
}

// The greatest whole number of units not above an amount.
function floor(amount) {
  const units = amount / UNIT;
  return (amount < units * UNIT ? units - 1n : units) * UNIT;
}

function whole(amount) {
  const moved = amount < 0n ? amount - HALF_AND_MORE : amount + HALF_AND_MORE;
  return bounded((moved / UNIT) * UNIT);
}

// An operator of one argument, which is undefined where that is.
function ofOne(compute) {
  return (a) => (a === OVER || a === UNDEFINED ? a : compute(a));
}

// An operator of two arguments, which is undefined where one of them is.
function ofBoth(compute) {
  return (a, b) => {
    if (a === OVER || b === OVER) return OVER;
    return a === UNDEFINED || b === UNDEFINED ? UNDEFINED : compute(a, b);
  };
}

// An operator of two arguments, of which an undefined one counts as 0 if the other isn't.
function ofEither(compute) {
  return (a, b) => {
    if (a === OVER || b === OVER) return OVER;
    if (a === UNDEFINED) return b === UNDEFINED ? UNDEFINED : compute(0n, b);
    return compute(a, b === UNDEFINED ? 0n : b);
  };
}

function choose(condition, first, second) {
  if (condition === UNDEFINED || condition === OVER) return condition;
  return condition === 0n ? second : first;
}

// Each operator by its word in code files. Arguments past its arity don't count.
export const OPERATORS = {
  add: ofEither((a, b) => bounded(a + b)),
  sub: ofEither((a, b) => bounded(a - b)),
  mul: ofBoth((a, b) => bounded(rounded(a * b, UNIT))),
  div: ofBoth((a, b) => (b === 0n ? 0n : bounded(rounded(a * UNIT, b)))),
  neg: ofOne((a) => -a),
  eq: ofBoth((a, b) => truth(a === b)),
  ne: ofBoth((a, b) => truth(a !== b)),
  lt: ofBoth((a, b) => truth(a < b)),
  le: ofBoth((a, b) => truth(a <= b)),
  gt: ofBoth((a, b) => truth(a > b)),
  ge: ofBoth((a, b) => truth(a >= b)),
  and: ofBoth((a, b) => truth(a !== 0n && b !== 0n)),
  or: ofEither((a, b) => truth(a !== 0n || b !== 0n)),
  not: ofOne((a) => truth(a === 0n)),
  present: (a) => (a === OVER ? OVER : truth(a !== UNDEFINED)),
  abs: ofOne((a) => (a < 0n ? -a : a)),
  positif: ofOne((a) => truth(a > 0n)),
  positif_ou_nul: ofOne((a) => truth(a >= 0n)),
  null: ofOne((a) => truth(a === 0n)),
  arr: ofOne(whole),
  inf: ofOne((a) => floor(a + 1n)),
  max: ofEither((a, b) => (a > b ? a : b)),
  min: ofEither((a, b) => (a < b ? a : b)),
  truth: (a) => truth(a !== OVER && a !== UNDEFINED && a !== 0n),
  choose,
  at: ofBoth((a, b) => truth(a / UNIT === b / UNIT)),
};

export const ARITY = {
  ...Object.fromEntries(Object.keys(OPERATORS).map((word) => [word, 2])),
  ...Object.fromEntries(
    ['neg', 'not', 'present', 'abs', 'positif', 'positif_ou_nul', 'null', 'arr', 'inf', 'truth'].map((word) => [word, 1]),
  ),
  choose: 3,
};

// The amount of a text, rounded at the sixth decimal; null where it has not the form, and OVER where it is too great.
export function readAmount(text) {
  const match = AMOUNT.exec(text);
  if (match === null) return null;
  const [, sign, units, decimals = ''] = match;
  const kept = BigInt(units + decimals.slice(0, DECIMALS).padEnd(DECIMALS, '0'));
  const size = decimals.charAt(DECIMALS) >= '5' ? kept + 1n : kept;
  return bounded(sign === '' ? size : -size);
}

// The one spelling of an amount.
export function writeAmount(amount) {
  const size = amount < 0n ? -amount : amount;
  const decimals = (size % UNIT).toString().padStart(DECIMALS, '0').replace(/0+$/, '');
  return (amount < 0n ? '-' : '') + (size / UNIT).toString() + (decimals === '' ? '' : '.' + decimals);
}
