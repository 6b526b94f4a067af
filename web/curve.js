// The curve of one value along one box: the value, its mean and its marginal rate, and where what is kept falls. It is computed in slices, so that the page
// still answers.
import { OVER, UNDEFINED, UNIT } from './amounts.js';

export const MOST_STEPS = 50_000;
const SLICE = 20;

// The least step in whole units with which a range is walked in at most MOST_STEPS steps.
export function stepOf(from, to) {
  const span = (to - from) / UNIT;
  const most = BigInt(MOST_STEPS);
  return ((span + most - 1n) / most || 1n) * UNIT;
}

// One case along a box: `values` are the amounts of the result, or null where a run stops or gives no number.
export class Walk {
  constructor(law, amounts, input, name) {
    const { program } = law;
    const output = program.outputs.findIndex((each) => each.name === name);
    Object.assign(this, { program, result: program.results[output], steps: program.stepsOf(input), values: program.run(amounts) });
    this.takes = program.takes.filter((take) => take[1] === input).map(([value]) => value);
  }

  at(amount) {
    for (const value of this.takes) this.values[value] = amount;
    this.program.follow(this.steps, this.values);
    const found = this.values[this.result];
    return found === UNDEFINED || found === OVER || this.program.stop(this.values) !== null ? null : found;
  }
}

// Walks a range with all cases; reports its progress, and returns the amounts with a list of results for each case. A walk that begins later ends this one.
export async function walk(walks, { from, to, step }, report, isOver) {
  const amounts = [];
  const results = walks.map(() => []);
  let amount = from;
  while (amount <= to) {
    const until = performance.now() + SLICE;
    for (; amount <= to && performance.now() < until; amount += step) {
      amounts.push(amount);
      walks.forEach((each, k) => results[k].push(each.at(amount)));
    }
    report(amounts.length);
    await new Promise((go) => setTimeout(go));
    if (isOver()) return null;
  }
  return { amounts, results, step };
}

// The mean rate at a place, and the marginal rate over some steps from it; null where a number is missing.
export function meanRate({ amounts, results }, which, at) {
  const value = results[which][at];
  return value === null || amounts[at] <= 0n ? null : Number(value) / Number(amounts[at]);
}

export function marginalRate({ amounts, results }, which, at, width) {
  const until = at + width;
  const [first, last] = [results[which][at], results[which][until] ?? null];
  return first === null || last === null ? null : Number(last - first) / Number(amounts[until] - amounts[at]);
}

// Where what is kept (the amount less the result) falls from one step to the next: neighbouring falls are one, from an amount to an amount, with what is lost.
export function falls({ amounts, results, step }, which) {
  const found = [];
  const values = results[which];
  for (let k = 0; k + 1 < values.length; k += 1) {
    if (values[k] === null || values[k + 1] === null) continue;
    const lost = values[k + 1] - values[k] - step;
    if (lost <= 0n) continue;
    const last = found.at(-1);
    if (last !== undefined && last.to === amounts[k]) Object.assign(last, { to: amounts[k + 1], lost: last.lost + lost });
    else found.push({ from: amounts[k], to: amounts[k + 1], lost });
  }
  return found;
}
