// The picture of a curve: the value above, the rates below, along one box.
import { drawn } from './dom.js';
import { marginalRate, meanRate } from './curve.js';
import { spellNumber } from './spelling.js';

const NARROWEST = 320;
const LEFT = 74;
const RIGHT = 30;
const TOP = 24;
const HEIGHT = 200;
const GAP = 44;
const BOTTOM = 34;
const UNITS = 1e6;

// Round numbers from low to high, some five of them.
export function ticks(low, high) {
  const rough = (high - low) / 5 || 1;
  const power = 10 ** Math.floor(Math.log10(rough));
  const step = [1, 2, 2.5, 5, 10].map((each) => each * power).find((each) => each >= rough);
  const found = [];
  for (let at = Math.ceil(low / step); at * step <= high + step * 1e-9; at += 1) found.push(at * step);
  return found;
}

// A scale from numbers to places.
function scale(low, high, from, to) {
  const span = high - low || 1;
  return (number) => from + ((number - low) / span) * (to - from);
}

// The places of a line, of which a gap ends a piece. Of many points in one column the least and the greatest are drawn.
export function pieces(points, columns) {
  const size = Math.max(1, Math.floor(points.length / columns));
  const found = [[]];
  for (let at = 0; at < points.length; at += size) {
    const known = points.slice(at, at + size).filter((point) => point[1] !== null);
    if (known.length === 0) {
      if (found.at(-1).length > 0) found.push([]);
      continue;
    }
    const [least, most] = known.reduce(([low, high], point) => [point[1] < low[1] ? point : low, point[1] > high[1] ? point : high], [known[0], known[0]]);
    const kept = [...new Set([known[0], least, most, known.at(-1)])].sort((a, b) => a[0] - b[0]);
    found.at(-1).push(...kept);
  }
  return found.filter((piece) => piece.length > 0);
}

class Panel {
  constructor({ language, across, right }, top, values, suffix) {
    const known = values.flat().filter((point) => point[1] !== null).map((point) => point[1]);
    const [low, high] = known.reduce(([a, b], each) => [Math.min(a, each), Math.max(b, each)], [0, 0]);
    Object.assign(this, { language, across, right, top, low, high: high === low ? low + 1 : high, suffix });
    this.down = scale(this.low, this.high, top + HEIGHT, top);
  }

  axis() {
    return ticks(this.low, this.high).map((tick) => [
      drawn('line', { x1: LEFT, x2: this.right, y1: this.down(tick), y2: this.down(tick), class: tick === 0 ? 'zero' : 'grid' }),
      drawn('text', { x: LEFT - 6, y: this.down(tick) + 4, class: 'tick', 'text-anchor': 'end' }, spellNumber(tick, this.language, 2) + this.suffix),
    ]);
  }

  line(points, name) {
    return pieces(points, this.right - LEFT).map((piece) =>
      drawn('polyline', { class: name, points: piece.map(([x, y]) => `${this.across(x).toFixed(1)},${this.down(y).toFixed(1)}`).join(' ') }),
    );
  }
}

// The series of one case: points of the value, the mean and the marginal rate in per cent.
function series(found, which, width) {
  const x = found.amounts.map((amount) => Number(amount) / UNITS);
  const percent = (rate) => (rate === null ? null : rate * 100);
  return {
    value: x.map((each, k) => [each, found.results[which][k] === null ? null : Number(found.results[which][k]) / UNITS]),
    mean: x.map((each, k) => [each, percent(meanRate(found, which, k))]),
    marginal: x.slice(0, -1).map((each, k) => [each, percent(marginalRate(found, which, k, width))]),
  };
}

// The picture, as wide as there is room. `fallen` has the falls of each case.
export function chart(found, { language, width, fallen, labels, across: room }) {
  const right = Math.max(NARROWEST, room) - RIGHT;
  const [low, high] = [found.amounts[0], found.amounts.at(-1)].map((amount) => Number(amount) / UNITS);
  const across = scale(low, high, LEFT, right);
  const all = found.results.map((_, which) => series(found, which, width));
  const upper = new Panel({ language, across, right }, TOP, all.map((each) => each.value), '');
  const lower = new Panel({ language, across, right }, TOP + HEIGHT + GAP, all.flatMap((each) => [each.mean, each.marginal]), '\u00a0%');
  const bottom = TOP + 2 * HEIGHT + GAP;
  const labelled = ticks(low, high).filter((_, k, every) => right - LEFT > 400 || k % 2 === 0 || every.length < 4);
  return drawn(
    'svg',
    { viewBox: `0 0 ${right + RIGHT} ${bottom + BOTTOM}`, role: 'img', 'aria-label': labels.title, class: 'chart', 'data-right': right },
    [upper, lower].map((panel) => panel.axis()),
    labelled.map((tick) => drawn('text', { x: across(tick), y: bottom + 18, class: 'tick', 'text-anchor': 'middle' }, spellNumber(tick, language, 2))),
    fallen.flat().map(({ from, to }) => fallMark(across, upper.top, Number(from) / UNITS, Number(to) / UNITS)),
    all.map((each, k) => [upper.line(each.value, `value case-${k}`), lower.line(each.marginal, `marginal case-${k}`), lower.line(each.mean, `mean case-${k}`)]),
    drawn('text', { x: 0, y: TOP - 10, class: 'panel' }, labels.value),
    drawn('text', { x: 0, y: TOP + HEIGHT + GAP - 10, class: 'panel' }, labels.rates),
    drawn('line', { class: 'cursor', y1: TOP, y2: bottom, x1: LEFT, x2: LEFT, hidden: true }),
  );
}

function fallMark(across, top, from, to) {
  const width = Math.max(2, across(to) - across(from));
  return drawn('rect', { x: across(from) - 1, y: top, width, height: 2 * HEIGHT + GAP, class: 'fall' });
}

// Moves the line that marks a place.
export function point(picture, found, at) {
  const cursor = picture.querySelector('.cursor');
  const x = scale(Number(found.amounts[0]), Number(found.amounts.at(-1)), LEFT, Number(picture.dataset.right))(Number(found.amounts[at]));
  cursor.removeAttribute('hidden');
  cursor.setAttribute('x1', x);
  cursor.setAttribute('x2', x);
}
