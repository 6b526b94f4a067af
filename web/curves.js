// The section of curves: its choices, the picture, a reading of it, and the places where what is kept falls.
import { UNDEFINED, UNIT, writeAmount } from './amounts.js';
import { chart, point } from './chart.js';
import { Walk, falls, marginalRate, meanRate, stepOf, walk } from './curve.js';
import { button, element, refill, save } from './dom.js';
import { readTyped, spell, spellNumber, spellValue, typed } from './spelling.js';
import { say } from './texts.js';

const MOST_FALLS = 40;
const WIDTHS = 100;

export class Curves {
  constructor(page) {
    Object.assign(this, { page, turn: 0 });
    const boxes = page.law.inputs.filter(({ type }) => type !== 'truth');
    this.box = element('select', { id: 'curve-box' }, boxes.map(({ code }) => element('option', { value: code }, `${code} · ${page.form.describe(code)}`)));
    const names = page.law.program.outputs.filter((output) => 'name' in output).map(({ name }) => name);
    const option = (name) => element('option', { value: name, selected: name === page.main }, page.describe(name) || name);
    this.of = element('select', { id: 'curve-of' }, names.map(option));
    this.from = element('input', { id: 'curve-from', type: 'text', inputmode: 'decimal', value: typed(0n, page.language) });
    this.to = element('input', { id: 'curve-to', type: 'text', inputmode: 'decimal', value: typed(50_000n * UNIT, page.language) });
    this.message = element('p', { role: 'status', class: 'hint' });
    this.picture = element('div', { class: 'picture' });
    this.root = this.section();
    this.preferred(boxes);
  }

  section() {
    const field = (input, key) => element('div', { class: 'field' }, element('label', { for: input.id }, say(key)), input);
    return element(
      'section',
      { 'aria-labelledby': 'curve-title', class: 'curve' },
      element('h2', { id: 'curve-title' }, say('curve')),
      element('p', { class: 'hint' }, say('curve-hint')),
      element('div', { class: 'fields' }, field(this.of, 'curve-of'), field(this.box, 'curve-box'), field(this.from, 'curve-from'), field(this.to, 'curve-to')),
      button(say('curve-draw'), () => this.draw(), { id: 'curve-draw' }),
      this.message,
      this.picture,
    );
  }

  // The box that is walked first: the first filled amount, else the first box whose amounts aren't whole numbers alone.
  preferred(boxes) {
    const filled = boxes.find(({ code, type }) => type === '' && this.page.state.households[0][this.page.law.numbers.get(code)] !== UNDEFINED);
    const chosen = filled ?? boxes.find(({ type }) => type === '') ?? boxes[0];
    if (chosen !== undefined) this.box.value = chosen.code;
  }

  // The requested range, or null with a message.
  range() {
    const [from, to] = [this.from, this.to].map((field) => readTyped(field.value, this.page.language));
    const bad = from.fault ?? to.fault ?? (from.amount >= to.amount ? 'curve-range' : undefined);
    const isWhole = bad === undefined && from.amount % UNIT === 0n && to.amount % UNIT === 0n;
    if (bad !== undefined || !isWhole) {
      this.message.textContent = say(bad ?? 'fault-whole');
      return null;
    }
    return { from: from.amount, to: to.amount, step: stepOf(from.amount, to.amount) };
  }

  async draw() {
    const range = this.range();
    if (range === null) return;
    if (this.page.state.hasFaults()) {
      this.message.textContent = say('mend-first');
      return;
    }
    this.turn += 1;
    const turn = this.turn;
    const [code, name] = [this.box.value, this.of.value];
    const cases = this.page.cases.slice();
    const walks = cases.map(({ law, amounts }) => new Walk(law, amounts, law.numbers.get(code), name));
    const count = Number((range.to - range.from) / range.step) + 1;
    const whole = (number) => spellNumber(number, this.page.language, 0);
    const report = (done) => (this.message.textContent = say('curve-computing', { done: whole(done), count: whole(count) }));
    const found = await walk(walks, range, report, () => turn !== this.turn);
    if (found !== null) this.show(found, cases, code, name);
  }

  show(found, cases, code, name) {
    const { language } = this.page;
    const unit = this.page.unit(code);
    const width = Math.max(1, Math.ceil((found.amounts.length - 1) / WIDTHS));
    const fallen = cases.map((_, which) => falls(found, which));
    const what = this.page.describe(name) || name;
    const labels = { title: say('curve-picture', { what, box: this.page.form.describe(code) }), value: what, rates: say('curve-rates') };
    const picture = chart(found, { language, width, fallen, labels, across: this.picture.clientWidth });
    const reading = element('p', { class: 'reading', role: 'status' });
    const slide = element('input', { type: 'range', min: 0, max: found.amounts.length - 1, value: 0, id: 'curve-at' });
    const read = () => {
      point(picture, found, Number(slide.value));
      refill(reading, cases.map((each, k) => element('span', { class: 'line' }, this.reading(found, each, k, Number(slide.value), width, name))));
      slide.setAttribute('aria-valuetext', reading.textContent);
    };
    slide.addEventListener('input', read);
    const spelled = (amount) => spellValue(amount, language, unit);
    this.message.textContent = say('curve-done', { step: spelled(found.step), width: spelled(found.step * BigInt(width)) });
    refill(
      this.picture,
      this.legend(cases),
      picture,
      element('label', { for: 'curve-at' }, say('curve-at')),
      slide,
      reading,
      cases.map((each, k) => this.fallen(fallen[k], cases.length > 1 ? each.name : '')),
      button(say('curve-save'), () => save(`${name}-${code}.csv`, this.csv(found, cases, width), 'text/csv')),
    );
    read();
  }

  legend(cases) {
    const entry = (kind, text) => element('li', {}, element('span', { class: `swatch ${kind}` }), text);
    return element(
      'ul',
      { class: 'legend' },
      cases.length > 1 ? cases.map((each, k) => entry(`case-${k}`, each.name)) : null,
      entry('plain', say('legend-plain')),
      entry('plain mean', say('legend-mean')),
      entry('fall', say('legend-fall')),
    );
  }

  rate(rate) {
    return rate === null ? '–' : `${spellNumber(rate * 100, this.page.language, 2)}\u00a0%`;
  }

  reading(found, each, which, at, width, name) {
    const value = found.results[which][at];
    return say(found.results.length > 1 ? 'curve-reading-of' : 'curve-reading', {
      which: each.name,
      amount: spell(found.amounts[at], this.page.language),
      value: value === null ? '–' : spellValue(value, this.page.language, this.page.unit(name)),
      mean: this.rate(meanRate(found, which, at)),
      marginal: this.rate(marginalRate(found, which, at, width)),
    });
  }

  // The places where what is kept falls.
  fallen(found, name) {
    const { language } = this.page;
    const head = element('h3', {}, name === '' ? say('falls') : say('falls-of', { name }));
    if (found.length === 0) return [head, element('p', {}, say('falls-none'))];
    const line = ({ from, to, lost }) => say('fall', { from: spell(from, language), to: spell(to, language), lost: spell(lost, language, 2) });
    const lines = found.slice(0, MOST_FALLS).map(line);
    const more = found.length > MOST_FALLS ? element('p', {}, say('falls-more', { count: found.length - MOST_FALLS })) : null;
    return [head, element('ul', { class: 'falls' }, lines.map((line) => element('li', {}, line))), more];
  }

  csv(found, cases, width) {
    const heads = cases.flatMap((_, k) => ['value', 'mean', 'marginal'].map((head) => (k === 0 ? head : `${head}_2`)));
    const number = (rate) => (rate === null ? '' : rate.toFixed(6));
    const lines = found.amounts.map((amount, at) => [
      writeAmount(amount),
      ...cases.flatMap((_, k) => {
        const value = found.results[k][at];
        return [value === null ? '' : writeAmount(value), number(meanRate(found, k, at)), number(marginalRate(found, k, at, width))];
      }),
    ]);
    return [['amount', ...heads], ...lines].map((line) => line.join(',')).join('\n') + '\n';
  }
}
