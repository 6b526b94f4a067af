// All steps, for paper: each cell once, in an order in which each comes after those that it was computed from.
import { UNDEFINED } from './amounts.js';
import { element, refill } from './dom.js';
import { say } from './texts.js';

const MOST_PRINTED = 2_000;

export class Paper {
  constructor(page) {
    this.page = page;
    this.root = element('section', { class: 'paper', 'aria-hidden': 'true' });
    window.addEventListener('beforeprint', () => this.fill());
    window.addEventListener('afterprint', () => refill(this.root));
  }

  fill() {
    const { page } = this;
    if (page.state.hasFaults()) return refill(this.root);
    return refill(this.root, element('h2', {}, say('paper-household')), this.households(), element('h2', {}, say('paper-steps')), this.steps());
  }

  households() {
    const { law, cases, form } = this.page;
    const filled = law.inputs.map((_, k) => k).filter((k) => cases.some(({ amounts }) => amounts[k] !== UNDEFINED));
    if (filled.length === 0) return element('p', {}, say('paper-nothing'));
    const amount = (each, k) => (each === UNDEFINED ? '–' : this.page.why.spell(law.inputs[k].code, each));
    const spelled = (k) => cases.map(({ amounts }) => element('td', {}, amount(amounts[k], k)));
    const head = ({ code }) => element('th', { scope: 'row' }, form.describe(code), ' ', element('code', {}, code));
    return element('table', {}, filled.map((k) => element('tr', {}, head(law.inputs[k]), spelled(k))));
  }

  // The cells that the requested values were computed from, by one call of the rules.
  order() {
    const { page } = this;
    const found = new Set();
    const left = page.law.program.outputs.filter((output) => 'name' in output).map(({ name }) => ({ cell: name, isDone: false })).reverse();
    const seen = new Set();
    while (left.length > 0 && found.size < MOST_PRINTED) {
      const { cell, isDone } = left.pop();
      if (isDone) found.add(cell);
      if (isDone || seen.has(cell)) continue;
      seen.add(cell);
      left.push({ cell, isDone: true });
      const below = page.cases.flatMap((each) => page.why.reason(each, cell, []).cells);
      for (const read of [...new Set(below)].reverse()) if (!seen.has(read)) left.push({ cell: read, isDone: false });
    }
    return [...found].filter((cell) => page.cases.some(({ law }) => law.formula(cell) !== null));
  }

  steps() {
    const { why, cases, law } = this.page;
    if (cases.some((each) => each.law.data.whole === '')) return element('p', {}, say('no-steps'));
    const ofDriver = Object.keys(law.data.origins);
    return [
      ofDriver.length === 0 ? null : element('p', {}, say('paper-one-call')),
      element('ol', { class: 'steps' }, this.order().map((cell) => {
        const values = cases.map((each) => why.value(each, cell, []));
        return element('li', {}, element('p', { class: 'head' }, why.heading(cell, values)), why.lines(cases.map((each) => why.reason(each, cell, []))));
      })),
    ];
  }
}
