// The result: the requested values, the notes, or the stop of a run. Each value unfolds to why it is so.
import { UNDEFINED } from './amounts.js';
import { element, button, refill } from './dom.js';
import { decoded } from './laws.js';
import { spellValue } from './spelling.js';
import { say } from './texts.js';

const MOST_BOXES = 8;

export class Result {
  constructor(page) {
    this.page = page;
    this.headline = element('p', { class: 'headline' });
    this.list = element('div', { class: 'values' });
    this.root = element(
      'section',
      { 'aria-labelledby': 'result-title', class: 'result' },
      element('h2', { id: 'result-title' }, say('result')),
      element('div', { role: 'status', 'aria-live': 'polite' }, this.headline),
      this.list,
    );
  }

  // Computes the cases, and draws them.
  fill() {
    if (this.page.state.hasFaults()) {
      this.headline.textContent = say('mend-first');
      refill(this.list, this.faulty());
      return;
    }
    const answers = this.page.cases.map(({ law, amounts }) => law.answer(amounts));
    refill(this.headline, this.head(answers));
    refill(this.list, this.messages(answers), this.values(answers));
  }

  faulty() {
    const boxes = this.page.state.faults.flatMap((faults, which) => [...faults.keys()].map((input) => [which, this.page.law.inputs[input].code]));
    return element('p', {}, boxes.map(([which, code]) => button(say('go-to', { code }), () => this.page.form.goTo(code, which), { class: 'link' })));
  }

  // The one sentence of the result.
  head(answers) {
    const name = this.page.main;
    const description = this.page.describe(name) || name;
    const shown = answers.map((answer) => (answer.stop === null ? this.spell(name, answer) : say('stopped')));
    if (shown.length === 1) return answers[0].stop === null ? say('headline', { what: description, value: shown[0] }) : say('stopped-long');
    const line = ({ name: which }, k) => element('span', { class: 'line' }, say('headline-of', { which, what: description, value: shown[k] }));
    const lines = this.page.cases.map(line);
    if (answers.some(({ stop }) => stop !== null)) return lines;
    const values = answers.map((answer) => answer.named.find((each) => each.name === name).value);
    return [...lines, element('span', { class: 'line mark' }, say('headline-difference', { value: this.page.why.difference(name, values) }))];
  }

  spell(name, answer) {
    const { value } = answer.named.find((each) => each.name === name);
    return spellValue(value, this.page.language, this.page.unit(name));
  }

  // Stops and notes, each with its text and the boxes that it looks at.
  messages(answers) {
    return answers.map((answer, k) => {
      const { name, law } = this.page.cases[k];
      const head = () => (answers.length === 1 ? null : element('strong', {}, `${name}\u00a0: `));
      if (answer.stop !== null) return element('div', { class: 'message stop', role: 'alert' }, head(), this.stop(law, answer), this.boxes(law, answer));
      const notes = new Set(answer.notes.map((label) => say('noted', this.labelTexts(law, label))));
      return [...notes].map((text) => element('div', { class: 'message note' }, head(), text));
    });
  }

  labelTexts(law, label) {
    return { text: law.data.errors[label.error] ?? decoded(label.text), number: label.verification, error: label.error };
  }

  stop(law, { stop }) {
    if ('driver' in stop.label) return say('stop-driver', { line: stop.label.driver });
    return say(stop.isOver ? 'stop-over' : 'stop', this.labelTexts(law, stop.label));
  }

  boxes(law, { values, stop }) {
    const codes = law.boxesOf(values, stop);
    if (codes.length === 0 || codes.length > MOST_BOXES) return null;
    const { form } = this.page;
    return element('p', {}, say('boxes'), codes.map((code) => button(code, () => form.goTo(code), { class: 'link', title: form.describe(code) })));
  }

  values(answers) {
    if (answers.some(({ stop }) => stop !== null)) return null;
    const names = answers[0].named.map(({ name }) => name);
    const all = (name) => answers.map((answer) => answer.named.find((each) => each.name === name)?.value ?? UNDEFINED);
    const isOne = answers.length === 1;
    const columns = [...this.page.cases.map(({ name }) => name), say('difference')].map((name) => element('span', {}, name));
    const heads = isOne ? null : element('div', { class: 'heads', 'aria-hidden': 'true' }, element('span', {}), columns);
    const open = () => this.page.why.openDifferences(this.list);
    const opener = isOne ? null : button(say('open-differences'), open, { id: 'open-differences' });
    return [element('p', { class: 'hint' }, say('unfold')), opener, heads, names.map((name) => this.page.why.requested(name, all(name), name))];
  }
}
