// The form: a field for each input, in groups, with a search. A fault is shown at its field.
import { UNDEFINED, UNIT } from './amounts.js';
import { element, refill } from './dom.js';
import { isOfType } from './household.js';
import { readTyped, typed } from './spelling.js';
import { say } from './texts.js';

const MOST_FOUND = 100;

function plain(text) {
  return text.normalize('NFD').replace(/\p{M}/gu, '').toLowerCase();
}

export class Form {
  constructor(page) {
    Object.assign(this, { page, state: page.state, law: page.law, fields: new Map() });
    this.list = element('div', { class: 'groups' });
    this.search = element('input', { type: 'search', id: 'search', autocomplete: 'off', input: () => this.fill() });
    this.count = element('p', { class: 'hint', role: 'status' });
    this.root = element(
      'section',
      { 'aria-labelledby': 'form-title', class: 'form' },
      element('h2', { id: 'form-title' }, say('form')),
      element('label', { for: 'search' }, say('search')),
      this.search,
      this.count,
      this.list,
    );
    this.state.listen((what) => (what === 'households' ? this.fill() : this.mark()));
    this.fill();
  }

  describe(code) {
    return this.law.description(this.law.codes.get(code)) || say('box', { code });
  }

  // Redraws the groups, or the fields found. Groups that were open stay open.
  fill() {
    const wanted = plain(this.search.value).split(/\s+/).filter((word) => word !== '');
    this.fields.clear();
    this.count.textContent = '';
    if (wanted.length > 0) this.fillFound(wanted);
    else refill(this.list, this.heads(), this.page.data.groups.map((group, k) => this.group(group, k)));
    this.mark();
  }

  // The names of two households, above their columns.
  heads() {
    if (this.state.households.length === 1) return null;
    const names = ['first-household', 'second-household'].map((key) => element('span', { class: 'which' }, say(key)));
    return element('div', { class: 'row two', 'aria-hidden': 'true' }, element('span', { class: 'described' }), names);
  }

  fillFound(wanted) {
    this.words ??= this.law.inputs.map(({ code }) => plain(`${code} ${this.law.codes.get(code)} ${this.describe(code)}`));
    const found = this.law.inputs.map((_, k) => k).filter((k) => wanted.every((word) => this.words[k].includes(word)));
    this.count.textContent = say(found.length > MOST_FOUND ? 'found-many' : 'found', { count: found.length, most: MOST_FOUND });
    refill(this.list, this.heads(), found.slice(0, MOST_FOUND).map((k) => this.row(k)));
  }

  // A group: its filled fields are shown above it while it is closed, so that no amount is hidden.
  group({ title, codes }, k) {
    const inputs = codes.map((code) => this.law.numbers.get(code));
    this.openGroups ??= new Set([0]);
    const inner = element('div', { class: 'rows' });
    const isFilled = (input) => this.state.households.some((amounts) => amounts[input] !== UNDEFINED) || this.state.faults.some((faults) => faults.has(input));
    const show = (isOpen) => refill(inner, (isOpen ? inputs : inputs.filter(isFilled)).map((input) => this.row(input)));
    const isOpen = this.openGroups.has(k);
    const count = element('span', { class: 'hint' }, ` ${inputs.length}`);
    const head = element('button', { type: 'button', class: 'group-head', 'aria-expanded': String(isOpen) }, title, count);
    head.addEventListener('click', () => {
      const opens = head.getAttribute('aria-expanded') === 'false';
      head.setAttribute('aria-expanded', String(opens));
      this.openGroups[opens ? 'add' : 'delete'](k);
      show(opens);
      this.mark();
    });
    show(isOpen);
    return element('div', { class: 'group' }, element('h3', {}, head), inner);
  }

  row(input) {
    const { code, type } = this.law.inputs[input];
    const pair = this.state.households.map((_, which) => this.field(input, which, type));
    const unit = type === 'truth' ? '' : (this.page.data.units[code] ?? '');
    const tail = element('span', { class: 'tail' }, element('code', {}, code), unit === '' ? null : element('span', { class: 'hint' }, ` ${unit}`));
    const title = [this.describe(code), ' ', tail];
    if (pair.length === 1) {
      const label = element('label', { for: pair[0].id }, title);
      return element('div', { class: type === 'truth' ? 'row check' : 'row', 'data-code': code }, label, pair[0].root, pair[0].fault);
    }
    const columns = pair.map((field) => element('div', {}, element('label', { for: field.id, class: 'unseen' }, field.name), field.root, field.fault));
    const kind = type === 'truth' ? 'row two check' : 'row two';
    const group = { class: kind, role: 'group', 'data-code': code, 'aria-label': `${this.describe(code)}, ${code}` };
    return element('div', group, element('div', { class: 'described' }, title), columns);
  }

  // A field of one household: a checkbox for what is 0 or 1, else a line to type in.
  field(input, which, type) {
    const id = `box-${which}-${this.law.inputs[input].code}`;
    const fault = element('p', { class: 'fault', id: `${id}-fault`, hidden: true });
    const common = { id, 'aria-describedby': `${id}-fault` };
    const root =
      type === 'truth'
        ? element('input', { ...common, type: 'checkbox', change: () => this.state.set(which, input, root.checked ? UNIT : UNDEFINED) })
        : element('input', {
            ...common,
            type: 'text',
            inputmode: type === 'whole' ? 'numeric' : 'decimal',
            autocomplete: 'off',
            input: () => this.take(which, input, root.value),
            change: () => this.settle(which, input, root),
          });
    const amount = this.state.households[which][input];
    if (type === 'truth') root.checked = amount === UNIT;
    else root.value = this.state.faults[which].get(input)?.text ?? typed(amount, this.page.language);
    this.fields.set(`${which} ${input}`, { root, fault });
    return { id, root, fault, name: say(which === 0 ? 'first-household' : 'second-household') };
  }

  // What was typed is taken, and spelled as amounts are.
  settle(which, input, root) {
    this.take(which, input, root.value);
    if (!this.state.faults[which].has(input)) root.value = typed(this.state.households[which][input], this.page.language);
  }

  take(which, input, text) {
    const { type } = this.law.inputs[input];
    if (text.trim() === '') return this.state.set(which, input, UNDEFINED);
    const { amount, fault } = readTyped(text, this.page.language);
    if (fault !== undefined) return this.state.fault(which, input, { text, what: fault });
    return isOfType(amount, type) ? this.state.set(which, input, amount) : this.state.fault(which, input, { text, what: 'fault-whole' });
  }

  // Shows the faults at their fields, and marks the boxes in which two households differ.
  mark() {
    for (const [key, { root, fault }] of this.fields) {
      const [which, input] = key.split(' ').map(Number);
      const found = this.state.faults[which]?.get(input);
      fault.hidden = found === undefined;
      fault.textContent = found === undefined ? '' : say(found.what);
      root.setAttribute('aria-invalid', String(found !== undefined));
      const [first, second = first] = this.state.households;
      root.closest('.row')?.classList.toggle('differs', first[input] !== second[input]);
    }
  }

  // Shows a box and goes to it.
  goTo(code, which = 0) {
    this.search.value = '';
    const at = this.page.data.groups.findIndex((group) => group.codes.includes(code));
    this.openGroups.add(at);
    this.fill();
    document.getElementById(`box-${which}-${code}`)?.focus();
  }
}
