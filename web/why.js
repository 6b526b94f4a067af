// Why a value is what it is: the formula with its figures, what was taken, and below it what the formula reads, down to boxes and constants.
import { OPERATORS, UNDEFINED } from './amounts.js';
import { element } from './dom.js';
import { Shown } from './formula.js';
import { spellValue } from './spelling.js';
import { say } from './texts.js';

const MOST_OPENED = 200;

export class Why {
  constructor(page) {
    Object.assign(this, { page, open: new Set(), fills: new WeakMap() });
  }

  // The value of a cell in a case, by one call of the rules where some inputs are hidden.
  value(each, cell, hidden) {
    const place = each.law.places.get(cell);
    return place === undefined ? UNDEFINED : each.law.cells(each.amounts, hidden)[place];
  }

  spell(cell, value) {
    return spellValue(value, this.page.language, this.page.unit(cell));
  }

  // The heading of a step: what it is, its name, and its value in each case.
  heading(cell, values) {
    const description = this.page.describe(cell);
    return [
      element('span', { class: 'what' }, description, description === '' ? null : ' ', element('code', {}, cell)),
      values.map((value) => element('span', { class: 'amount' }, this.spell(cell, value))),
      values.length > 1 ? element('span', { class: values[0] === values[1] ? 'amount' : 'amount mark' }, this.difference(cell, values)) : null,
    ];
  }

  // What a second value has more than the first, with its sign; nothing where they are the same.
  difference(cell, [first, second]) {
    if (first === second) return '=';
    if (typeof first !== 'bigint' || typeof second !== 'bigint') return say('differs');
    const more = OPERATORS.sub(second, first);
    return `${typeof more === 'bigint' && more > 0n ? '+' : ''}${this.spell(cell, more)}`;
  }

  // What unfolds: its body is made when it is opened, and stays open while figures change.
  unfolding(heading, path, body, differs, cell) {
    const details = element('details', { class: this.kind(differs), 'data-cell': cell }, element('summary', {}, heading));
    const fill = () => {
      details.open = true;
      if (details.childElementCount === 1) details.append(element('div', { class: 'body' }, body()));
    };
    this.fills.set(details, fill);
    if (this.open.has(path)) fill();
    details.addEventListener('toggle', () => {
      this.open[details.open ? 'add' : 'delete'](path);
      if (details.open) fill();
    });
    return details;
  }

  kind(differs) {
    return ['step', ...(this.page.cases.length > 1 ? ['two'] : []), ...(differs ? ['differs'] : [])].join(' ');
  }

  // A cell as a step, with all below it.
  step(cell, hidden, path) {
    const values = this.page.cases.map((each) => this.value(each, cell, hidden));
    const heading = this.heading(cell, values);
    const differs = values.length > 1 && values[0] !== values[1];
    if (this.page.cases.every(({ law }) => law.formula(cell) === null)) {
      return element('div', { class: `${this.kind(differs)} leaf` }, heading, element('p', { class: 'place' }, this.role(cell, values, hidden)));
    }
    return this.unfolding(heading, path, () => this.body(cell, hidden, path), differs, cell);
  }

  // What sets a cell that has no formula.
  role(cell, values, hidden) {
    const { kind, code, file, line, comments } = this.page.law.declared(cell);
    const place = say('place', { file, line });
    if (kind === 'const') return [say('a-constant'), ...comments, place].join(' · ');
    if (kind !== 'saisie') return say('no-rule');
    const key = hidden.includes(code) ? 'box-hidden' : values.every((value) => value === UNDEFINED) ? 'box-empty' : 'box-given';
    return `${say(key, { code })} · ${place}`;
  }

  body(cell, hidden, path, more = null) {
    const found = this.page.cases.map((each) => this.reason(each, cell, hidden));
    const below = new Set(found.flatMap((reason) => reason.cells));
    return [
      this.lines(found),
      more,
      [...below].map((read) => this.step(read, hidden, `${path}/${read}`)),
    ];
  }

  // The lines of each case. What both have is shown once: the formula, its place, and equal figures.
  lines(found) {
    const drawn = (lines) => lines.map(({ kind, text }) => element('p', { class: kind }, text));
    const [first, second] = found;
    if (second === undefined) return drawn([...first.head, ...first.lines, ...first.foot]);
    const isSame = (part) => JSON.stringify(first[part]) === JSON.stringify(second[part]);
    if (isSame('head') && isSame('lines') && isSame('foot')) return this.lines([first]);
    const isOneFormula = isSame('head') && isSame('foot');
    const own = (reason) => (isOneFormula ? reason.lines : [...reason.head, ...reason.lines, ...reason.foot]);
    const column = (reason, k) => element('div', { class: 'case' }, element('p', { class: 'which' }, this.page.cases[k].name), drawn(own(reason)));
    return [isOneFormula ? drawn(first.head) : null, element('div', { class: 'cases' }, found.map(column)), isOneFormula ? drawn(first.foot) : null];
  }

  // How a cell has its value in a case: lines, and the names of the cells that it was taken from.
  reason(each, cell, hidden) {
    const formula = each.law.formula(cell);
    if (formula === null) return { head: [], lines: [], foot: [{ kind: 'place', text: say('no-rule') }], cells: [] };
    const shown = new Shown(each.law, each.law.cells(each.amounts, hidden), this.page.language, each.law.places.get(cell));
    const { choices, reads, terms, cells } = shown.path(formula.tree);
    return {
      head: [{ kind: 'formula', text: formula.tree[0] === '?' ? formula.text : `${cell} = ${shown.text(formula.tree, false)}` }],
      lines: [
        ...choices.map((choice) => ({ kind: 'taken', text: this.choice(shown, choice) })),
        ...reads.map((read) => ({ kind: 'taken', text: this.read(shown, read) })),
        ...terms.map((term) => ({ kind: 'term', text: this.term(shown, term) })),
        ...this.figures(shown, formula.tree, cell),
      ],
      foot: [{ kind: 'place', text: say('place-rule', formula) }, ...formula.comments.map((text) => ({ kind: 'comment', text }))],
      cells: cells.map((place) => each.law.data.cells[place][0]),
    };
  }

  // The formula with figures, and its value.
  figures(shown, tree, cell) {
    if (tree[0] === '?') return [];
    const value = shown.values[shown.cell];
    const text = shown.text(tree, true);
    const result = this.spell(cell, value);
    return [{ kind: 'figures', text: text === spellValue(value, this.page.language) ? `= ${result}` : `= ${text} = ${result}` }];
  }

  choice(shown, { condition, at, value }) {
    const names = shown.text(condition, false);
    const figures = shown.text(condition, true);
    const key = at === null ? 'condition-none' : at === 3 ? 'condition-true' : 'condition-false';
    const isFlag = Array.isArray(condition) && figures !== spellValue(value, shown.language);
    return say(key, { condition: names, figures: isFlag ? ` (${figures})` : ` (${spellValue(value, shown.language)})` });
  }

  read(shown, { read, index, at, cell }) {
    const values = { table: shown.text(read, false), index: spellValue(at, shown.language), figures: shown.text(index, true) };
    if (cell === null) return say('read-none', values);
    return say('read-cell', { ...values, cell: shown.law.data.cells[cell][0] });
  }

  term(shown, { label, tree, value }) {
    const [names, figures, result] = [shown.text(tree, false), shown.text(tree, true), spellValue(value, shown.language)];
    return `${label}\u2002:\u2002${names}${figures === result ? '' : ` = ${figures}`} = ${result}`;
  }

  // Opens what differs between the cases, from the requested values down to what was declared, each cell once.
  openDifferences(root) {
    const opened = new Set();
    for (;;) {
      const closed = [...root.querySelectorAll('details.differs:not([open])')].find(({ dataset }) => !opened.has(dataset.cell));
      if (closed === undefined || opened.size >= MOST_OPENED) return;
      opened.add(closed.dataset.cell);
      this.fills.get(closed)();
    }
  }

  // A requested value. If a driver sets it, by which of its commands.
  requested(cell, values, path) {
    const isKnown = this.page.cases.every((each) => each.law.data.whole !== '');
    const heading = this.heading(cell, values);
    const differs = values.length > 1 && values[0] !== values[1];
    if (!isKnown) return this.unfolding(heading, path, () => element('p', {}, say('no-steps')), differs, cell);
    const isPlain = () => this.page.cases.every((each, k) => this.isOfOneCall(each, cell, values[k]));
    const body = () => (isPlain() ? this.bodyOf(cell, path) : this.originsOf(cell, path));
    return this.unfolding(heading, path, body, differs, cell);
  }

  bodyOf(cell, path) {
    const isLeaf = this.page.cases.every(({ law }) => law.formula(cell) === null);
    return isLeaf ? [this.received(cell), this.step(cell, [], `${path}/${cell}`)] : this.body(cell, [], path, this.received(cell));
  }

  // Whether the value is that of one call of the rules for the household as it is.
  isOfOneCall(each, cell, value) {
    const origins = each.law.data.origins[cell];
    const isCalled = origins === undefined || origins.length === 0 || (origins.length === 1 && origins[0].by === 'rules' && origins[0].hidden.length === 0);
    return isCalled && this.value(each, cell, []) === value;
  }

  received(cell) {
    const origins = this.page.law.data.origins[cell] ?? [];
    return origins.map(({ line, text }) => element('p', { class: 'place' }, say('by-call', { line, text })));
  }

  originsOf(cell, path) {
    const all = this.page.cases.map(({ law, name }) => ({ name, law, origins: law.data.origins[cell] ?? [] }));
    const isOne = all.length === 1 || JSON.stringify(all[0].origins) === JSON.stringify(all[1].origins);
    return (isOne ? all.slice(0, 1) : all).map(({ name, law, origins }) => [
      isOne ? null : element('p', { class: 'which' }, name),
      element('p', {}, say(origins.length === 0 ? 'driver-never' : 'by-driver')),
      element('ul', { class: 'origins' }, origins.map((origin, k) => this.origin(law, origin, `${path}/${k}`))),
    ]);
  }

  origin(law, { line, text, blocks, by, cell, hidden, below = [] }, path) {
    const within = blocks.map(([number, block]) => say('within', { line: number, text: block })).join(', ');
    return element(
      'li',
      {},
      element('p', {}, say('driver-line', { line }), ' ', element('code', {}, text), within === '' ? null : ` (${within})`),
      by === 'rules' ? this.called(law, cell, hidden, path) : null,
      below.length === 0 ? null : element('ul', { class: 'origins' }, below.map((origin, k) => this.origin(law, origin, `${path}/${k}`))),
    );
  }

  // What a call of the rules gives, within partitions.
  called(law, cell, hidden, path) {
    const sentence = element('p', { class: 'place' }, say(hidden.length === 0 ? 'call' : 'call-without', { cell, codes: hidden.join(', ') }));
    return law.data.pure ? [sentence, this.step(cell, hidden, `${path}/${cell}`)] : [sentence, element('p', {}, say('call-changed'))];
  }
}
