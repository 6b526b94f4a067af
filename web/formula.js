// Formulas as they are shown: with names, with figures, and which branch, cell and terms a value was taken from. Nothing is computed here: each inner term is
// a part, whose value the code file of all cells gives.
import { OVER, UNDEFINED, UNIT, readAmount } from './amounts.js';
import { spell, spellValue } from './spelling.js';
import { say } from './texts.js';

const LEVELS = { ou: 1, et: 2, non: 3, '=': 4, '!=': 4, '<': 4, '<=': 4, '>': 4, '>=': 4, dans: 4, '+': 5, '*': 6, neg: 7 };
const SIGNS = { '-': '−', '*': '×', '!=': '≠', '<=': '≤', '>=': '≥' };
const PLAIN = 8;
const SHORT_TERMS = 3;
const SHORT_TEXT = 40;

// The formula of a cell over the values of one household.
export class Shown {
  constructor(law, values, language, cell) {
    Object.assign(this, { law, values, language, cell });
  }

  // The value of a tree. That of the whole formula is the cell's own.
  value(tree) {
    if (typeof tree === 'string') return readAmount(tree);
    if (typeof tree === 'number') return this.values[tree];
    return this.values[tree[1] === null ? this.cell : this.law.data.cells.length + tree[1]];
  }

  // The cell that a read of a table takes: its number, or null where the index is no cell of it.
  taken([, , table, index]) {
    const at = this.value(index);
    if (at === UNDEFINED || at === OVER) return null;
    return this.law.places.get(`${table}[${at / UNIT}]`) ?? null;
  }

  // The branch of a choice that was taken: its place in the tree, or null.
  branch([, , condition]) {
    const value = this.value(condition);
    if (value === UNDEFINED || value === OVER) return null;
    return value === 0n ? 4 : 3;
  }

  // A tree as text, with names or with figures. Of a choice the figures are those of the branch that was taken, of a sum those of its terms.
  text(tree, withFigures, outer = 0) {
    if (typeof tree === 'string') return spell(readAmount(tree), this.language);
    if (typeof tree === 'number') return withFigures ? this.figure(this.values[tree], outer) : this.law.data.cells[tree][0];
    const level = this.levelOf(tree, withFigures);
    const text = this.operator(tree, withFigures, level, outer);
    return level <= outer && level < PLAIN ? `(${text})` : text;
  }

  // A figure, in brackets if it is negative and follows a sign.
  figure(value, outer) {
    const text = spellValue(value, this.language);
    return outer >= LEVELS['+'] && value !== OVER && value !== UNDEFINED && value < 0n ? `(${text})` : text;
  }

  levelOf(tree, withFigures) {
    if (tree[0] === 'somme') return tree.length > 3 && (withFigures || this.isShort(tree.slice(2))) ? LEVELS['+'] : PLAIN;
    return LEVELS[tree[0]] ?? PLAIN;
  }

  operator(tree, withFigures, level, outer) {
    const [sign, , ...rest] = tree;
    const part = (each, within = level) => this.text(each, withFigures, within);
    if (sign === '[]') return this.read(tree, withFigures, outer);
    if (sign === 'si') return this.choice(tree, withFigures, outer);
    if (sign === 'somme') return this.sum(rest, withFigures, level);
    if (sign === '..') return `${spell(readAmount(rest[0]), this.language)}..${spell(readAmount(rest[1]), this.language)}`;
    if (sign === 'dans') return `${part(rest[0])} ${say('sign-dans')} (${rest.slice(1).map((each) => part(each, 0)).join(say('separator'))})`;
    if (sign === 'neg') return `−${part(rest[0])}`;
    if (sign === 'non') return `${say('sign-non')} ${part(rest[0], LEVELS.non - 1)}`;
    if (['+', '*', 'et', 'ou'].includes(sign)) return this.chain(rest, withFigures, level);
    if (sign in LEVELS) return `${part(rest[0])} ${SIGNS[sign] ?? sign} ${part(rest[1])}`;
    return `${sign === '?' ? '' : sign}(${rest.map((each) => part(each, 0)).join(say('separator'))})`;
  }

  // The first operand may be of the same level; one that follows a sign is then in brackets.
  chain(rest, withFigures, level) {
    const spelled = (sign) => (sign === 'et' || sign === 'ou' ? say(`sign-${sign}`) : (SIGNS[sign] ?? sign));
    return rest.map((each, k) => (k % 2 === 1 ? spelled(each) : this.text(each, withFigures, k === 0 ? level - 1 : level))).join(' ');
  }

  read(tree, withFigures, outer) {
    if (this.isFixed(tree[3])) {
      const cell = this.taken(tree);
      if (cell !== null) return this.text(cell, withFigures, outer);
    }
    return withFigures ? this.figure(this.value(tree), outer) : `${tree[2]}[${this.text(tree[3], false)}]`;
  }

  choice(tree, withFigures, outer) {
    if (withFigures) {
      const at = this.branch(tree);
      return at === null || tree[at] === undefined ? spellValue(UNDEFINED, this.language) : this.text(tree[at], true, outer);
    }
    const words = { condition: this.text(tree[2], false), first: this.text(tree[3], false), second: tree[4] === undefined ? '' : this.text(tree[4], false) };
    const text = say(tree[4] === undefined ? 'choice-of-one' : 'choice', words);
    return outer > 0 ? `(${text})` : text;
  }

  // A short sum is written out. Of a longer one the figures are the values of its terms, which are shown one by one.
  sum(terms, withFigures, level) {
    if (this.isShort(terms)) return terms.map(([, tree], k) => this.text(tree, withFigures, k === 0 ? level - 1 : level)).join(' + ');
    if (!withFigures) return say('sum-of', { count: terms.length });
    return terms.map(([, tree]) => this.figure(this.value(tree), LEVELS['+'])).join(' + ');
  }

  isShort(terms) {
    return terms.length <= SHORT_TERMS && terms.every(([, tree]) => this.text(tree, false).length <= SHORT_TEXT);
  }

  // Whether an index has no cell in it: it is the same for each household.
  isFixed(tree) {
    if (!Array.isArray(tree)) return typeof tree === 'string';
    const [sign, , ...rest] = tree;
    return sign !== '[]' && rest.every((each) => this.isFixed(sign === 'somme' ? each[1] : each));
  }

  // What a value was taken from, along the branches that were taken: choices, reads of tables, terms of sums, and the cells in the order in which they are met.
  path(tree) {
    const found = { choices: [], reads: [], terms: [], cells: new Set() };
    this.walk(tree, found);
    return { ...found, cells: [...found.cells] };
  }

  walk(tree, found) {
    if (typeof tree === 'number') found.cells.add(tree);
    if (!Array.isArray(tree)) return;
    const [sign, , ...rest] = tree;
    if (sign === '[]') this.walkRead(tree, found);
    else if (sign === 'si') this.walkChoice(tree, found);
    else if (sign === 'somme') this.walkSum(rest, found);
    else for (const each of rest) if (typeof each !== 'string') this.walk(each, found);
  }

  walkRead(tree, found) {
    const cell = this.taken(tree);
    if (!this.isFixed(tree[3])) {
      found.reads.push({ read: tree, index: tree[3], at: this.value(tree[3]), cell });
      this.walk(tree[3], found);
    }
    if (cell !== null) found.cells.add(cell);
  }

  walkChoice(tree, found) {
    const at = this.branch(tree);
    found.choices.push({ condition: tree[2], at, value: this.value(tree[2]) });
    this.walk(tree[2], found);
    if (at !== null && tree[at] !== undefined) this.walk(tree[at], found);
  }

  walkSum(terms, found) {
    const isShort = this.isShort(terms);
    for (const [label, tree] of terms) {
      if (!isShort) found.terms.push({ label, tree, value: this.value(tree) });
      this.walk(tree, found);
    }
  }
}
