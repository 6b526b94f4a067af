// The rules of the page: their two programs, what is declared, and the answers for amounts.
import { UNDEFINED } from './amounts.js';
import { readCode } from './code.js';

// The bytes of a rule file's text: UTF-8 where they are that, else Latin-1.
export function decoded(bytes) {
  try {
    return new TextDecoder('utf-8', { fatal: true }).decode(Uint8Array.from(bytes, (character) => character.charCodeAt(0)));
  } catch {
    return bytes;
  }
}

export class Law {
  constructor(data, name) {
    Object.assign(this, { data, name, program: readCode(data.code), all: null, kept: new Map() });
    this.inputs = this.program.inputs;
    this.numbers = new Map(this.inputs.map((input, k) => [input.code, k]));
    this.places = new Map(data.cells.map(([cell], k) => [cell, k]));
    this.codes = new Map();
    for (const [variable, declared] of Object.entries(data.variables)) if (declared[4]) this.codes.set(declared[4], variable);
  }

  // What is declared of a variable, of which a cell may be one.
  declared(cell) {
    const found = this.data.variables[cell.split('[')[0]] ?? ['calculee'];
    const [kind, description = '', place = 0, line = 0, code = null, type = '', number = '', attributes = [], comments = []] = found;
    return { kind, code, description, type, number, attributes, file: this.data.places[place]?.[0] ?? '', line, comments };
  }

  description(cell) {
    return this.declared(cell).description;
  }

  // The formula of a cell, or null: its text, place and comments, and its tree.
  formula(cell) {
    const [, number, tree] = this.data.cells[this.places.get(cell)] ?? [];
    if (number === undefined) return null;
    const [text, place, line, rule, comments = []] = this.data.formulas[number];
    const [file, heading] = this.data.places[place];
    return { text, file, line, rule, comments: heading === '' ? comments : [heading, ...comments], tree };
  }

  // What the rules with the driver give: a stop or none, the notes, and the requested values.
  answer(amounts) {
    const values = this.program.run(amounts);
    return { values, stop: this.program.stop(values), notes: this.program.notes(values), named: this.program.named(values) };
  }

  // The codes of the inputs on which the check depends that stopped a run.
  boxesOf(values, stop) {
    const check = this.program.checks.find(({ label, condition }) => this.program.labels[label] === stop.label && values[condition] !== 0n);
    return check === undefined ? [] : this.program.inputsOf(check.condition).map((input) => this.inputs[input].code);
  }

  // The values of all cells and parts by one call of the rules, where some inputs are hidden.
  cells(amounts, hidden = []) {
    if (this.data.whole === '') return null;
    this.all ??= readCode(this.data.whole);
    const key = JSON.stringify([hidden, amounts.map((amount) => (amount === UNDEFINED ? '' : String(amount)))]);
    if (!this.kept.has(key)) {
      if (this.kept.size > 8) this.kept.clear();
      const given = amounts.map((amount, k) => (hidden.includes(this.inputs[k].code) ? UNDEFINED : amount));
      this.kept.set(key, this.all.named(this.all.run(given)).map(({ value }) => value));
    }
    return this.kept.get(key);
  }
}
