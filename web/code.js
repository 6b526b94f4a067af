// Code files, as docs/CODE.md has them: the parser with its first fault, and the evaluation for the amounts of a household.
// A file is a text of one character a byte. Registers and slots are gone once it is read: each value that an instruction makes has a number of its own.
import { ARITY, GREATEST, OPERATORS, OVER, UNDEFINED, UNIT } from './amounts.js';

const REGISTERS = 16;
const MOST_COUNTED = 2 ** 32;
const MOST_CELL = 1023;
const WHOLE = /^(?:0|[1-9][0-9]{0,9})$/;
const SIGNED = /^(?:0|-?[1-9][0-9]{0,19})$/;
const KINDS = ['anomalie', 'discordance', 'informative'];
const RESERVED = new Set(
  (
    'regle verif application enchaineur si alors sinon finsi erreur saisie calculee const tableau alias type pour un dans et ou non somme ' +
    'present positif positif_ou_nul null arr inf abs max min anomalie discordance informative X'
  ).split(' '),
);

// A file that isn't taken; its message is the line that the program prints.
export class Refused extends Error {}

class BadLine extends Error {}
class ReadBeforeWrite extends Error {}

function due(holds) {
  if (!holds) throw new BadLine();
}

// The number below a count that a word spells.
function number(word, count) {
  due(WHOLE.test(word) && Number(word) < count);
  return Number(word);
}

export function isCode(word) {
  return /^[A-Za-z0-9_]+$/.test(word) && /[^0-9]/.test(word) && !RESERVED.has(word);
}

function isName(word) {
  return isCode(word) && !/[a-z]/.test(word);
}

function isCell(word) {
  const match = /^([^[]*)(?:\[(0|[1-9][0-9]{0,3})\])?$/.exec(word);
  return match !== null && isName(match[1]) && Number(match[2] ?? 0) <= MOST_CELL;
}

function literal(word) {
  if (word === 'undef') return UNDEFINED;
  if (word === 'over') return OVER;
  due(SIGNED.test(word));
  const amount = BigInt(word);
  due(amount <= GREATEST && -amount <= GREATEST);
  return amount;
}

function labelOf(words) {
  if (words[0] === 'driver') {
    due(words.length === 2);
    return { driver: number(words[1], MOST_COUNTED) };
  }
  const [form, verification, error, kind, text] = words;
  due(words.length === 5 && form === 'verif' && /^[0-9]{1,9}$/.test(verification) && isName(error) && KINDS.includes(kind));
  due(/^(?:[0-9a-f]{2})+$/.test(text));
  return { verification, error, kind, text: text.replace(/../g, (digits) => String.fromCharCode(parseInt(digits, 16))) };
}

// A parsed code file: `inputs` are codes with types, `labels` those of checks, `outputs` a note's label or the name of a cell. A value is a literal, an
// input's amount (`takes` has pairs of the value and the input), or one that an operator makes of others (`steps`). `checks` and `results` name values.
export class Program {
  constructor() {
    Object.assign(this, { inputs: [], labels: [], outputs: [], literals: [], takes: [], steps: [], checks: [], results: [] });
  }

  // The values for amounts of the inputs, in the inputs' order.
  run(amounts) {
    const values = this.literals.slice();
    for (const [value, input] of this.takes) values[value] = amounts[input];
    return this.follow(this.steps, values);
  }

  // Does some steps again, in their order, over values that are changed in place.
  follow(steps, values) {
    for (const { apply, value, a, b, c } of steps) values[value] = apply(values[a], values[b], values[c]);
    return values;
  }

  // The steps whose values depend on an input.
  stepsOf(input) {
    const touched = new Set(this.takes.filter((take) => take[1] === input).map((take) => take[0]));
    return this.steps.filter(({ value, a, b, c }) => {
      const isTouched = touched.has(a) || touched.has(b) || touched.has(c);
      if (isTouched) touched.add(value);
      return isTouched;
    });
  }

  // The inputs on which a value depends, in their order.
  inputsOf(value) {
    const needed = new Set([value]);
    for (const step of [...this.steps].reverse()) if (needed.has(step.value)) [step.a, step.b, step.c].forEach((each) => needed.add(each));
    return [...new Set(this.takes.filter(([taken]) => needed.has(taken)).map(([, input]) => input))].sort((a, b) => a - b);
  }

  // The stop at which a run ends, or null: its label, and whether a condition was over.
  stop(values) {
    for (const { guard, condition, overOnly, label } of this.checks) {
      const value = values[condition];
      if (values[guard] !== UNIT || value === UNDEFINED || value === 0n) continue;
      if (value === OVER || !overOnly) return { label: this.labels[label], isOver: value === OVER };
    }
    return null;
  }

  // The notes of a run, and its named values in the order of the outputs.
  notes(values) {
    const isNoted = (output, k) => 'note' in output && typeof values[this.results[k]] === 'bigint' && values[this.results[k]] !== 0n;
    return this.outputs.filter(isNoted).map((output) => this.labels[output.note]);
  }

  named(values) {
    return this.outputs.flatMap((output, k) => ('name' in output ? [{ name: output.name, value: values[this.results[k]] }] : []));
  }
}

class Reader {
  constructor() {
    this.program = new Program();
    Object.assign(this, { slotCount: null, stage: 0, isEnded: false, registers: [], stored: new Map(), given: 0, codes: new Set() });
  }

  line(text) {
    const words = text.split(' ');
    due(!this.isEnded);
    if (this.stage === 5) return this.instruction(words);
    const stage = ['slots', 'input', 'label', 'note', 'output', 'code'].indexOf(words[0]);
    due(stage >= this.stage && (this.slotCount === null) === (stage === 0));
    this.stage = stage;
    return this[words[0]](words.slice(1));
  }

  slots(words) {
    due(words.length === 1);
    this.slotCount = number(words[0], MOST_COUNTED);
  }

  input(words) {
    const [code, type = ''] = words;
    due(words.length >= 1 && words.length <= 2 && (words.length === 1 || type === 'whole' || type === 'truth'));
    due(isCode(code) && !this.codes.has(code));
    this.codes.add(code);
    this.program.inputs.push({ code, type });
  }

  label(words) {
    this.program.labels.push(labelOf(words));
  }

  note(words) {
    due(words.length === 1);
    const label = number(words[0], this.program.labels.length);
    due('verification' in this.program.labels[label]);
    this.program.outputs.push({ note: label });
  }

  output(words) {
    due(words.length === 1 && isCell(words[0]));
    this.program.outputs.push({ name: words[0] });
  }

  code(words) {
    due(words.length === 0);
  }

  instruction(words) {
    const read = Object.hasOwn(READS, words[0]) ? READS[words[0]] : null;
    due(read !== null && read.lengths.includes(words.length));
    read.take.call(this, words);
  }

  // The number of a register, and the value in it.
  register(word) {
    return number(word, REGISTERS);
  }

  valueIn(register) {
    const value = this.registers[register];
    if (value === undefined) throw new ReadBeforeWrite();
    return value;
  }

  made(register, initial) {
    const value = this.program.literals.push(initial) - 1;
    this.registers[register] = value;
    return value;
  }

  check(words, overOnly) {
    const [guard, condition] = [this.register(words[1]), this.register(words[2])];
    const label = number(words[3], this.program.labels.length);
    this.program.checks.push({ guard: this.valueIn(guard), condition: this.valueIn(condition), overOnly, label });
  }

  operator([, target, word, ...words]) {
    const register = this.register(target);
    due(Object.hasOwn(OPERATORS, word) && ARITY[word] === words.length);
    const [a, b = a, c = a] = words.map((argument) => this.register(argument)).map((argument) => this.valueIn(argument));
    this.program.steps.push({ apply: OPERATORS[word], value: this.made(register, UNDEFINED), a, b, c });
  }

  end() {
    due(this.given === this.program.outputs.length);
    this.isEnded = true;
  }
}

// Each instruction: how many words it has, and how it is taken in. Its numbers are looked at before what it reads.
const READS = {
  in: {
    lengths: [3],
    take(words) {
      const [register, input] = [this.register(words[1]), number(words[2], this.program.inputs.length)];
      this.program.takes.push([this.made(register, UNDEFINED), input]);
    },
  },
  lit: {
    lengths: [3],
    take(words) {
      const register = this.register(words[1]);
      this.made(register, literal(words[2]));
    },
  },
  do: { lengths: [4, 5, 6], take: Reader.prototype.operator },
  st: {
    lengths: [3],
    take(words) {
      const [slot, register] = [number(words[1], this.slotCount), this.register(words[2])];
      this.stored.set(slot, this.valueIn(register));
    },
  },
  ld: {
    lengths: [3],
    take(words) {
      const [register, slot] = [this.register(words[1]), number(words[2], this.slotCount)];
      if (!this.stored.has(slot)) throw new ReadBeforeWrite();
      this.registers[register] = this.stored.get(slot);
    },
  },
  ck: { lengths: [4], take(words) { this.check(words, false); } },
  co: { lengths: [4], take(words) { this.check(words, true); } },
  out: {
    lengths: [3],
    take(words) {
      const [output, register] = [number(words[1], this.program.outputs.length), this.register(words[2])];
      due(this.program.results[output] === undefined);
      this.program.results[output] = this.valueIn(register);
      this.given += 1;
    },
  },
  end: { lengths: [1], take: Reader.prototype.end },
};

// The program of a code file. The first line with a fault decides; text after the last line feed is no line.
export function readCode(text) {
  const lines = text.split('\n');
  const rest = lines.pop();
  if (lines[0] !== 'mcode 1') throw new Refused('refused code: bad header');
  const reader = new Reader();
  const fault = (line, what) => new Refused(`refused code line ${line}: ${what}`);
  for (let k = 1; k < lines.length; k += 1) {
    try {
      reader.line(lines[k]);
    } catch (error) {
      if (error instanceof BadLine) throw fault(k + 1, 'bad line');
      if (error instanceof ReadBeforeWrite) throw fault(k + 1, 'read before write');
      throw error;
    }
  }
  if (!reader.isEnded || rest !== '') throw fault(lines.length + 1, 'bad line');
  return reader.program;
}
