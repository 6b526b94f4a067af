// Households as files: records of code and amount, as docs/FORMATS.md has them, and the lines that the program prints for one.
import { OVER, UNDEFINED, UNIT, readAmount, writeAmount } from './amounts.js';
import { Refused } from './code.js';

const MOST_ROWS = 100_000;

// A field that begins at a place: its text, and the place after it.
function fieldAt(text, at) {
  if (text[at] !== '"') return plainField(text, at, '');
  let value = '';
  let from = at + 1;
  for (;;) {
    const quote = text.indexOf('"', from);
    if (quote < 0) return { value: value + text.slice(from), at: text.length };
    value += text.slice(from, quote);
    if (text[quote + 1] !== '"') return plainField(text, quote + 1, value);
    value += '"';
    from = quote + 2;
  }
}

function plainField(text, at, before) {
  let end = at;
  while (end < text.length && !',\r\n'.includes(text[end])) end += 1;
  return { value: before + text.slice(at, end), at: end };
}

// The records of a text, each a list of fields.
export function records(text) {
  const found = [];
  let at = text.startsWith('\u00ef\u00bb\u00bf') ? 3 : 0;
  while (at < text.length) {
    if (text[at] === '\r' || text[at] === '\n') {
      at += 1;
      continue;
    }
    const fields = [];
    for (;;) {
      const field = fieldAt(text, at);
      fields.push(field.value);
      at = field.at;
      if (text[at] !== ',') break;
      at += 1;
    }
    found.push(fields);
  }
  return found;
}

// Whether an input of a type may have an amount.
export function isOfType(amount, type) {
  if (type === 'truth') return amount === 0n || amount === UNIT;
  return type !== 'whole' || amount % UNIT === 0n;
}

// The amounts of a household file (a text of one character a byte) by the numbers of a program's inputs.
export function readHousehold(text, inputs) {
  const [header = [], ...rows] = records(text);
  if (header.length !== 2 || header[0] !== 'code' || header[1] !== 'amount') throw new Refused('refused household: bad header');
  const numbers = new Map(inputs.map((input, k) => [input.code, k]));
  const amounts = inputs.map(() => UNDEFINED);
  rows.forEach((row, k) => {
    if (k >= MOST_ROWS) throw new Refused('refused household: too many rows');
    const fault = (what) => new Refused(`refused household line ${k + 2}: ${what}`);
    if (row.length !== 2) throw fault('bad row');
    const input = numbers.get(row[0]);
    if (input === undefined) throw fault('unknown code');
    const amount = readAmount(row[1]);
    if (amount === null || amount === OVER) throw fault('bad amount');
    if (!isOfType(amount, inputs[input].type)) throw fault('not of its type');
    if (amounts[input] !== UNDEFINED) throw fault('code twice');
    amounts[input] = amount;
  });
  return amounts;
}

// The file of a household.
export function writeHousehold(amounts, inputs) {
  const rows = inputs.flatMap((input, k) => (amounts[k] === UNDEFINED ? [] : [`${input.code},${writeAmount(amounts[k])}\n`]));
  return 'code,amount\n' + rows.join('');
}

function labelLines(word, label) {
  return `${word} ${label.verification} ${label.error} ${label.kind}\n${label.text}\n`;
}

function stopLines({ label, isOver }) {
  if ('driver' in label) return `over driver line ${label.driver}\n`;
  return isOver ? `over verification ${label.verification} ${label.error}\n` : labelLines('failed', label);
}

export function valueLine(name, value) {
  if (value === UNDEFINED) return `${name} undefined\n`;
  return value === OVER ? `${name} over\n` : `${name} = ${writeAmount(value)}\n`;
}

// What `exec` prints for amounts, and its status.
export function answerLines(program, amounts) {
  const values = program.run(amounts);
  const stop = program.stop(values);
  if (stop !== null) return { text: stopLines(stop), status: 6 };
  const notes = program.notes(values).map((label) => labelLines('noted', label));
  return { text: notes.concat(program.named(values).map(({ name, value }) => valueLine(name, value))).join(''), status: 0 };
}
