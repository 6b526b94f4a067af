// The modules of web/ against the program: see tests/web/engine.
import { execFileSync } from 'node:child_process';
import { existsSync, mkdtempSync, readFileSync, readdirSync, rmSync, writeFileSync } from 'node:fs';
import { tmpdir } from 'node:os';
import { join } from 'node:path';
import { ARITY, GREATEST, OPERATORS, OVER, UNDEFINED, UNIT, writeAmount } from '../../web/amounts.js';
import { Refused, readCode } from '../../web/code.js';
import { answerLines, readHousehold } from '../../web/household.js';
import { spellingTests } from './spellings.mjs';

const ROWS = 'crates/rows/data/rows';
const SHARED = 'crates/rows/data/shared';
const COUNT = Number(process.argv[2]);
const BATCH = 2000;
const CHANGES = 250;
const MOST_SHOWN = 20;
const EXAMPLES = [
  ['first', '-'],
  ['chain', '-'],
  ['loops', '-'],
  ['impots', 'driver.mpp'],
  ['impot2023', 'driver.mpp'],
];

const room = mkdtempSync(join(tmpdir(), 'web-engine-'));
let passed = 0;
let failed = 0;

function judge(what, found, expected) {
  if (found === expected) {
    passed += 1;
    return;
  }
  failed += 1;
  if (failed <= MOST_SHOWN) console.log(`web engine: ${what}: ${JSON.stringify(found).slice(0, 300)} in place of ${JSON.stringify(expected).slice(0, 300)}`);
}

function put(name, text) {
  const path = join(room, name);
  writeFileSync(path, text, 'latin1');
  return path;
}

// What the program prints, and its status, as one text.
function program(...words) {
  try {
    return execFileSync(process.env.M_TAX, words, { encoding: 'latin1', maxBuffer: 2 ** 30, stdio: ['ignore', 'pipe', 'ignore'] }) + 'status 0';
  } catch (error) {
    if (error.status === null || error.status === undefined) throw error;
    return `${error.stdout}status ${error.status}`;
  }
}

// What the modules say of a code file and a household, in the same form.
function modules(code, household) {
  try {
    const read = readCode(code);
    const { text, status } = answerLines(read, readHousehold(household, read.inputs));
    return `${text}status ${status}`;
  } catch (error) {
    if (error instanceof Refused) return `${error.message}\nstatus 1`;
    throw error;
  }
}

// Numbers drawn from a seed, the same on each machine.
function drawing(seed) {
  let state = seed >>> 0;
  return (below) => {
    state = (Math.imul(state, 1664525) + 1013904223) >>> 0;
    return Math.floor((state / 2 ** 32) * below);
  };
}

// A file of a row; an empty text, and the status 0, are in no file.
function partOf(row, file, otherwise) {
  const path = join(ROWS, row, file);
  return existsSync(path) ? readFileSync(path, 'latin1') : otherwise;
}

function rows() {
  const words = (name) => partOf(name, 'words', '').trim().split(' ');
  const names = readdirSync(ROWS).filter((name) => !name.startsWith('survey_') && words(name)[0] === 'exec');
  let tried = 0;
  for (const name of names) {
    const [, code, household] = words(name).map((word) => [join(ROWS, name, word), join(SHARED, word)].find(existsSync));
    if (code === undefined || household === undefined || existsSync(join(ROWS, name, 'mishaps'))) continue;
    const text = partOf(name, 'text', '');
    if (text.startsWith('unreadable')) continue;
    const expected = `${text}status ${partOf(name, 'status', '0').trim()}`;
    judge(`row ${name}`, modules(readFileSync(code, 'latin1'), readFileSync(household, 'latin1')), expected);
    tried += 1;
  }
  judge('worked rows of exec', tried >= 115, true);
}

const EDGES = [
  UNDEFINED, OVER, 0n, 1n, -1n, 499_949n, 499_950n, -499_950n, 500_000n, -500_000n, 999_999n, UNIT, -UNIT, 2_999_999n, 3n * UNIT, -2_500_001n,
  3_333_333n, 10n ** 13n, GREATEST - 1n, GREATEST, -GREATEST, 3_162_277_660_168n, -3_162_277_660_169n,
];

function literal(value) {
  return value === UNDEFINED ? 'undef' : value === OVER ? 'over' : String(value);
}

// One code file with an operator at each choice of edges.
function codeOf(word) {
  const choices = ARITY[word] === 1 ? EDGES.map((a) => [a]) : EDGES.flatMap((a) => EDGES.map((b) => [a, b]));
  const all = ARITY[word] === 3 ? [...choices, ...choices.map(([a, b]) => [a, b, 7n])].map((args) => [...args, OVER].slice(0, 3)) : choices;
  const steps = all.flatMap((args, k) => [
    ...args.map((value, register) => `lit ${register} ${literal(value)}`),
    `do 3 ${word} ${args.map((_, register) => register).join(' ')}`,
    `out ${k} 3`,
  ]);
  return ['mcode 1', 'slots 0', ...all.map((_, k) => `output O${k}`), 'code', ...steps, 'end', ''].join('\n');
}

function operators() {
  const household = 'code,amount\n';
  for (const word of Object.keys(OPERATORS)) {
    const code = codeOf(word);
    const told = program('exec', put('operators.code', code), put('none.csv', household)).split('\n');
    modules(code, household).split('\n').forEach((line, k) => judge(`operator ${word}`, line, told[k]));
  }
}

const AMOUNTS = ['0', '1', '-1', '0.5', '1000', '12000', '33333', '33333.33', '65000.5', '250001', '1000000', '9999999999999.999999', '10000000000000'];

function amountFor(type, draw) {
  if (type === 'truth') return String(draw(2));
  if (type === 'whole') return String(draw(5) === 0 ? draw(40) - 4 : draw(4));
  return draw(3) === 0 ? AMOUNTS[draw(AMOUNTS.length)] : writeAmount(BigInt(draw(120_000)) * UNIT + BigInt(draw(3) === 0 ? draw(1_000_000) : 0));
}

// A table of drawn households, and the text of each one's file.
function drawnTable(inputs, count, draw) {
  const columns = inputs.length > 12 ? 12 : inputs.length;
  const households = Array.from({ length: count }, () => {
    const chosen = new Map();
    for (let k = 0; k < columns; k += 1) {
      const input = inputs[draw(inputs.length)];
      if (draw(2) === 0) chosen.set(input.code, amountFor(input.type, draw));
    }
    return chosen;
  });
  const header = ['name', ...inputs.map((input) => input.code)].join(',');
  const lines = households.map((chosen, k) => [`h${k}`, ...inputs.map((input) => chosen.get(input.code) ?? '')].join(','));
  return { table: [header, ...lines, ''].join('\n'), households };
}

function householdText(chosen) {
  return 'code,amount\n' + [...chosen].map(([code, amount]) => `${code},${amount}\n`).join('');
}

function example(name, driver, seed) {
  const folder = `examples/${name}`;
  const words = [`${folder}/rules.list`, driver === '-' ? '-' : `${folder}/${driver}`, '-'];
  const code = readCode(program('compile', ...words).replace(/status 0$/, ''));
  const draw = drawing(seed);
  for (let left = COUNT; left > 0; left -= BATCH) {
    const { table, households } = drawnTable(code.inputs, Math.min(left, BATCH), draw);
    const told = program('batch', ...words, put('table.csv', table)).split(/^household h[0-9]+\n/m).slice(1);
    judge(`households of ${name}`, told.length, households.length);
    households.forEach((chosen, k) => {
      const { text } = answerLines(code, readHousehold(householdText(chosen), code.inputs));
      judge(`household ${name} ${householdText(chosen)}`, text, told[k].replace(/status 0$/, ''));
    });
  }
}

// A text with one thing changed.
function changed(text, draw) {
  const at = draw(text.length);
  const lines = text.split('\n');
  const line = draw(lines.length - 1);
  const kinds = [
    () => text.slice(0, at),
    () => text.slice(0, at) + ' 0aX-\n'[draw(6)] + text.slice(at + 1),
    () => lines.filter((_, k) => k !== line).join('\n'),
    () => lines.flatMap((each, k) => (k === line ? [each, each] : [each])).join('\n'),
    () => lines.map((each, k) => (k === line ? (lines[k + 1] ?? '') : k === line + 1 ? lines[line] : each)).join('\n'),
    () => lines.map((each, k) => (k === line ? each.replace(/[0-9]+/, ['16', '4294967295', '4294967296', '00'][draw(4)]) : each)).join('\n'),
  ];
  return kinds[draw(kinds.length)]();
}

function changes() {
  const sources = [
    [readFileSync(join(ROWS, 'exec_check_fails/c.txt'), 'latin1'), 'code,amount\n1AJ,0\n', 2],
    [program('compile', 'examples/impot2023/rules.list', 'examples/impot2023/driver.mpp', '-').replace(/status 0$/, ''), 'code,amount\n1AJ,45000\n', 1],
  ];
  const draw = drawing(7);
  let refused = 0;
  for (const [text, household, part] of sources) {
    for (let k = 0; k < CHANGES / part; k += 1) {
      const code = changed(text, draw);
      const found = modules(code, household);
      refused += found.startsWith('refused code');
      judge('changed code file', found, program('exec', put('changed.code', code), put('household.csv', household)));
    }
  }
  judge('changed code files that are refused', refused > CHANGES / 2, true);
}

try {
  rows();
  operators();
  if (COUNT > 0) EXAMPLES.forEach(([name, driver], k) => example(name, driver, k + 1));
  changes();
  spellingTests(judge);
} finally {
  rmSync(room, { recursive: true });
}
console.log(`web engine: ${passed} passed, ${failed} failed`);
process.exit(failed === 0 ? 0 : 1);
