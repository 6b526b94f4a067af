// What the modules of web/ say of each household of a table, in the form of `m_tax batch`: node tests/web/table.mjs CODEFILE TABLE
import { readFileSync, writeSync } from 'node:fs';
import { readCode } from '../../web/code.js';
import { answerLines, readHousehold, records } from '../../web/household.js';

const [code, table] = process.argv.slice(2).map((path) => readFileSync(path, 'latin1'));
const program = readCode(code);
const [[, ...codes], ...rows] = records(table);
const answers = rows.map(([label, ...amounts]) => {
  const household = codes.flatMap((each, k) => (amounts[k] === '' ? [] : [`${each},${amounts[k]}\n`]));
  const { text } = answerLines(program, readHousehold(['code,amount\n', ...household].join(''), program.inputs));
  return `household ${label}\n${text}`;
});
const printed = Buffer.from(answers.join(''), 'latin1');
for (let at = 0; at < printed.length;) at += writeSync(1, printed, at);
