// Amounts as people read and write them, in French (30 000,50) and in English (30,000.50).
import { GREATEST, OVER, UNDEFINED, UNIT, readAmount, writeAmount } from './amounts.js';
import { say } from './texts.js';

const FORMS = {
  fr: { decimal: ',', group: '\u202f', typed: /^(-?)(\d{1,3}(?: \d{3})+|\d+)(?:([.,])(\d+))?$/ },
  en: { decimal: '.', group: ',', typed: /^(-?)(\d{1,3}(?:[ ,]\d{3})+|\d+)(?:(\.)(\d+))?$/ },
};
const MOST_DECIMALS = 6;

// The amount that was typed, as { amount }, or { fault } with the key of a sentence. A sign before three digits might group or end them, so it isn't taken:
// 30.000 may be meant as thirty or as thirty thousand.
export function readTyped(text, language) {
  const plain = text.trim().replace(/\s*€$/, '').replace(/[\s\u00a0\u202f]/g, ' ').replace('\u2212', '-');
  const match = FORMS[language].typed.exec(plain);
  if (match === null) return { fault: 'fault-amount' };
  const [, sign, units, , decimals = ''] = match;
  if (decimals.length === 3 && /^[1-9]\d{0,2}$/.test(units)) return { fault: 'fault-thousands' };
  if (decimals.length > MOST_DECIMALS) return { fault: 'fault-decimals' };
  const amount = readAmount(sign + units.replace(/[ ,]/g, '') + (decimals === '' ? '' : `.${decimals}`));
  return amount === OVER ? { fault: 'fault-great' } : { amount };
}

function grouped(digits, group) {
  return digits.replace(/\B(?=(\d{3})+$)/g, group);
}

// An amount in the language's form; it has at least `least` decimals, if it has any.
export function spell(amount, language, least = 0) {
  const { decimal, group } = FORMS[language];
  const [units, decimals = ''] = writeAmount(amount < 0n ? -amount : amount).split('.');
  const tail = decimals === '' ? '' : decimal + decimals.padEnd(least, '0');
  return (amount < 0n ? '\u2212' : '') + grouped(units, group) + tail;
}

// A value with its unit, or the words for none and for too much.
export function spellValue(value, language, unit = '') {
  if (value === UNDEFINED) return say('undefined');
  if (value === OVER) return say('over');
  if (unit === '%') return value * 100n > GREATEST * 100n ? say('over') : `${spell(value * 100n, language)}\u00a0%`;
  const plain = spell(value, language, unit === '€' ? 2 : 0);
  return unit === '' ? plain : `${plain}\u00a0${unit}`;
}

// What is typed for an amount in a field.
export function typed(amount, language) {
  return amount === UNDEFINED ? '' : spell(amount, language, 2).replace('\u2212', '-');
}

// A number of the picture or of a rate, with few decimals.
export function spellNumber(number, language, decimals) {
  return number.toLocaleString(language === 'fr' ? 'fr-FR' : 'en-GB', { maximumFractionDigits: decimals, minimumFractionDigits: 0 });
}

export function units(number) {
  return BigInt(number) * UNIT;
}
