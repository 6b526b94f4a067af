// The households of the page: the first one, and the second one where two are compared. A household is the amounts of the inputs; what was typed and isn't an
// amount is kept apart, as a fault of its box.
import { OVER, UNDEFINED, readAmount, writeAmount } from './amounts.js';
import { isOfType } from './household.js';

export class State {
  constructor(inputs) {
    Object.assign(this, { inputs, listeners: [], compared: 'none' });
    this.households = [this.empty()];
    this.faults = [new Map(), new Map()];
  }

  empty() {
    return this.inputs.map(() => UNDEFINED);
  }

  // Calls the listener at each change; `what` is 'amounts', or 'households' where fields must be filled again.
  listen(listener) {
    this.listeners.push(listener);
  }

  notify(what) {
    for (const listener of this.listeners) listener(what);
  }

  set(which, input, amount) {
    this.faults[which].delete(input);
    this.households[which][input] = amount;
    this.notify('amounts');
  }

  fault(which, input, what) {
    this.faults[which].set(input, what);
    this.notify('amounts');
  }

  replace(which, amounts) {
    this.households[which] = amounts;
    this.faults[which].clear();
    this.notify('households');
  }

  // 'none', 'household' or 'reform'. The second household begins as a copy of the first.
  compare(what) {
    this.compared = what;
    this.faults[1].clear();
    this.households = what === 'household' ? [this.households[0], this.households[1] ?? this.households[0].slice()] : [this.households[0]];
    this.notify('households');
  }

  hasFaults() {
    return this.faults.some((faults) => faults.size > 0);
  }

  // The households as written after # in an address: codes with amounts, the second household after a stroke.
  written() {
    const one = (amounts) => this.inputs.flatMap(({ code }, k) => (amounts[k] === UNDEFINED ? [] : [`${code}=${writeAmount(amounts[k])}`])).join('&');
    return this.households.map(one).join('/');
  }

  // Takes households from an address; returns whether they can be parsed. If they can't, nothing changes.
  read(text) {
    const parts = text.split('/');
    const read = parts.map((part) => this.readOne(part));
    if (parts.length > 2 || read.includes(null)) return false;
    this.compared = read.length === 2 ? 'household' : 'none';
    this.households = read;
    this.faults.forEach((faults) => faults.clear());
    return true;
  }

  readOne(text) {
    const amounts = this.empty();
    for (const pair of text === '' ? [] : text.split('&')) {
      const [code, written = ''] = pair.split('=');
      const input = this.inputs.findIndex((each) => each.code === code);
      const amount = readAmount(written);
      const isWrong = input < 0 || amounts[input] !== UNDEFINED || amount === null || amount === OVER;
      if (isWrong || !isOfType(amount, this.inputs[input].type)) return null;
      amounts[input] = amount;
    }
    return amounts;
  }
}
