// The page: reads what the generator put into it, and puts the sections together.
import { Compare, casesOf } from './compare.js';
import { Curves } from './curves.js';
import { element, refill } from './dom.js';
import { Form } from './form.js';
import { Keep } from './keep.js';
import { Law } from './laws.js';
import { Paper } from './paper.js';
import { Result } from './result.js';
import { State } from './state.js';
import { say, speak } from './texts.js';
import { Why } from './why.js';

class Page {
  constructor(data) {
    Object.assign(this, { data, language: data.language, main: data.main });
    this.laws = data.laws.map((law, k) => new Law(law, say(k === 0 ? 'rules' : 'reform')));
    [this.law] = this.laws;
    this.state = new State(this.law.inputs);
    this.unreadable = element('p', { class: 'message stop', id: 'unreadable', role: 'alert', hidden: this.readAddress() }, say('address-unreadable'));
    this.cases = casesOf(this.state, this.laws);
    this.form = new Form(this);
    this.why = new Why(this);
    this.result = new Result(this);
    this.compare = new Compare(this);
    this.curves = new Curves(this);
    this.keep = new Keep(this);
    this.paper = new Paper(this);
    this.state.listen(() => this.follow());
    window.addEventListener('hashchange', () => this.takeAddress());
  }

  // Takes the households of the address; returns whether they can be parsed.
  readAddress() {
    try {
      return this.state.read(decodeURIComponent(location.hash.slice(1)));
    } catch (error) {
      if (error instanceof URIError) return false;
      throw error;
    }
  }

  // Another address of the same page was opened.
  takeAddress() {
    this.unreadable.hidden = this.readAddress();
    this.state.notify('households');
  }

  unit(cell) {
    return this.data.units[cell] ?? this.data.units[cell.split('[')[0]] ?? this.data.units[this.law.declared(cell).code] ?? '';
  }

  describe(cell) {
    return this.law.description(cell) || this.laws.at(-1).description(cell);
  }

  follow() {
    this.cases = casesOf(this.state, this.laws);
    this.result.fill();
  }

  draw(root) {
    refill(
      root,
      this.unreadable,
      element('div', { class: 'columns' }, element('div', {}, this.compare.root, this.form.root), this.result.root),
      this.curves.root,
      this.keep.root,
      this.paper.root,
    );
    this.follow();
  }
}

const data = JSON.parse(document.getElementById('data').textContent);
speak(data.sentences);
new Page(data).draw(document.getElementById('page'));
