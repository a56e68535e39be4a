// The part of the page with the tests of a program: a teacher writes them, and pupils press Test.
import {casesIn, linesBefore} from './cases.mjs';
import {byId, make} from './dom.mjs';
import {Cancelled, Runner, faultText} from './programs.mjs';

const WANT = 'tests.want';
// The statuses of `a2lab test` after which it has judged the program: all cases passed, or one did not.
const JUDGED = [0, 6];

export class Tests {
  #runner = new Runner();

  /**
   * @param {() => {name: string, text: string}} programOf
   * @param {(asked: import('./runs.mjs').Asked) => void} stepThrough Runs a case again, to be gone through step by step.
   */
  constructor(programOf, stepThrough) {
    Object.assign(this, {programOf, stepThrough, area: byId('want'), verdict: byId('verdict')});
    byId('tests').onsubmit = event => { event.preventDefault(); this.run(); };
  }

  /** Another program is open: nothing of the one before is shown. The text of the tests is shown if there is none, so that one can be written. */
  forget() {
    this.#runner.cancel();
    byId('want-part').open = this.area.value === '';
    this.#say('', []);
  }

  /** Judges the program by its tests. */
  async run() {
    const {name, text} = this.programOf(), want = this.area.value;
    if (want.trim() === '') return this.#say('There are no tests yet. Write some below.', []);
    try {
      const {status, fault, stdout, stderr} = await this.#runner.run(['a2lab', 'test', '--format', 'json', WANT, name], {[WANT]: want, [name]: text});
      if (fault) this.#say(faultText(fault), [], false);
      else if (JUDGED.includes(status)) this.#judged(JSON.parse(stdout)[0], casesIn(want), {name, text});
      else this.#say('The tests themselves have an error.', [make('li', {}, make('pre', {class: 'explained'}, stderr.trimEnd()))], false);
    } catch (error) {
      if (!(error instanceof Cancelled)) this.#say(String(error.message ?? error), [], false);
    }
  }

  #judged({error, cases = []}, asked, program) {
    if (error !== undefined) return this.#say(`The program has an error, so it was not tested: ${error}`, [], false);
    const passed = cases.filter(it => it.passed).length, isGood = passed === cases.length;
    const count = `${passed} of ${cases.length} passed`;
    this.#say(isGood ? `${count}. Well done!` : `${count}.`, cases.map((it, at) => this.#item(it, asked[at], program)), isGood);
  }

  // What is shown of a case. (Where no run is wrong, but the text, stepping through it still shows what it does.)
  #item({case: name, passed, line, difference}, asked, program) {
    const parts = [make('b', {}, `${passed ? '✓' : '✗'} ${name || 'all'}`), passed ? ' passed' : `: ${difference}`];
    const item = make('li', {class: passed ? 'good' : 'bad'}, make('p', {}, ...parts));
    const buttons = asked ? [make('button', {type: 'button', onclick: () => this.#step(asked, program)}, 'Step through it')] : [];
    if (line) buttons.push(make('button', {type: 'button', onclick: () => this.#toLine(line)}, `Line ${line} of the tests`));
    if (!passed) item.append(make('div', {class: 'bar'}, ...buttons));
    return item;
  }

  #step(asked, {name, text}) {
    const before = linesBefore(asked), {keys, limit} = asked;
    this.stepThrough({name, text: [...before, text].join('\n'), keys, limit, free: false, linesBefore: before.length});
  }

  #toLine(line) {
    const lines = this.area.value.split('\n'), from = lines.slice(0, line - 1).reduce((sum, it) => sum + it.length + 1, 0);
    byId('want-part').open = true;
    this.area.focus();
    this.area.setSelectionRange(from, from + lines[line - 1].length);
  }

  #say(text, items, isGood = true) {
    this.verdict.textContent = text;
    this.verdict.className = isGood ? 'good' : 'bad';
    byId('cases').replaceChildren(...items);
  }
}
