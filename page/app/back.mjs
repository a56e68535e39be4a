// The part of the page that goes back and forward through a run. What it shows is in the run's film; nothing is computed here.
import {showChanges} from './changes.mjs';
import {byId, grouped, hex, later, make, setText} from './dom.mjs';
import {colours} from './film.mjs';
import {Instructions} from './instructions.mjs';
import {MemoryTable} from './memory.mjs';
import {notify} from './notices.mjs';
import {Cancelled} from './programs.mjs';
import {showRegisters} from './registers.mjs';
import {CLOCK} from './samples.mjs';
import {Screen, nameOf} from './screen.mjs';
import {showStack} from './stack.mjs';
import {Watch} from './watch.mjs';

// After a move to a step, so many milliseconds pass before instructions are asked for.
const REST = 120;

export class Back {
  #run = null;
  #instructions = null;
  #nameSoon = later(REST, () => this.#nameInstructions());
  #step = 0;
  #chosen = null;
  #isCurrent = false;
  #wanted = null;
  #last = Promise.resolve();

  /** @param {import('./editor.mjs').Editor} editor */
  constructor(editor) {
    this.editor = editor;
    this.screen = new Screen(byId('screen'), byId('screen-words'), colours);
    this.screen.clear();
    this.memory = new MemoryTable(address => this.choose(address), () => { if (this.#run) this.#show(); });
    this.watch = new Watch(address => this.choose(address));
    this.#listen();
    editor.breaksChanged = () => { byId('to-breaks').hidden = editor.breaks.size === 0; };
  }

  /** Shows the end of a run. @param {import('./runs.mjs').Run} run */
  take(run) {
    this.#run = run;
    this.#instructions = new Instructions(run);
    this.#isCurrent = true;
    this.#chosen = null;
    byId('back').hidden = false;
    byId('at').max = run.steps;
    this.#step = run.steps;
    this.#wanted = null;
    this.#show();
    // (The film of the steps before the end is there when one goes back.)
    this.#then(() => run.reach(run.steps - 1));
  }

  /** The run that is shown, or null. */
  get run() {
    return this.#run;
  }

  /** There is no run to show. */
  hide() {
    this.#run = null;
    byId('back').hidden = true;
    this.editor.showPlace(0, 0);
    this.screen.clear();
  }

  /** The text is another one than that of the run. */
  leaveText() {
    if (!this.#run || !this.#isCurrent) return;
    this.#isCurrent = false;
    byId('back').classList.add('old');
    this.#show();
  }

  /** Goes to a step of the run. If several steps are asked for while a film is made, only the last one counts. */
  go(step) {
    this.#wanted = step;
    return this.#then(async () => {
      const to = this.#wanted;
      this.#wanted = null;
      if (to !== null) await this.#goTo(to);
    });
  }

  // Does this after all that was asked for before.
  #then(call) {
    this.#last = this.#last.then(() => this.#run && call()).catch(error => {
      if (!(error instanceof Cancelled)) notify(String(error.message ?? error), {kind: 'error'});
    });
    return this.#last;
  }

  async #goTo(step) {
    const run = this.#run, to = Math.max(0, Math.min(run.steps, step));
    await run.reach(to);
    if (run !== this.#run) return;
    this.#step = to;
    this.#show();
  }

  // Goes to the next step, in a direction, for which a test holds, or to the end of the run. The test gets a film and an index in it.
  async #scan(direction, test) {
    const run = this.#run;
    for (let step = this.#step + direction; step > 0 && step < run.steps;) {
      await run.reach(step);
      const {film} = run, first = Math.max(1, film.first), last = Math.min(run.steps - 1, film.first + film.count);
      for (; step >= first && step <= last; step += direction) if (test(film, step - film.first)) return this.#goTo(step);
    }
    await this.#goTo(direction > 0 ? run.steps : 0);
  }

  // Goes to the next step, in a direction, at which a line begins that is another than the present one.
  async #toLine(direction) {
    await this.#run.reach(this.#step);
    const lineOf = (film, at) => film.LINE[film.PC[at]], {film} = this.#run, now = lineOf(film, this.#step - film.first);
    await this.#scan(direction, (other, at) => ![undefined, now].includes(lineOf(other, at)));
  }

  // Goes to the next step, in a direction, at which a line with a breakpoint comes next.
  async #toBreak(direction) {
    await this.#scan(direction, (film, at) => this.editor.breaks.has(film.LINE[film.PC[at]]));
  }

  // Makes one step in a direction, or a whole call of a subroutine. (The call may be longer than the film.)
  async #over(direction) {
    await this.#run.reach(Math.max(0, this.#step + Math.min(direction, 0)));
    const {film, steps} = this.#run, at = this.#step - film.first, stack = film.REG.s[at];
    film.seek(at);
    const to = film.over(direction), isLong = Math.abs(to - at) > 1;
    const isCut = isLong && (direction > 0 ? to >= film.count && film.first + film.count < steps : to <= 0 && film.first > 0);
    await (isCut ? this.#scan(direction, (other, index) => other.REG.s[index] === stack) : this.#goTo(film.first + to));
  }

  // Goes to the first step that is a second of the machine away.
  async #second(direction) {
    await this.#run.reach(this.#step);
    const {film} = this.#run, cycles = film.CY[this.#step - film.first] + direction * CLOCK;
    await this.#scan(direction, (other, at) => direction * (other.CY[at] - cycles) >= 0);
  }

  // Goes to the latest step before this one that changed something.
  async #searchChange(what) {
    const run = this.#run;
    for (let step = this.#step - 1; step > 0;) {
      await run.reach(step);
      const {film} = run, found = film.find(what, -1, step - film.first);
      if (found > 0) return this.#goTo(film.first + found);
      step = film.first;
    }
    await this.#goTo(this.#step);
    notify(`No earlier step of this run changed ${typeof what === 'string' ? what : this.#run.film.nm(what)}.`);
  }

  #listen() {
    const by = count => () => this.#goTo(this.#step + count);
    const does = {
      start: () => this.#goTo(0), end: () => this.#goTo(this.#run.steps), 'step-back': by(-1), 'step-on': by(1),
      'line-back': () => this.#toLine(-1), 'line-on': () => this.#toLine(1),
      'break-back': () => this.#toBreak(-1), 'break-on': () => this.#toBreak(1),
      'over-back': () => this.#over(-1), 'over-on': () => this.#over(1), 'second-back': () => this.#second(-1), 'second-on': () => this.#second(1),
    };
    for (const [id, call] of Object.entries(does)) byId(id).onclick = () => this.#then(call);
    byId('at').oninput = event => this.go(Number(event.target.value));
    byId('back').onkeydown = event => this.#key(event, does);
    byId('screen').onclick = event => this.#clickScreen(event);
    byId('stack-part').ontoggle = () => this.#showStack();
    byId('registers').onclick = event => this.choose(event.target.closest('button')?.dataset.register);
  }

  #key(event, does) {
    const side = {ArrowLeft: 'back', ArrowRight: 'on'}[event.key];
    if (!side || event.ctrlKey || event.altKey || event.metaKey || ['SELECT', 'TD'].includes(event.target.tagName)) return;
    event.preventDefault();
    this.#then(does[`${event.shiftKey ? 'line' : 'step'}-${side}`]);
  }

  #clickScreen(event) {
    if (!this.#run) return;
    const {left, top, width, height} = event.target.getBoundingClientRect();
    this.choose(this.screen.addressAt((event.clientX - left) / width, (event.clientY - top) / height));
  }

  /** Asks which step changed a register (its name) or a byte (its address). @param {string | number | undefined} what */
  async choose(what) {
    if (what === undefined) return;
    this.#chosen = what;
    if (typeof what === 'number') this.memory.turn(what >> 8);
    await this.#then(() => this.#goTo(this.#step));
  }

  #show() {
    const {film, steps} = this.#run, at = this.#step - film.first, {PC, LINE, FIRST, ADR, SW} = film;
    // (During a search the film may be another one.)
    if (at < 0 || at > film.count) return;
    film.seek(at);
    const changed = new Set(at > 0 ? ADR.subarray(FIRST[at], FIRST[at + 1]) : []);
    const now = LINE[PC[at]] ?? 0, was = at > 0 ? film.lineOf(at - 1) : 0;
    this.screen.show(film.ram, SW[at], changed);
    byId('screen').setAttribute('aria-label', `Screen: ${nameOf(SW[at])}`);
    if (this.#wanted === null) byId('at').value = this.#step;
    byId('at').setAttribute('aria-valuetext', `step ${this.#step} of ${steps}`);
    setText(byId('where'), `step ${grouped(this.#step)} of ${grouped(steps)}, ${grouped(film.CY[at])} cycles`);
    this.#say(film, at, now);
    showRegisters(film, at, this.#chosen);
    this.memory.show(film, changed, this.#chosen);
    this.watch.show(film, changed);
    this.#showStack();
    this.#nameSoon();
    showChanges(film, at, this.#chosen, step => this.go(step), what => this.#then(() => this.#searchChange(what)));
    this.editor.showPlace(this.#isCurrent ? now : 0, this.#isCurrent ? was : 0);
    byId('back').classList.toggle('old', !this.#isCurrent);
  }

  #showStack() {
    if (this.#run && byId('stack-part').open) showStack(this.#run.film, this.#step - this.#run.film.first, step => this.go(step));
  }

  // Shows the instructions of this step and the next, if they are not known yet.
  async #nameInstructions() {
    const run = this.#run, step = this.#step;
    try {
      if (run && await this.#instructions.reach(step) && run === this.#run && step === this.#step) this.#show();
    } catch (error) {
      if (!(error instanceof Cancelled)) notify(String(error.message ?? error), {kind: 'error'});
    }
  }

  // The address, the bytes and the instruction at an address, beside the line of the source.
  #instruction(film, address) {
    const words = this.#instructions.at(film, address);
    return words ? [' ', make('span', {class: 'instruction'}, words)] : [];
  }

  #say(film, at, now) {
    const lines = [];
    if (this.#step === 0) lines.push(make('p', {}, 'The start: nothing has run yet.'));
    else if (at > 0) lines.push(make('p', {}, `This step: ${film.said(at)}.`, ...this.#instruction(film, film.PC[at - 1])));
    const pc = film.PC[at], service = film.svc[pc];
    const next = service ? `the service ${service}` : now ? `line ${now}: ${film.code[now - 1]}` : `$${hex(pc, 4)}`;
    if (this.#step < this.#run.steps) lines.push(make('p', {class: 'next'}, `Next: ${next}`, ...this.#instruction(film, pc)));
    else lines.push(make('p', {class: 'next'}, `The run ended here${now ? `, before line ${now}: ${film.code[now - 1]}` : ''}.`));
    if (!this.#isCurrent) lines.push(make('p', {class: 'hint'}, 'You have changed the text since this run. Run it again to see its lines.'));
    byId('said').replaceChildren(...lines);
  }
}
