// The part of the page that runs a program, and shows how the run ended.
import {byId, make} from './dom.mjs';
import {Cancelled, Runner} from './programs.mjs';
import {FilmedRun, Run} from './runs.mjs';

export class RunPart {
  #runner = new Runner();

  /**
   * @param {() => {name: string, text: string}} programOf
   * @param {import('./back.mjs').Back} back Shows the run.
   */
  constructor(programOf, back) {
    Object.assign(this, {programOf, back, result: byId('result')});
    byId('stop').onclick = () => this.#runner.cancel();
  }

  /** The options of a run, as the page has them. */
  get options() {
    return {keys: byId('keys').value, limit: Number(byId('limit').value), free: byId('free').checked};
  }

  /** The text is another one. What is shown belongs to the text before. */
  textChanged() {
    this.back.leaveText();
  }

  /** Another program is open: nothing of the one before is shown. */
  forget() {
    this.#runner.cancel();
    this.back.hide();
    this.#say(make('p', {class: 'hint'}, 'Press Run, or Ctrl+Enter.'));
  }

  /**
   * Runs the program, and shows its end.
   * @param {Partial<import('./runs.mjs').Asked>} [other] What is asked for instead of what the page has.
   */
  async run(other = {}) {
    const run = new Run({...this.programOf(), ...this.options, ...other}, this.#runner);
    byId('stop').hidden = false;
    try {
      this.#tell(run, await run.begin());
    } catch (error) {
      if (error instanceof Cancelled) this.#say(make('p', {class: 'hint'}, 'Stopped.'));
      else this.#say(make('p', {class: 'bad'}, String(error.message ?? error)));
    } finally {
      byId('stop').hidden = true;
    }
  }

  /** Shows a run that was filmed elsewhere. @param {object} film  @param {string} why What it shows. */
  showFilm(film, why) {
    this.#runner.cancel();
    this.#say(make('p', {}, why));
    this.back.take(new FilmedRun(film));
  }

  #tell(run, {status, lines, explained}) {
    const hasRun = lines.length > 0, cause = lines.find(it => it.startsWith('STOP '));
    if (!hasRun) {
      this.back.hide();
      this.#say(make('p', {class: 'bad'}, 'The program did not run.'), make('pre', {class: 'explained'}, explained));
      return;
    }
    const good = status === 0 ? 'good' : 'bad';
    this.#say(make('p', {class: `mono stop ${good}`}, cause ?? 'The session ended here.'), make('p', {class: 'mono'}, lines[0]),
      ...(explained ? [make('pre', {class: 'explained'}, explained)] : []));
    this.back.take(run);
  }

  #say(...parts) {
    this.result.replaceChildren(...parts);
  }
}
