// A run of a program, and films of parts of it.
import {filmIn} from './film.mjs';
import {RECORD, Runner, faultText, runOptions, takes} from './programs.mjs';

// (A trace does not wait for films, and each run asks for its own.)
const tracer = new Runner();

/** How many steps a film has at most. Reading one takes about a tenth of a second. */
const WINDOW = 50000;

/**
 * What a run is asked for.
 * @typedef {object} Asked
 * @property {string} name The name of the file.
 * @property {string} text
 * @property {string} keys In the spelling of --keys.
 * @property {number} limit
 * @property {boolean} free
 * @property {string} [record] The keys of a live session, with their steps. They replace `keys` and `free`, and `limit` is its number of steps.
 * @property {number} [linesBefore] So many lines at the start of the text are not the user's.
 */

/** A run of which there is one film, and no more. */
export class FilmedRun {
  /** @param {object} film */
  constructor(film) {
    this.film = film;
    this.steps = film.first + film.count;
  }

  async reach() {}
}

export class Run {
  #runner;
  #film = null;

  /** @param {Asked} asked  @param {Runner} runner */
  constructor(asked, runner) {
    this.asked = asked;
    this.#runner = runner;
    /** How many steps the run has. */
    this.steps = 0;
  }

  get film() {
    return this.#film;
  }

  /**
   * Runs the program. Returns what it reports: the register line and the cause, and its explanation; or errors. (The picture comes from the film.)
   * @returns {Promise<{status: number, lines: string[], explained: string}>}
   */
  async begin() {
    const {limit, record} = this.asked, options = record === undefined ? ['--limit', String(limit)] : [];
    const {status, stdout, stderr} = await this.#call('run', ...options);
    const lines = stdout.trimEnd().split('\n'), from = lines.findLastIndex(it => it.startsWith('A='));
    const hasRun = status === 0 || status === 3;
    if (hasRun) await this.#take(limit, 0);
    return {status, lines: hasRun && from >= 0 ? lines.slice(from) : [], explained: stderr.trimEnd()};
  }

  /** Makes `film` one that has this step of the run, and the steps around it. @param {number} step */
  async reach(step) {
    const film = this.#film, isThere = film.count > 0 && step >= film.first && step <= film.first + film.count;
    if (isThere || this.steps === 0) return;
    const from = this.steps <= WINDOW ? 0 : Math.max(0, Math.min(step - WINDOW / 2, this.steps - WINDOW));
    await this.#take(from, WINDOW);
  }

  /** Makes `film` the one that begins after so many steps. @param {number} step */
  async filmFrom(step) {
    await this.#take(step, WINDOW);
  }

  /** Returns the trace of so many steps of the run. @param {number} from The number of steps before them. */
  async trace(from, steps) {
    const end = Math.min(from + steps, this.asked.limit);
    if (this.asked.record !== undefined && !await takes('trace', '--replay')) return '';
    return (await this.#callBy(tracer, 'trace', '--from', String(from + 1), '--limit', String(end))).stdout;
  }

  async #take(from, steps) {
    const most = Math.min(steps, this.asked.limit - from);
    const {stdout, stderr} = await this.#call('film', '--from', String(from), '--steps', String(Math.max(0, most)));
    if (!stdout) throw new Error(stderr);
    this.#film = filmIn(stdout, this.asked.linesBefore);
    this.steps = Math.max(this.steps, this.#film.first + this.#film.count);
  }

  #call(command, ...options) {
    return this.#callBy(this.#runner, command, ...options);
  }

  async #callBy(runner, command, ...options) {
    const {name, text, record} = this.asked;
    const words = ['a2lab', command, ...runOptions(this.asked), ...options, name];
    const result = await runner.run(words, {[name]: text, [RECORD]: record});
    if (result.fault) throw new Error(faultText(result.fault));
    return result;
  }
}
