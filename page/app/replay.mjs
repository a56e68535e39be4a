// The keys of the last live session, and what can be done with them: the same run again, in the debugger too, or in a link.
import {byId, grouped, setText} from './dom.mjs';
import {Cancelled, RECORD, Runner, faultText, runOptions, takes} from './programs.mjs';
import {sizeOf} from './record.mjs';

export class Replay {
  #runner = new Runner();

  /**
   * @param {() => {name: string, text: string}} programOf
   * @param {import('./live.mjs').Live} live
   * @param {() => void} changed Is called after another session has been recorded.
   * @param {(asked: Partial<import('./runs.mjs').Asked>) => void} stepThrough Runs a session again, to be gone through step by step.
   */
  constructor(programOf, live, changed, stepThrough) {
    Object.assign(this, {programOf, live, changed, area: byId('session')});
    byId('replay-run').onclick = () => stepThrough({record: this.area.value, limit: sizeOf(this.area.value).steps});
    live.recorded = record => this.#take(record);
    this.area.oninput = () => this.show();
    byId('replay').onclick = () => this.replay();
    byId('replay-debug').onclick = () => this.live.begin('debug', this.area.value);
  }

  /** Shows whether there are keys of a session, and how many. */
  async show() {
    const size = sizeOf(this.area.value), keys = size?.keys === 1 ? 'key' : 'keys';
    byId('session-part').hidden = this.area.value === '';
    byId('replay-run').hidden = true;
    setText(byId('session-says'), size ? `${grouped(size.keys)} ${keys} in ${grouped(size.steps)} steps` : 'This is not a record of keys.');
    if (size && await takes('film', '--replay')) byId('replay-run').hidden = !sizeOf(this.area.value);
  }

  /** Makes the same run again, and shows its end. */
  async replay() {
    const {name, text} = this.programOf(), words = ['a2lab', 'run', ...runOptions({record: ''}), name];
    try {
      const {fault, stdout, stderr} = await this.#runner.run(words, {[name]: text, [RECORD]: this.area.value});
      this.live.showText(stdout + (fault ? faultText(fault) : stderr), 'The program ran again, with the same keys at the same steps. This is where the session ended.');
    } catch (error) {
      if (!(error instanceof Cancelled)) this.live.showText('', error.message);
    }
  }

  #take(record) {
    this.area.value = record;
    this.show();
    this.changed();
  }
}
