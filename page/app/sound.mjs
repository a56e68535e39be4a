// The sound of a run: the speaker of an Apple II moves to its other side whenever an instruction reads or writes $C030. The cycles at which
// this happens are those of films of the run.
import {byId, setText} from './dom.mjs';
import {Cancelled, Runner} from './programs.mjs';
import {Run} from './runs.mjs';
import {CLOCK, samplesOf, sourceOf} from './samples.mjs';

const SPEAKER = 0xc030, MOST_SECONDS = 30;

// The cycles at which a run touches the speaker, as far as they are played.
async function touchesOf(run) {
  const touches = [];
  for (let step = 0; step < run.steps; step = run.film.first + run.film.count) {
    await run.filmFrom(step);
    touches.push(...run.film.touches(SPEAKER));
    if (run.film.count === 0 || run.film.CY[run.film.count] > MOST_SECONDS * CLOCK) break;
  }
  return touches.filter(it => it <= MOST_SECONDS * CLOCK);
}

export class Sound {
  #runner = new Runner();
  #context = null;
  #source = null;

  /** @param {() => import('./runs.mjs').Run | null} runOf Returns the run that is shown. */
  constructor(runOf) {
    this.runOf = runOf;
    byId('sound').hidden = typeof AudioContext !== 'function';
    byId('sound').onclick = () => this.#source ? this.stop() : this.play();
  }

  /** Plays what the speaker did in the run. */
  async play() {
    const shown = this.runOf();
    if (!shown?.asked) return;
    this.#say('Listening to the run …');
    try {
      const run = new Run(shown.asked, this.#runner);
      await run.begin();
      const touches = await touchesOf(run);
      if (touches.length === 0) return this.#say('This run is silent: it never touches the speaker, $C030.');
      this.#start(touches);
    } catch (error) {
      if (!(error instanceof Cancelled)) this.#say(error.message);
    }
  }

  /** Ends the sound. */
  stop() {
    this.#runner.cancel();
    this.#source?.stop();
    this.#end('');
  }

  #start(touches) {
    this.#context ??= new AudioContext();
    const {sampleRate, destination} = this.#context, seconds = touches.at(-1) / CLOCK + 0.1;
    const source = sourceOf(samplesOf(touches, sampleRate, seconds), destination);
    source.onended = () => { if (source === this.#source) this.#end(''); };
    this.#source = source;
    source.start();
    byId('sound').setAttribute('aria-pressed', 'true');
    this.#say(`The speaker moves ${touches.length.toLocaleString('en')} times in ${seconds.toFixed(1)} seconds.`);
  }

  #end(text) {
    this.#source = null;
    byId('sound').setAttribute('aria-pressed', 'false');
    this.#say(text);
  }

  #say(text) {
    setText(byId('sound-says'), text);
  }
}
