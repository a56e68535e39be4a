// The sound of a live session. It is off until the user asks for it.
import {byId} from './dom.mjs';
import {sourceOf} from './samples.mjs';
import {isOn, setOn} from './store.mjs';
import {Voice, reportIn} from './voice.mjs';

const NAME = 'sound';

export class LiveSound {
  #button = byId('live-sound');
  #context = null;
  #voice = null;
  #out = null;
  #tail = null;
  /** How many samples were made of reports; for tests. */
  made = 0;

  constructor() {
    this.#button.hidden = typeof AudioContext !== 'function';
    this.#button.onclick = () => this.#turn(!this.isOn);
    this.#button.setAttribute('aria-pressed', String(isOn(NAME) && !this.#button.hidden));
    document.addEventListener('visibilitychange', () => { if (document.hidden) this.silence(); });
  }

  get isOn() {
    return this.#button.getAttribute('aria-pressed') === 'true';
  }

  #turn(on) {
    this.#button.setAttribute('aria-pressed', String(on));
    setOn(NAME, on);
    if (on) this.begin();
    else this.silence();
  }

  /** Gets ready, if the sound is on. (Browsers allow sound only after a click or a key.) */
  begin() {
    this.silence();
    if (!this.isOn) return;
    this.#context ??= new AudioContext();
    this.#context.resume();
  }

  /** Takes a control string of `play`. A page that is hidden makes no sound. */
  take(text) {
    const report = this.isOn && !document.hidden ? reportIn(text) : null;
    if (!report || this.#context?.state !== 'running') return;
    if (!this.#voice) this.#connect();
    const piece = this.#voice.take(report, this.#context.currentTime);
    if (!piece) return;
    this.#tail?.stop(piece.start / this.#context.sampleRate);
    this.#play(piece.samples, piece.start);
    this.#tail = this.#play(piece.tail, piece.start + piece.samples.length);
  }

  /** Ends the sound at once. */
  silence() {
    this.#out?.disconnect();
    this.#out = this.#voice = this.#tail = null;
  }

  #connect() {
    this.#voice = new Voice(this.#context.sampleRate);
    this.#out = this.#context.createGain();
    this.#out.connect(this.#context.destination);
  }

  #play(samples, start) {
    if (samples.length === 0) return null;
    const source = sourceOf(samples, this.#out);
    source.start(start / this.#context.sampleRate);
    this.made += samples.length;
    return source;
  }
}
