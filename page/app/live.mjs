// The part of the page with sessions: a program that runs live, the debugger and the Monitor, each in a worker of its own.
import {canWait} from '../host.mjs';
import {byId, inNextFrame, later, setText} from './dom.mjs';
import {LiveScreen} from './live-screen.mjs';
import {LiveSound} from './live-sound.mjs';
import {RECORD, faultText, filesOf, moduleOf, runOptions, startWorker, textsOf} from './programs.mjs';
import {Terminal} from './terminal.mjs';

// A command of `play` is this key and a letter.
const COMMAND = 0x1d;
// `play` draws whenever 33.3 ms have passed. So after so many milliseconds without a key, its read returns; and at a key, its clock goes ahead by
// as many, so that it draws at once.
const FRAME = 34;
// As fast as it goes, it draws without a wait, and this much time is left to the keys.
const LEAST_WAIT = 1;
// Without a change for so long, the last rows of a terminal are read out.
const QUIET = 600, READ_ROWS = 4;
// A session that does not quit in so many milliseconds is ended.
const PATIENCE = 1000;

// What is said before the first session.
const BEFORE = 'Play runs your program while you type. The debugger goes through it step by step, in both directions. ' +
  'The Monitor shows and changes memory.';
const TOO_OLD = 'This browser cannot run sessions. They need Chromium or Chrome 137, or Firefox 153, or later. All the rest of the page works.';

const ESCAPES = {ArrowUp: 'A', ArrowDown: 'B', ArrowRight: 'C', ArrowLeft: 'D', Home: 'H', End: 'F', Delete: '3~'};
const SINGLE = {Enter: 13, Backspace: 127, Escape: 27, Tab: 9};

const bytesOf = text => [...new TextEncoder().encode(text)];

/** Returns the bytes that a key sends at a terminal, or nothing. */
function keyBytes({key, ctrlKey, altKey, metaKey}) {
  if (altKey || metaKey) return undefined;
  if (key in SINGLE) return [SINGLE[key]];
  if (key in ESCAPES) return bytesOf(`\x1b[${ESCAPES[key]}`);
  if (key.length !== 1 || key > '~') return undefined;
  if (!ctrlKey) return bytesOf(key);
  const code = key.toUpperCase().charCodeAt(0) & 31;
  return /[A-Za-z@[\\\]^_]/.test(key) ? [code] : undefined;
}

const KINDS = {
  play: {rows: 24, columns: 80, frame: FRAME, words: pace => ['--pace', pace, '--speaker', '--record', RECORD]},
  debug: {rows: 40, columns: 100, words: () => ['--tui'], isRun: true},
  mon: {rows: 32, columns: 80, words: () => []},
};

export class Live {
  /** Is called with the record of the keys of a session of `play` that has ended. */
  recorded = () => {};
  /** What the speaker does in a session of `play`. */
  sound = new LiveSound();
  #worker = null;
  #kind = '';
  #terminal = null;
  #screen = null;
  #drawLines = inNextFrame(() => this.#terminal.draw());
  #decoders = {};
  #speak = later(QUIET, () => this.#readOut());

  /**
   * @param {() => {name: string, text: string}} programOf
   * @param {() => {keys: string, free: boolean}} optionsOf
   */
  constructor(programOf, optionsOf) {
    Object.assign(this, {programOf, optionsOf, element: byId('terminal')});
    byId('play').onclick = () => this.begin('play');
    byId('debug').onclick = () => this.begin('debug');
    byId('monitor').onclick = () => this.begin('mon');
    byId('end-live').onclick = () => this.#quit();
    for (const it of byId('play-keys').children) it.onclick = () => { this.#type([COMMAND, it.dataset.keys.charCodeAt(0)]); this.element.focus(); };
    for (const it of document.querySelectorAll('[data-raw]')) it.onclick = () => this.#type([Number(it.dataset.raw)]);
    this.element.onkeydown = event => this.#key(event);
    this.element.onpaste = event => { event.preventDefault(); this.#typeText(event.clipboardData.getData('text')); };
    byId('typed').oninput = event => { this.#typeText(event.target.value); event.target.value = ''; };
    byId('typed').onkeydown = event => { if (SINGLE[event.key] && event.key !== 'Tab') { event.preventDefault(); this.#type([SINGLE[event.key]]); } };
    this.#ended(canWait ? BEFORE : TOO_OLD);
    for (const it of ['play', 'debug', 'monitor']) byId(it).disabled = !canWait;
  }

  /**
   * Begins a session, and ends the one before.
   * @param {'play' | 'debug' | 'mon'} kind
   * @param {string} [record] The keys of a session of `play`: the debugger begins at the end of it.
   */
  async begin(kind, record) {
    this.stop('');
    if (kind === 'play') this.sound.begin();
    const {rows, columns, frame, words, isRun} = KINDS[kind], {name, text} = this.programOf(), pace = byId('pace').value;
    const given = record !== undefined ? runOptions({record}) : isRun ? runOptions(this.optionsOf()) : [], module = await moduleOf('a2lab');
    this.#open(kind, rows, columns);
    // (Another session may have begun meanwhile.)
    this.#worker?.terminate();
    const worker = startWorker();
    this.#worker = worker;
    worker.onmessage = ({data}) => { if (worker === this.#worker) this.#take(data); };
    worker.onerror = event => { event.preventDefault(); this.stop(`The session failed: ${event.message}`); };
    const all = ['a2lab', kind, '--raw', `${rows}x${columns}xfull`, ...words(pace), ...given, name];
    const times = pace === 'max' && kind === 'play' ? {wait: LEAST_WAIT} : {wait: frame, ahead: frame};
    worker.postMessage({kind: 'begin', module, words: all, files: filesOf({[name]: text, [RECORD]: record}), ...times});
    byId('end-live').hidden = false;
    byId('play-keys').hidden = kind !== 'play';
    setText(byId('live-says'), '');
    this.element.focus();
  }

  /** Shows a text in place of a session. @param {string} text  @param {string} says What it is. */
  showText(text, says) {
    this.stop(says);
    this.#open('text', KINDS.mon.rows, KINDS.mon.columns);
    this.#write(text.trimEnd());
  }

  // Makes an empty terminal.
  #open(kind, rows, columns) {
    this.#kind = kind;
    this.element.hidden = false;
    this.element.style.setProperty('--columns', columns);
    this.#terminal = new Terminal(byId('lines'), rows, columns);
    this.#terminal.told = text => { if (kind === 'play') this.sound.take(text); };
    this.#screen = new LiveScreen(byId('live-screen'), byId('panel'), this.#terminal);
    this.#decoders = {1: new TextDecoder(), 2: new TextDecoder()};
  }

  /** What the terminal shows. */
  get text() {
    return this.#terminal?.text ?? '';
  }

  /** What is drawn of the machine's screen. */
  get screenText() {
    return this.#screen?.text ?? '';
  }

  /** Ends the session at once. */
  stop(why) {
    this.#worker?.terminate();
    this.sound.silence();
    this.#ended(why);
  }

  // Lets `play` end by itself, since it writes the record of its keys at its end.
  #quit() {
    const worker = this.#worker;
    if (this.#kind !== 'play') return this.stop('Stopped.');
    this.#type([COMMAND, 'q'.charCodeAt(0)]);
    setTimeout(() => { if (worker === this.#worker) this.stop('Stopped.'); }, PATIENCE);
  }

  #ended(why) {
    this.#worker = null;
    byId('end-live').hidden = byId('play-keys').hidden = true;
    setText(byId('live-says'), why);
  }

  #take(data) {
    if (data.kind === 'shown') {
      this.#write(this.#decoders[data.stream].decode(data.bytes, {stream: true}));
    } else {
      this.#worker.terminate();
      // (3 is the status of a program that stopped by another cause than its end.)
      const status = data.status > 0 && data.status !== 3 ? ` with status ${data.status}` : '';
      this.#ended(data.fault ? faultText(data.fault) : `The session has ended${status}.`);
      const record = textsOf(data.files)[RECORD];
      if (this.#kind === 'play' && record) this.recorded(record);
    }
  }

  // Shows what a program wrote. The counts of `play` are no news to read out.
  #write(text) {
    this.#terminal.write(text);
    const isScreen = this.#isScreen;
    if (byId('lines').hidden !== isScreen) [byId('live-view').hidden, byId('lines').hidden] = [!isScreen, isScreen];
    if (!isScreen) this.#drawLines();
    if (!isScreen || this.#screen.show()) this.#speak();
  }

  // While `play` runs the machine, it hides the cursor, and its screen is drawn. Otherwise the terminal is shown.
  get #isScreen() {
    return this.#kind === 'play' && !this.#terminal.hasCursor;
  }

  #type(bytes) {
    this.#worker?.postMessage({kind: 'type', bytes: new Uint8Array(bytes)});
  }

  #typeText(text) {
    this.#type(bytesOf(text.replace(/\r?\n/g, '\r').replace(/[^\r\x20-\x7e]/g, '')));
  }

  #key(event) {
    if (event.key === 'F6' && event.ctrlKey) {
      event.preventDefault();
      return byId('play').focus();
    }
    // (Copying what is selected stays the browser's.)
    if (event.ctrlKey && event.key.toLowerCase() === 'c' && !getSelection().isCollapsed || event.ctrlKey && event.key.toLowerCase() === 'v') return;
    if (!this.#worker || event.shiftKey && event.key === 'Tab') return;
    const bytes = keyBytes(event);
    if (!bytes) return;
    event.preventDefault();
    this.#type(bytes);
  }

  #readOut() {
    const text = this.#isScreen ? this.screenText : this.text;
    setText(byId('terminal-words'), text.split('\n').slice(-READ_ROWS).join('\n'));
  }
}
