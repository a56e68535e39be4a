// The programs of the user: which one is open, and where each is kept.
import {block, byId, grouped, later, make} from './dom.mjs';
import {exerciseHere, pageOf} from './exercise.mjs';
import * as files from './files.mjs';
import {MOST_LINK, MOST_TEXT, fragmentOf, holdsProgram, programIn} from './link.mjs';
import {ask, notify} from './notices.mjs';
import * as store from './store.mjs';

const PAUSE = 400;
const FIRST = 'hello';

/**
 * Examples: their names, titles and texts, and the options that they need.
 * @type {{name: string, title: string, text: string, keys: string, free: boolean}[]}
 */
const EXAMPLES = JSON.parse(block('examples'));

export class Library {
  #name = null;
  #kept = null;
  #soon = later(PAUSE, () => this.keep());
  #isOpening = false;
  #isKept = true;

  /**
   * @param {import('./editor.mjs').Editor} editor
   * @param {() => void} opened Is called after another program has been opened.
   * @param {(program: {session: string, want: string}) => void} arrived Is called after a program has been opened from a link or an exercise.
   */
  constructor(editor, opened, arrived) {
    Object.assign(this, {editor, opened, arrived});
    const choices = EXAMPLES.map(({name, title}) => make('option', {value: name}, `${name}: ${title}`));
    byId('examples').append(make('option', {value: ''}, 'Examples'), ...choices);
    byId('examples').onchange = event => { this.openExample(event.target.value); event.target.value = ''; };
    byId('programs').onchange = event => this.open(event.target.value);
    byId('new').onclick = () => this.#new();
    byId('rename').onclick = () => this.#rename();
    byId('delete').onclick = () => this.#delete();
    byId('save').onclick = () => this.save();
    byId('link').onclick = () => this.#link();
    byId('exercise').onclick = () => this.saveExercise();
    byId('link-session').onclick = () => this.#link({withSession: true});
    for (const id of ['keys', 'free', 'want', 'session']) byId(id).addEventListener('input', () => this.changed());
    files.listen((name, text) => this.add({name, text}), why => notify(why, {kind: 'error'}));
    addEventListener('beforeunload', event => { if (!this.#isKept) event.preventDefault(); });
    // (A page that is put away may not come back.)
    addEventListener('pagehide', () => this.keep());
    document.addEventListener('visibilitychange', () => { if (document.hidden) this.keep(); });
    addEventListener('hashchange', () => this.#takeLink());
    store.onOther(name => this.#otherTab(name));
  }

  /** Opens the exercise that this page has, or what was open last, or what a link holds. */
  async begin() {
    if (!this.#takeExercise()) this.#openLast();
    await this.#takeLink();
  }

  #openLast() {
    const last = store.current();
    if (last !== null && store.load(last)) this.open(last);
    else if (store.names().length > 0) this.open(store.names()[0]);
    else this.openExample(FIRST);
  }

  /** The name of the file of the present program, as messages of the programs show it. */
  get file() {
    return `${(this.#name ?? '').replace(/[^A-Za-z0-9_.-]+/g, '-').replace(/^[-.]+/, '') || 'program'}.s`;
  }

  get #state() {
    return {text: this.editor.text, keys: byId('keys').value, free: byId('free').checked, want: byId('want').value, session: byId('session').value};
  }

  /** The program has changed; it is kept soon. */
  changed() {
    if (!this.#isOpening) this.#soon();
  }

  /** Keeps the program now. Says so if the browser does not keep it. */
  keep() {
    if (this.#name === null) return;
    const state = this.#state, json = JSON.stringify(state);
    if (json === this.#kept) return;
    // (Another tab may have kept its text a moment ago.)
    const there = store.load(this.#name);
    if (this.#kept !== null && there && there.text !== state.text && JSON.stringify(there) !== this.#kept) this.#splitOff();
    const kept = store.keep(this.#name, state);
    this.#isKept = kept === store.KEPT.YES;
    if (kept === store.KEPT.YES) {
      this.#kept = json;
      store.setCurrent(this.#name);
      this.#list();
      return;
    }
    const why = kept === store.KEPT.FULL ? 'The storage of this browser is full, so your last changes are only in this tab.' :
      'This browser does not keep programs of this page, so your text is only in this tab.';
    notify(`${why} Save the program as a file before you close the tab.`, {kind: 'error', buttons: [['Save as a file', () => this.save()]]});
  }

  /** Opens a program that is kept. */
  open(name) {
    this.keep();
    const state = store.load(name);
    if (!state) return this.#list();
    this.#show(name, state);
    this.#kept = JSON.stringify(state);
    store.setCurrent(name);
  }

  /** Adds a program under a name that no other has, and opens it. */
  add({name, text, keys = '', free = false, want = '', session = ''}) {
    this.keep();
    this.#show(this.#freeName(name || 'program'), {text, keys, free, want, session});
    this.#kept = null;
    this.keep();
  }

  /** Saves the program as a file. */
  save() {
    this.keep();
    files.save(this.file, this.editor.text);
  }

  /** Saves this page with the program and its tests in it, as an exercise. */
  saveExercise() {
    this.keep();
    if (byId('want').value.trim() === '') return notify('An exercise needs tests, and this program has none yet. Write some first.', {kind: 'error'});
    files.save(this.file.replace(/\.s$/, '.html'), pageOf({name: this.#name, ...this.#state}), 'text/html');
    notify('The exercise was saved as a page. Give that file to your class: whoever opens it gets this program and its tests.');
  }

  // Opens the exercise of this page, or what the user has made of it before. Returns whether there is one.
  #takeExercise() {
    try {
      const exercise = exerciseHere();
      if (!exercise) return false;
      const begun = store.names().find(it => it.startsWith(exercise.name) && store.load(it).want === exercise.want);
      if (begun === undefined) this.add(exercise);
      else this.open(begun);
      const isChanged = this.editor.text !== exercise.text;
      const buttons = isChanged ? [['Begin again', () => { this.add(exercise); this.arrived(exercise); }]] : [];
      const whatNext = 'Its task is in the program. Press Test to see how far you are.';
      notify(isChanged ? `This is your work on “${exercise.name}”.` : `“${exercise.name}” is an exercise. ${whatNext}`, {buttons});
      this.arrived(exercise);
      return true;
    } catch {
      notify('The exercise in this page is damaged. Ask for the file again.', {kind: 'error'});
      return false;
    }
  }

  #show(name, {text, keys, free, want, session}) {
    this.#isOpening = true;
    this.#name = name;
    byId('keys').value = keys;
    byId('free').checked = free;
    byId('want').value = want;
    byId('session').value = session;
    this.editor.text = text;
    this.#isOpening = false;
    this.#list();
    this.opened();
  }

  #list() {
    const names = store.names();
    if (!names.includes(this.#name)) names.push(this.#name);
    byId('programs').replaceChildren(...names.map(it => make('option', {value: it}, it)));
    byId('programs').value = this.#name;
    document.title = `${this.#name} · a2`;
  }

  // The name, with a number after it if another program has it.
  #freeName(name) {
    const names = store.names();
    for (let number = 1; ; ++number) {
      const it = number === 1 ? name : `${name} ${number}`;
      if (!names.includes(it)) return it;
    }
  }

  /** Opens a copy of an example, if there is one with this name. */
  openExample(name) {
    const example = EXAMPLES.find(it => it.name === name);
    if (!example) return;
    const kept = store.load(name);
    if (name === this.#name && this.editor.text === example.text) return;
    // (An example that was opened and not changed is not kept twice.)
    if (kept?.text === example.text) this.open(name);
    else this.add(example);
  }

  async #new() {
    const name = await ask('The name of the new program', {value: this.#freeName('program'), yes: 'Make it'});
    if (name !== null) this.add({name: name.trim(), text: ''});
  }

  async #rename() {
    const old = this.#name, wanted = (await ask('The new name of this program', {value: old, yes: 'Rename'}))?.trim();
    if (!wanted || wanted === old) return;
    this.#name = this.#freeName(wanted);
    this.#kept = null;
    this.keep();
    if (this.#kept) store.forget(old);
    this.#list();
  }

  async #delete() {
    if (await ask(`Delete “${this.#name}” from this browser?`, {yes: 'Delete'}) === null) return;
    const state = this.#state, name = this.#name;
    store.forget(name);
    this.#kept = JSON.stringify(state);
    const [other] = store.names();
    if (other === undefined) this.openExample(FIRST);
    else this.open(other);
    notify(`“${name}” was deleted.`, {buttons: [['Undo', () => this.add({name, ...state})]]});
  }

  // Makes a link of the program, perhaps with the keys of the last live session.
  async #link({withSession = false} = {}) {
    const {session, ...state} = this.#state;
    if (Math.max(state.text.length, session.length) > MOST_TEXT) return notify('This program is too long for a link. Save it as a file.', {kind: 'error'});
    const fragment = await fragmentOf({name: this.#name, ...state, session: withSession ? session : ''}), address = location.href.split('#')[0] + fragment;
    if (fragment.length > MOST_LINK) return notify('This program is too long for a link. Save it as a file.', {kind: 'error'});
    try {
      await navigator.clipboard.writeText(address);
      notify(`The link was copied. It has ${grouped(address.length)} characters and holds the whole program, with its keys and tests.`);
    } catch {
      // (From disk some browsers allow no clipboard.)
      await ask('Copy this link. It holds the whole program, with its keys and tests.', {value: address});
    }
  }

  // Opens the program of a link beside the others. The link then leaves the address, so that a reload does not add it again.
  async #takeLink() {
    const {hash} = location;
    if (!holdsProgram(hash)) return;
    history.replaceState(null, '', location.href.split('#')[0]);
    try {
      const program = await programIn(hash), kept = store.load(program.name);
      const {name: _, ...state} = program;
      if (JSON.stringify(kept) === JSON.stringify(state)) this.open(program.name);
      else this.add(program);
      const what = program.session ? ' It has the keys of a session: press “Replay it”.' : program.want ? ' It has tests: press Test.' : '';
      notify(`“${this.#name}” came with the link.${what}`);
      this.arrived(program);
    } catch (error) {
      notify(error.message, {kind: 'error'});
    }
  }

  // Another tab has kept a program. If it is this one, neither text is lost.
  #otherTab(name) {
    this.#list();
    const other = store.load(name);
    if (name !== this.#name || !other || other.text === this.editor.text) return;
    if (JSON.stringify(this.#state) === this.#kept) {
      this.#show(name, other);
      this.#kept = JSON.stringify(other);
      return;
    }
    this.#splitOff();
    this.keep();
  }

  // Continues under another name, because another tab has kept a text under this one.
  #splitOff() {
    const name = this.#name;
    this.#name = this.#freeName(name);
    this.#kept = null;
    notify(`“${name}” was changed in another tab. Your text is now “${this.#name}”; the other text is still “${name}”.`);
  }
}
