// Checks the text while it is typed, and lists errors and warnings.
import {byId, later, make, setText} from './dom.mjs';
import {changeOf} from './fixes.mjs';
import {Cancelled, Runner, faultText} from './programs.mjs';

const PAUSE = 15, MOST_SHOWN = 100;
// A check of a text that is no longer there is ended only if it has taken so many milliseconds: a new worker costs as much.
const PATIENCE = 300;

/**
 * What `check` reports of a line. Lines count from 1, 0 is the whole text; `from` and `width` are characters of the line.
 * @typedef {object} Problem
 * @property {'error' | 'warning'} kind
 * @property {number} line
 * @property {number} from
 * @property {number} width
 * @property {string} text
 * @property {string} [code]
 * @property {string} [fix] What to do, in words.
 * @property {import('./fixes.mjs').Change} [change] What `Fix it` does, if these words are the new text.
 */

// Columns of `check` are bytes. Returns how many characters of a line these bytes are.
function characters(line, bytes) {
  return new TextDecoder().decode(new TextEncoder().encode(line).subarray(0, bytes)).length;
}

/** @returns {Problem[]} The errors in the JSON that `check` writes. */
function errorsOf(json, lines) {
  return JSON.parse(json).map(({line, column, width: bytes, code, text, fix, replacement}) => {
    const it = lines[line - 1] ?? '', from = characters(it, column - 1), width = characters(it, column - 1 + bytes) - from;
    return {kind: 'error', line, from, width, code, text, fix, change: changeOf({line, from, width, fix, replacement}, lines)};
  });
}

/** @returns {Problem[]} The warnings that `check` writes to standard error, each as NAME:LINE: warning: TEXT. */
function warningsOf(stderr, lines) {
  const found = [...stderr.matchAll(/^[^:\n]*:(\d+): warning: (.*)$/gm)];
  return found.map(([, line, text]) => ({kind: 'warning', line: Number(line), from: 0, width: (lines[line - 1] ?? '').length, text}));
}

export class Checker {
  #runner = new Runner();
  #soon = later(PAUSE, () => this.#check());
  #begun = null;
  #isOld = false;

  /** @param {import('./editor.mjs').Editor} editor  @param {() => string} nameOf Returns the name of the file. */
  constructor(editor, nameOf) {
    this.editor = editor;
    this.nameOf = nameOf;
  }

  /** The text has changed: what a check of the text before finds is not shown. */
  textChanged() {
    this.#isOld = true;
    if (this.#begun !== null && performance.now() - this.#begun > PATIENCE) this.#runner.cancel();
    // (A fix belongs to the text that was checked.)
    for (const it of byId('problems').querySelectorAll('.fixes')) it.disabled = true;
    this.#soon();
  }

  // Checks the text, unless a check is under way, which is followed by another one.
  async #check() {
    if (this.#begun !== null) return;
    this.#begun = performance.now();
    while (this.#isOld) {
      this.#isOld = false;
      await this.#checkOnce();
    }
    this.#begun = null;
  }

  async #checkOnce() {
    const name = this.nameOf(), {text, lines} = this.editor;
    try {
      const {status, fault, stdout, stderr} = await this.#runner.run(['a2lab', 'check', '--format', 'json', name], {[name]: text});
      if (this.#isOld) return;
      if (fault) this.#show([], faultText(fault));
      else if (status > 1) this.#show([], stderr);
      else this.#show([...errorsOf(stdout, lines), ...warningsOf(stderr, lines)]);
    } catch (error) {
      if (!(error instanceof Cancelled)) this.#show([], String(error.message ?? error));
    }
  }

  #show(problems, failure = '') {
    const errors = problems.filter(it => it.kind === 'error').length, warnings = problems.length - errors;
    const count = (number, what) => number === 0 ? '' : `${number} ${what}${number === 1 ? '' : 's'}`;
    this.editor.showMarks(problems);
    setText(byId('count'), failure || [count(errors, 'error'), count(warnings, 'warning')].filter(Boolean).join(', ') || 'No errors');
    byId('count').className = failure || errors ? 'bad' : 'good';
    const more = problems.length - MOST_SHOWN, items = problems.slice(0, MOST_SHOWN).map(it => this.#item(it));
    byId('problems').replaceChildren(...items, ...(more > 0 ? [make('li', {}, `and ${more} more`)] : []));
  }

  #item(problem) {
    const {kind, line, from, width, code, text, fix, change} = problem;
    const place = line === 0 ? 'the whole text' : `line ${line}${kind === 'error' ? `, column ${from + 1}` : ''}`;
    const parts = [make('b', {}, place), ': ', text];
    const go = () => this.editor.select(Math.max(line, 1), from + 1, width);
    const item = make('li', {class: kind}, make('button', {type: 'button', class: 'goes', onclick: go}, ...parts));
    if (code) item.append(make('small', {title: `error ${code}`}, code));
    if (fix) item.append(make('p', {class: 'fix'}, fix));
    if (change) {
      const apply = () => this.editor.replace(change.line, change.from + 1, change.width, change.text);
      item.append(make('button', {type: 'button', class: 'fixes', onclick: apply}, 'Fix it'));
    }
    return item;
  }
}
