// The part of the page that runs any other tool of a2lab on the program, and shows what it prints.
import {byId, make} from './dom.mjs';
import {save} from './files.mjs';
import {Cancelled, Runner, faultText, runOptions} from './programs.mjs';

const MOST_SHOWN = 300000;
const FILM = 'failing.html';

/**
 * A tool: its name in the list, its command and options, whether its output is a program, and whether it
 * may write a film.
 * @type {{label: string, words: (file: string) => string[], isRun?: boolean, makesText?: boolean, films?: boolean, wraps?: boolean}[]}
 */
const TOOLS = [
  {label: 'Listing with addresses and bytes', words: file => ['list', '--cycles', file]},
  {label: 'Names, and where they are used', words: file => ['list', '--names', file]},
  {label: 'How often each line runs', words: file => ['profile', file], isRun: true},
  {label: 'How often each routine runs', words: file => ['profile', '--by', 'routine', file], isRun: true},
  {label: 'The last 500 steps', words: file => ['trace', '--last', '500', file], isRun: true},
  {label: 'The routines that were called', words: file => ['trace', '--calls', file], isRun: true},
  {label: 'Promises of routines', words: file => ['promise', '--film', FILM, file], films: true, wraps: true},
  {label: 'Lay the text out in columns', words: file => ['fmt', file], makesText: true},
  {label: 'Bring in a text of another assembler', words: file => ['import', file], makesText: true},
];

export class Tools {
  #runner = new Runner();
  #text = '';
  #film = '';

  /**
   * @param {import('./editor.mjs').Editor} editor
   * @param {() => {name: string, text: string}} programOf
   * @param {() => {keys: string, free: boolean}} optionsOf
   * @param {(page: string) => void} showFilm Shows a film that a tool wrote.
   */
  constructor(editor, programOf, optionsOf, showFilm) {
    Object.assign(this, {editor, programOf, optionsOf, showFilm});
    byId('tool').append(...TOOLS.map((it, at) => make('option', {value: at}, it.label)));
    byId('tools').onsubmit = event => { event.preventDefault(); this.run(); };
    byId('tool-stop').onclick = () => this.#runner.cancel();
    byId('tool').onchange = () => this.#clear();
    byId('tool-film').onclick = () => this.showFilm(this.#film);
    byId('tool-save').onclick = () => save(this.programOf().name.replace(/\.s$/, '.txt'), this.#text);
    byId('tool-take').onclick = () => { this.editor.replaceAll(this.#text); byId('tool-take').hidden = true; };
    this.#clear();
  }

  /** Runs the chosen tool. */
  async run() {
    const {words, isRun, makesText, films, wraps = false} = TOOLS[byId('tool').value], {name, text} = this.programOf();
    const [command, ...rest] = words(name), options = isRun ? runOptions(this.optionsOf()) : [];
    byId('tool-stop').hidden = false;
    try {
      const {status, fault, stdout, stderr, files} = await this.#runner.run(['a2lab', command, ...options, ...rest], {[name]: text});
      this.#text = stdout;
      byId('tool-output').classList.toggle('wrapped', wraps);
      this.#film = files[FILM] ?? '';
      // (That there was nothing to film is no news: nobody asked for it.)
      const said = films && !this.#film ? stderr.replace(/^.*\bno routine failed.*\n?/m, '') : stderr;
      const printed = [stdout, said].map(it => it.trimEnd()).filter(Boolean).join('\n\n') || 'Nothing was printed.';
      this.#show(fault ? faultText(fault) : printed, status === 0);
      byId('tool-take').hidden = !(makesText && stdout && stdout !== text);
      byId('tool-save').hidden = !stdout;
      byId('tool-film').hidden = !this.#film;
    } catch (error) {
      this.#show(error instanceof Cancelled ? 'Stopped.' : error.message, false);
    } finally {
      byId('tool-stop').hidden = true;
    }
  }

  #show(text, isGood) {
    const more = '\n… and more. Save the output to see all of it.';
    byId('tool-output').textContent = text.length > MOST_SHOWN ? text.slice(0, MOST_SHOWN) + more : text;
    byId('tool-output').classList.toggle('failed', !isGood);
  }

  // The buttons belong to what the tool before printed.
  #clear() {
    for (const it of ['tool-take', 'tool-save', 'tool-film']) byId(it).hidden = true;
  }
}
