// Saves what a2lab makes of the present program: a film of its run, its listing, or its bytes in a format of other programs.
import {byId, make} from './dom.mjs';
import {save} from './files.mjs';
import {notify} from './notices.mjs';
import {Cancelled, Runner, faultText, runOptions} from './programs.mjs';

// The file that a program writes, if it does not write to standard output.
const MADE = 'made';

// What `a2lab object` makes.
const object = (label, end, ...options) => ({label, end, type: 'application/octet-stream', words: (_, file) => ['a2lab', 'object', ...options, file]});

/** What can be saved: its label, the words of the program, and the end of the file's name. */
const KINDS = [
  {label: 'Film of the run (.html)', end: '.html', type: 'text/html', words: (options, file) => ['a2lab', 'film', ...options, file]},
  {label: 'Listing (.lst)', end: '.lst', type: 'text/plain', words: (_, file) => ['a2lab', 'list', file]},
  object('Object lines (.txt)', '.txt'),
  object('Bytes (.bin)', '.bin', '--format', 'raw', '--fill', '00'),
  object('Intel HEX (.hex)', '.hex', '--format', 'hex'),
  object('S-records (.s19)', '.s19', '--format', 'srec'),
  object('DOS 3.3 binary (.dos)', '.dos', '--format', 'dos', '--fill', '00'),
  object('Cassette tape (.wav)', '.wav', '--tape', MADE),
];

/**
 * Fills the list of things to save.
 * @param {() => {name: string, text: string}} programOf
 * @param {() => {keys: string, free: boolean}} optionsOf
 */
export function listen(programOf, optionsOf) {
  const list = byId('exports'), runner = new Runner(), kinds = KINDS;
  list.append(make('option', {value: ''}, 'Save as'), ...kinds.map((it, at) => make('option', {value: at}, it.label)));
  list.onchange = async () => {
    const {end, type, words} = kinds[list.value], {name, text} = programOf(), options = runOptions(optionsOf());
    list.value = '';
    try {
      const {status, fault, bytes, made, stderr} = await runner.run(words(options, name), {[name]: text});
      if (fault) throw new Error(faultText(fault));
      if (status === 0 || status === 3) save(name.replace(/\.s$/, end), made[MADE] ?? bytes, type);
      else notify(`Nothing was saved. ${stderr.trim()}`, {kind: 'error'});
    } catch (error) {
      if (!(error instanceof Cancelled)) notify(error.message, {kind: 'error'});
    }
  };
}
