// Shows the stack of a step: for each of its bytes the step that put it there, with the names of the film.
import {byId, grouped, hex, make} from './dom.mjs';

const BOTTOM = 0x1ff, MOST = 24;

/**
 * One thing on the stack: a byte, or the two bytes that one step put there.
 * @typedef {object} Entry
 * @property {number} address Its lowest address.
 * @property {number[]} bytes
 * @property {number} by The index of the step that put it there; 0 if that step is not in the film.
 */

/** Returns what is on the stack at a step of a film, the top first. @returns {Entry[]} */
export function entriesOf(film, at) {
  const top = 0x101 + film.REG.s[at], addresses = Array.from({length: Math.max(0, Math.min(MOST, BOTTOM + 1 - top))}, (_, index) => top + index);
  const entries = [];
  for (const address of addresses) {
    const by = film.find(address, -1, at), last = entries.at(-1);
    // (A call pushes two bytes in one step.)
    if (by > 0 && last?.by === by && last.bytes.length < 2) last.bytes.push(film.ram[address]);
    else entries.push({address, bytes: [film.ram[address]], by});
  }
  return entries;
}

// What the film knows of an entry: the words about its step, and for a return address the line to which the routine returns.
function wordsOf(film, {bytes, by}) {
  if (by === 0) return film.first > 0 ? 'put there before this part of the run' : 'there at the start';
  const [what] = film.said(by).split(';'), returns = (bytes[0] | bytes[1] << 8) + 1 & 0xffff;
  if (bytes.length < 2 || film.LINE[returns] === undefined) return what;
  const name = film.NAME[returns];
  return `${what}; returns to line ${film.LINE[returns]}${name ? ` (${name})` : ''}`;
}

/** Shows the stack. @param {(step: number) => void} go Goes to a step of the run. */
export function showStack(film, at, go) {
  const entries = entriesOf(film, at), rows = entries.map(entry => {
    const digits = [...entry.bytes].reverse().map(it => hex(it)).join(''), step = film.first + entry.by;
    const where = entry.by > 0 ? make('button', {type: 'button', onclick: () => go(step)}, `Step ${grouped(step)}`) : '';
    const cells = [make('td', {class: 'mono'}, digits), make('td', {}, wordsOf(film, entry)), make('td', {}, where)];
    return make('tr', {}, make('th', {scope: 'row'}, hex(entry.address, 4)), ...cells);
  });
  byId('stack').replaceChildren(...rows);
  byId('stack-says').textContent = rows.length === 0 ? 'The stack is empty.' : rows.length < MOST ? '' : 'Only the top of the stack is shown.';
}
