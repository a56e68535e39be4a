// Shows bytes of memory that the user names, at each step of a run.
import {byId, hex, make} from './dom.mjs';

const RAM = 49152, MOST = 32;

/**
 * Returns the address of a word: a name of the source, or a number such as $24.
 * @param {Record<number, string>} names The names of a film by their addresses.
 */
export function addressOf(word, names) {
  const number = /^\$([0-9A-F]{1,4})$/i.exec(word), address = number ? parseInt(number[1], 16) :
    Number(Object.keys(names).find(it => names[it].toUpperCase() === word.toUpperCase()) ?? NaN);
  return address < RAM ? address : undefined;
}

export class Watch {
  #last = null;

  /** @param {(address: number) => void} choose Is called with a byte that the user asks about. */
  constructor(choose) {
    byId('watch').oninput = () => { if (this.#last) this.show(...this.#last); };
    byId('watched').onclick = event => { const it = event.target.closest('button'); if (it?.dataset.address) choose(Number(it.dataset.address)); };
  }

  /** Shows the bytes at the present step of a film. @param {object} film  @param {Set<number>} changed What the step changed. */
  show(film, changed) {
    this.#last = [film, changed];
    const words = byId('watch').value.split(/[\s,]+/).filter(Boolean).slice(0, MOST);
    byId('watched').replaceChildren(...words.map(word => {
      const address = addressOf(word, film.NAME);
      if (address === undefined) return make('span', {class: 'hint'}, `${word}: not a name or address of this program`);
      const byte = film.ram[address], title = film.nm(address);
      return make('button', {type: 'button', 'data-address': address, class: changed.has(address) ? 'changed' : '', 'aria-label': `${title} ${hex(byte)}`},
        make('small', {}, `${title} = ${byte}`), make('b', {}, hex(byte)));
    }));
  }
}
