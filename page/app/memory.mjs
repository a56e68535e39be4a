// Shows a page of memory, and what a step changed there.
import {byId, hex, make, setText} from './dom.mjs';
import {characterOf} from './screen.mjs';

const RAM_PAGES = 192, SIDE = 16;
const NAMES = {0: 'zero page', 1: 'stack', 2: 'input line'};

// What a page is used for.
function nameOf(page) {
  return NAMES[page] ?? (page >= 4 && page < 12 ? `screen, page ${page < 8 ? 1 : 2}` : '');
}

// The character of a byte, as the screen shows it or in ASCII.
function letterOf(byte) {
  if (byte > 0x9f || byte < 0x20) return characterOf(byte);
  return byte < 0x7f ? String.fromCharCode(byte) : '·';
}

const times = (count, make) => Array.from({length: count}, (_, at) => make(at));

export class MemoryTable {
  #page = 4;

  /** @param {(address: number) => void} choose Is called with a byte that the user asks about.  @param {() => void} turned */
  constructor(choose, turned) {
    this.choose = choose;
    const bytes = () => times(SIDE, () => make('td', {tabindex: -1}));
    const rows = times(SIDE, () => make('tr', {}, make('th', {scope: 'row'}), ...bytes(), make('td', {class: 'words'})));
    this.cells = rows.map(it => [...it.children]);
    this.cells[0][1].tabIndex = 0;
    byId('memory').replaceChildren(make('tr', {}, make('td'), ...times(SIDE, at => make('th', {scope: 'col'}, hex(at, 1))), make('td')), ...rows);
    byId('memory').onclick = event => this.choose(this.#addressOf(event.target));
    byId('memory').onkeydown = event => this.#key(event);
    byId('page').append(...times(RAM_PAGES, at => make('option', {value: at}, `$${hex(at)}00 ${nameOf(at)}`)));
    const turn = page => { this.turn(page); turned(); };
    byId('page').onchange = event => turn(Number(event.target.value));
    byId('page-down').onclick = () => turn(this.#page - 1);
    byId('page-up').onclick = () => turn(this.#page + 1);
  }

  /** Shows another page, and stays there. */
  turn(page) {
    this.#page = (page + RAM_PAGES) % RAM_PAGES;
    byId('follow').checked = false;
  }

  /**
   * Shows the memory of a film at its present step.
   * @param {object} film  @param {Set<number>} changed What the step changed.  @param {number | string | null} chosen
   */
  show(film, changed, chosen) {
    // (A push changes the stack, which is shown elsewhere too.)
    if (byId('follow').checked && changed.size > 0) this.#page = ([...changed].find(it => it >> 8 !== 1) ?? [...changed][0]) >> 8;
    byId('page').value = this.#page;
    this.cells.forEach((row, index) => this.#row(row, this.#page * 256 + index * SIDE, film, changed, chosen));
  }

  #row(row, from, film, changed, chosen) {
    const isWhole = film.first === 0 && film.count > 0;
    setText(row[0], hex(from, 4));
    for (let column = 0; column < SIDE; ++column) {
      const address = from + column, byte = film.ram[address], cell = row[column + 1];
      const isOther = isWhole && byte !== film.start[address];
      const kinds = [changed.has(address) && 'changed', address === chosen && 'chosen', isOther && 'ever', byte === 0 && 'zero'];
      setText(cell, hex(byte));
      cell.className = kinds.filter(Boolean).join(' ');
      cell.title = film.nm(address);
    }
    setText(row[SIDE + 1], [...film.ram.subarray(from, from + SIDE)].map(letterOf).join(''));
  }

  // The address of a cell, or nothing.
  #addressOf(cell) {
    const row = this.cells.findIndex(it => it.includes(cell)), column = row < 0 ? 0 : this.cells[row].indexOf(cell);
    return column >= 1 && column <= SIDE ? this.#page * 256 + row * SIDE + column - 1 : undefined;
  }

  #key(event) {
    const by = {ArrowRight: 1, ArrowLeft: -1, ArrowDown: SIDE, ArrowUp: -SIDE}[event.key], address = this.#addressOf(event.target);
    if (address === undefined) return;
    if (event.key === 'Enter' || event.key === ' ') this.choose(address);
    else if (by) this.#focus((address & 255) + by);
    else return;
    event.preventDefault();
  }

  // One cell of the table is reached by Tab, the others by the arrows.
  #focus(at) {
    if (at < 0 || at > 255) return;
    for (const cell of this.cells.flat()) if (cell.tabIndex === 0) cell.tabIndex = -1;
    const cell = this.cells[Math.floor(at / SIDE)][at % SIDE + 1];
    cell.tabIndex = 0;
    cell.focus();
  }
}
