// A small terminal: it understands the sequences that the programs write, and draws the rows that changed. It draws no control strings.
import {make, setText} from './dom.mjs';

const SEQUENCE = /\x1b\[([?0-9;]*)([A-Za-z])|\x1b\]([^\x1b]*)\x1b\\|\x1b$|\x1b\[[?0-9;]*$|\x1b\][^\x1b]*\x1b?$|[^\x00-\x1f]+|[\s\S]/gu;
const PLAIN = Object.freeze({ink: '', paper: '', isBold: false, isInverse: false});
const BASIC = ['#000000', '#cd3131', '#0dbc79', '#e5e510', '#2472c8', '#bc3fbc', '#11a8cd', '#e5e5e5'];
const BRIGHT = ['#666666', '#f14c4c', '#23d18b', '#f5f543', '#3b8eea', '#d670d6', '#29b8db', '#ffffff'];
const BLANK = {text: ' ', style: PLAIN};

// The colour with this number of 256.
function colourOf(number) {
  if (number < 16) return [...BASIC, ...BRIGHT][number];
  if (number > 231) return `rgb(${Array(3).fill(8 + 10 * (number - 232))})`;
  const level = it => it === 0 ? 0 : 55 + 40 * it, at = number - 16;
  return `rgb(${[Math.floor(at / 36), Math.floor(at / 6) % 6, at % 6].map(level)})`;
}

export class Terminal {
  #row = 0;
  #column = 0;
  #style = PLAIN;
  #rest = '';
  /** Whether the cursor is shown. */
  hasCursor = true;
  #dirty = new Set();
  /** Is called with each control string. */
  told = () => {};

  /** @param {HTMLElement} element  @param {number} rows  @param {number} columns */
  constructor(element, rows, columns) {
    Object.assign(this, {rows, columns});
    this.cells = Array.from({length: rows}, () => this.#blank());
    this.lines = this.cells.map(() => make('div', {class: 'line'}));
    element.replaceChildren(...this.lines);
    this.#all();
  }

  /** Takes what a program wrote. (`draw` shows it.) */
  write(text) {
    const whole = this.#rest + text;
    this.#rest = '';
    this.#dirty.add(this.#row);
    for (const [piece, values, letter, string] of whole.matchAll(SEQUENCE)) {
      if (letter) this.#do(values, letter);
      else if (string !== undefined) this.told(string);
      else if (piece[0] === '\x1b') this.#rest = piece;
      else if (piece < ' ') this.#control(piece);
      else for (const it of piece) this.#put(it);
    }
    this.#dirty.add(this.#row);
  }

  /** What it shows, without blanks at the ends of lines. */
  get text() {
    return this.cells.map(row => row.map(it => it.text).join('').trimEnd()).join('\n').trimEnd();
  }

  #blank() {
    return Array(this.columns).fill(BLANK);
  }

  #all() {
    for (let row = 0; row < this.rows; ++row) this.#dirty.add(row);
  }

  #control(piece) {
    if (piece === '\n') this.#newLine();
    else if (piece === '\r') this.#column = 0;
    else if (piece === '\b') this.#column = Math.max(0, this.#column - 1);
  }

  #put(character) {
    if (this.#column >= this.columns) this.#newLine();
    this.cells[this.#row][this.#column++] = {text: character, style: this.#style};
    this.#dirty.add(this.#row);
  }

  // A new line also returns to the first column, as at a terminal of Linux.
  #newLine() {
    this.#column = 0;
    this.#dirty.add(this.#row);
    if (this.#row + 1 < this.rows) this.#row += 1;
    else {
      this.cells.shift();
      this.cells.push(this.#blank());
      this.#all();
    }
  }

  #do(values, letter) {
    const numbers = values.replace('?', '').split(';').map(it => it === '' ? undefined : Number(it)), one = numbers[0] ?? 1;
    const move = (row, column) => {
      this.#dirty.add(this.#row);
      this.#row = Math.max(0, Math.min(this.rows - 1, row));
      this.#column = Math.max(0, Math.min(this.columns - 1, column));
    };
    const moves = {
      H: () => move(one - 1, (numbers[1] ?? 1) - 1), A: () => move(this.#row - one, this.#column), B: () => move(this.#row + one, this.#column),
      C: () => move(this.#row, this.#column + one), D: () => move(this.#row, this.#column - one), G: () => move(this.#row, one - 1),
      J: () => this.#erase(numbers[0] === 2 ? 0 : this.#row, numbers[0] === 2 ? 0 : this.#column), K: () => this.#wipe(this.#row, this.#column),
      X: () => this.#wipe(this.#row, this.#column, this.#column + one), m: () => this.#colours(numbers),
    };
    if (values === '?25') this.hasCursor = letter === 'h';
    else if (values === '?1049') { this.#erase(0, 0); move(0, 0); }
    else moves[letter]?.();
    this.#dirty.add(this.#row);
  }

  #erase(row, column) {
    this.#wipe(row, column);
    for (let at = row + 1; at < this.rows; ++at) this.#wipe(at, 0);
  }

  #wipe(row, from, to = this.columns) {
    this.cells[row].fill(BLANK, from, Math.min(to, this.columns));
    this.#dirty.add(row);
  }

  #colours(numbers) {
    let style = {...this.#style};
    for (let at = 0; at < numbers.length; ++at) {
      const number = numbers[at] ?? 0, side = number === 38 ? 'ink' : 'paper', isLong = number === 38 || number === 48;
      if (number === 0) style = {...PLAIN};
      else if (number === 1) style.isBold = true;
      else if (number === 22) style.isBold = false;
      else if (number === 7) style.isInverse = true;
      else if (number === 27) style.isInverse = false;
      else if (number >= 30 && number < 38) style.ink = BASIC[number - 30];
      else if (number >= 40 && number < 48) style.paper = BASIC[number - 40];
      else if (number >= 90 && number < 98) style.ink = BRIGHT[number - 90];
      else if (number >= 100 && number < 108) style.paper = BRIGHT[number - 100];
      else if (number === 39) style.ink = '';
      else if (number === 49) style.paper = '';
      else if (isLong && numbers[at + 1] === 2) { style[side] = `rgb(${numbers.slice(at + 2, at + 5).map(it => it ?? 0)})`; at += 4; }
      else if (isLong && numbers[at + 1] === 5) { style[side] = colourOf(numbers[at + 2] ?? 0); at += 2; }
    }
    this.#style = Object.freeze(style);
  }

  /** Draws the rows that changed. */
  draw() {
    for (const row of this.#dirty) this.lines[row].replaceChildren(...this.#spans(row));
    this.#dirty.clear();
  }

  // The cells of a row, in pieces of one style.
  #spans(row) {
    const spans = [], cells = this.cells[row];
    for (let from = 0, to; from < this.columns; from = to) {
      const isCursor = at => this.hasCursor && row === this.#row && at === Math.min(this.#column, this.columns - 1), {style} = cells[from];
      for (to = from + 1; to < this.columns && cells[to].style === style && !isCursor(from) && !isCursor(to); ++to);
      const kinds = [style.isBold && 'bold', style.isInverse && 'inverse', isCursor(from) && 'cursor'];
      const span = make('span', {class: kinds.filter(Boolean).join(' ')});
      setText(span, cells.slice(from, to).map(it => it.text).join(''));
      if (style.ink) span.style.setProperty(style.isInverse ? 'background-color' : 'color', style.ink);
      if (style.paper) span.style.setProperty(style.isInverse ? 'color' : 'background-color', style.paper);
      spans.push(span);
    }
    return spans;
  }
}
