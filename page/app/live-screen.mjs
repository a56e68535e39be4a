// Draws what `play` writes to its terminal as the machine shows it: the left half is the screen, the right half is text beside it.
import {inNextFrame, seldom, setText} from './dom.mjs';
import {COLOURS, COLUMNS, Pen, ROWS} from './pen.mjs';

// Where the text of the right half begins.
const PANEL = COLUMNS + 2;
const BLACK = COLOURS[0], LIGHT = COLOURS[16];
// The text beside the screen has counts that change with each step. Nobody reads them more often than so many milliseconds.
const PANEL_TIME = 200;

const textOf = cells => cells.map(it => it.text).join('').trimEnd();

export class LiveScreen {
  #pen;
  #drawn = [];
  #drawSoon = inNextFrame(() => this.#draw());
  #tellSoon = seldom(PANEL_TIME, () => setText(this.panel, this.#panelText));

  /**
   * @param {HTMLCanvasElement} canvas
   * @param {HTMLElement} panel
   * @param {import('./terminal.mjs').Terminal} terminal
   */
  constructor(canvas, panel, terminal) {
    this.#pen = new Pen(canvas);
    Object.assign(this, {panel, terminal});
  }

  /** Draws what changed, before the next frame. Returns whether the machine's screen changed. */
  show() {
    this.#tellSoon();
    const isOther = (row, at) => row.slice(0, COLUMNS).some((cell, column) => cell !== this.#drawn[at * COLUMNS + column]);
    const hasChanged = this.terminal.cells.slice(0, ROWS).some(isOther);
    if (hasChanged) this.#drawSoon();
    return hasChanged;
  }

  /** The characters that are drawn. */
  get text() {
    return Array.from({length: ROWS}, (_, row) => textOf(this.#drawn.slice(row * COLUMNS, (row + 1) * COLUMNS))).join('\n').trimEnd();
  }

  get #panelText() {
    return this.terminal.cells.slice(0, ROWS).map(row => textOf(row.slice(PANEL))).join('\n').trimEnd();
  }

  #draw() {
    for (let row = 0; row < ROWS; ++row) {
      for (let column = 0; column < COLUMNS; ++column) {
        const cell = this.terminal.cells[row][column], at = row * COLUMNS + column;
        if (this.#drawn[at] === cell) continue;
        this.#drawn[at] = cell;
        this.#cell(row, column, cell);
      }
    }
  }

  // A block character is two blocks of lo-res; any other character is one of the machine's.
  #cell(row, column, {text, style}) {
    const ink = style.ink || LIGHT, paper = style.paper || BLACK;
    const blocks = {'▀': [ink, paper], '▄': [paper, ink], '█': [ink, ink]}[text];
    if (blocks) this.#pen.blocks(row, column, ...blocks);
    else if (text === ' ' && style.paper) this.#pen.blocks(row, column, paper, paper);
    else this.#pen.character(row, column, text.charCodeAt(0) & 63, style.isInverse);
  }
}
