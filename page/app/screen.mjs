// Draws the screen of the machine from its bytes in RAM, and its switches.
import {COLOURS, COLUMNS, DOT, HEIGHT, Pen, ROWS} from './pen.mjs';

const TEXT_SWITCH = 1, MIXED = 2, PAGE_2 = 4, HI_RES = 8;
const FIRST_TEXT_ROW = 20, FLASH_TIME = 270;
// Hi-res: the number of the first colour of a dot, and those of two dots beside each other and of none.
const HI_RES_HUES = 17, WHITE = COLOURS[15], BLACK = COLOURS[0], FRAME = '#ffcf33';
// What a cell shows that must be drawn again.
const STALE = '';

/** The address in page 1 of a cell. */
export function cellAt(row, column) {
  return 0x400 + 128 * (row % 8) + 40 * (row >> 3) + column;
}

/** The character that a byte shows. */
export function characterOf(byte) {
  const low = byte & 63;
  return String.fromCharCode(low < 32 ? low + 64 : low);
}

/** What the switches show, in words. */
export function nameOf(switches) {
  const page = `page ${switches & PAGE_2 ? 2 : 1}`;
  if (switches & TEXT_SWITCH) return `text, ${page}`;
  return `${switches & HI_RES ? 'hi-res' : 'lo-res'}${switches & MIXED ? ' and four rows of text' : ''}, ${page}`;
}

export class Screen {
  #isInverted = false;
  #timer;
  #drawn = null;
  // What each cell shows, and each row of hi-res.
  #cells = [];
  #lines = [];

  /**
   * @param {HTMLCanvasElement} canvas
   * @param {HTMLElement} words Gets the screen as text, for those who do not see it.
   * @param {string[]} colours The sixteen colours of lo-res.
   */
  constructor(canvas, words, colours) {
    Object.assign(this, {words, colours, pen: new Pen(canvas)});
    this.still = matchMedia('(prefers-reduced-motion: reduce)');
  }

  /** @param {Uint8Array} ram  @param {number} switches  @param {Set<number>} [changed] Addresses whose cells get a frame. */
  show(ram, switches, changed = new Set()) {
    this.#drawn = [ram, switches, changed];
    this.#draw();
  }

  /** Makes the screen blank. */
  clear() {
    this.#drawn = null;
    clearTimeout(this.#timer);
    this.#cells = [];
    this.#lines = [];
    this.pen.clear();
    this.words.textContent = '';
  }

  /** Returns the address that is shown at a place of the canvas; both are from 0 to 1. */
  addressAt(across, down) {
    const of = (part, count) => Math.max(0, Math.min(count - 1, Math.floor(part * count)));
    return cellAt(of(down, ROWS), of(across, COLUMNS)) + (this.#drawn?.[1] & PAGE_2 ? 0x400 : 0);
  }

  #draw() {
    const [ram, switches, changed] = this.#drawn, offset = switches & PAGE_2 ? 0x400 : 0, lines = [];
    let flashes = false;
    for (let row = 0; row < ROWS; ++row) {
      const isText = switches & TEXT_SWITCH || switches & MIXED && row >= FIRST_TEXT_ROW;
      let line = '';
      for (let column = 0; column < COLUMNS; ++column) {
        const address = cellAt(row, column) + offset, byte = ram[address];
        const isHiRes = !isText && (switches & HI_RES) !== 0;
        if (isText) flashes = this.#character(row, column, byte) || flashes;
        else if (!isHiRes) this.#blocks(row, column, byte);
        line += isText ? characterOf(byte) : ' ';
        if (changed.has(address) && changed.size < 400 && !isHiRes) this.#frame(row, column);
      }
      lines.push(line.trimEnd());
      if (!isText && switches & HI_RES) this.#hiRes(ram, row, switches & PAGE_2 ? 0x4000 : 0x2000);
    }
    this.words.textContent = lines.join('\n').trimEnd() || 'The screen is blank.';
    this.#flash(flashes);
  }

  // Whether a cell shows something else than this. From now on it shows this.
  #shows(row, column, what) {
    const at = row * COLUMNS + column, isOther = this.#cells[at] !== what;
    this.#cells[at] = what;
    this.#lines[row] = STALE;
    return isOther;
  }

  #blocks(row, column, byte) {
    if (this.#shows(row, column, `blocks ${byte}`)) this.pen.blocks(row, column, this.colours[byte & 15], this.colours[byte >> 4]);
  }

  #frame(row, column) {
    this.pen.frame(row, column, FRAME);
    this.#shows(row, column, STALE);
  }

  // Whether the character flashes.
  #character(row, column, byte) {
    const flashes = byte >= 64 && byte < 128, isInverse = byte < 64 || flashes && (this.#isInverted || this.still.matches);
    if (this.#shows(row, column, `${byte & 63} ${isInverse}`)) this.pen.character(row, column, byte & 63, isInverse);
    return flashes;
  }

  // The eight lines of dots of a row. A dot alone has the colour of its column; two beside each other are white.
  #hiRes(ram, row, page) {
    const lines = Array.from({length: 8}, (_, line) => page + 1024 * line + 128 * (row % 8) + 40 * (row >> 3));
    const bytes = lines.map(from => ram.subarray(from, from + COLUMNS).join()).join();
    if (this.#lines[row] === bytes) return;
    for (let column = 0; column < COLUMNS; ++column) this.#shows(row, column, STALE);
    this.#lines[row] = bytes;
    for (const [line, from] of lines.entries()) {
      const isOn = dot => dot >= 0 && dot < 280 && ram[from + Math.floor(dot / 7)] >> dot % 7 & 1;
      for (let dot = 0; dot < 280; ++dot) {
        const hue = COLOURS[HI_RES_HUES + 2 * (ram[from + Math.floor(dot / 7)] >> 7) + dot % 2];
        const colour = !isOn(dot) ? BLACK : isOn(dot - 1) || isOn(dot + 1) ? WHITE : hue;
        this.pen.fill(colour, dot * DOT, row * HEIGHT + line * DOT, DOT, DOT);
      }
    }
  }

  #flash(flashes) {
    clearTimeout(this.#timer);
    if (!flashes || this.still.matches) return;
    this.#timer = setTimeout(() => { this.#isInverted = !this.#isInverted; this.#draw(); }, FLASH_TIME);
  }
}
