// The editor: a text area, so that undo, find, selection and input methods are the browser's own. Under it is the same text in colours,
// and beside it are the numbers of the lines. Only the visible part of both is made.
import {byId, make} from './dom.mjs';
import {piecesOf} from './colours.mjs';

const TAB = 8;
const BREAK_TITLE = 'A click sets a breakpoint, or removes it (F9)';

/** A mark of a line. @typedef {{line: number, from: number, width: number, kind: 'error' | 'warning', text: string}} Mark */

export class Editor {
  #marks = [];
  #lines = [''];
  #now = 0;
  #was = 0;

  /** @param {() => void} changed Is called after each change by the user, and after `text` is set. */
  constructor(changed) {
    this.area = byId('source');
    this.behind = byId('behind');
    this.gutter = byId('gutter');
    this.changed = changed;
    this.area.addEventListener('input', () => this.#take());
    this.area.addEventListener('scroll', () => this.#draw());
    this.area.addEventListener('keydown', event => this.#key(event));
    this.gutter.onclick = event => { if (event.target.dataset.line) this.toggleBreak(Number(event.target.dataset.line)); };
    new ResizeObserver(() => this.#draw()).observe(this.area);
  }

  /** The lines with a breakpoint. @type {Set<number>} */
  breaks = new Set();

  /** Sets a breakpoint on a line, or removes it. */
  toggleBreak(line) {
    if (!this.breaks.delete(line)) this.breaks.add(line);
    this.#draw();
    this.breaksChanged?.();
  }

  get text() {
    return this.area.value;
  }

  /** Another text, which cannot be undone: it is another program. */
  set text(text) {
    this.breaks.clear();
    this.area.value = text;
    this.area.setSelectionRange(0, 0);
    this.area.scrollTop = this.area.scrollLeft = 0;
    this.#take();
  }

  get lines() {
    return this.#lines;
  }

  /** @param {Mark[]} marks */
  showMarks(marks) {
    this.#marks = marks;
    this.#draw();
  }

  /** Marks the line that runs next and the one that just ran; 0 is none. */
  showPlace(now, was) {
    [this.#now, this.#was] = [now, was];
    if (now && document.activeElement !== this.area) this.#reveal(now);
    this.#draw();
  }

  /** Moves the cursor to a line and column, both from 1, and selects so many characters. */
  select(line, column, width = 0) {
    const at = this.#start(line) + Math.min(column - 1, this.#lines[line - 1]?.length ?? 0);
    this.area.focus();
    this.area.setSelectionRange(at, at + width);
    this.#reveal(line);
  }

  /** Replaces a part of a line so that undo can take it back. */
  replace(line, column, width, text) {
    this.select(line, column, width);
    this.#insert(text);
  }

  /** Replaces all, so that undo can take it back. */
  replaceAll(text) {
    this.area.focus();
    this.area.select();
    this.#insert(text);
  }

  #start(line) {
    return this.#lines.slice(0, line - 1).reduce((sum, it) => sum + it.length + 1, 0);
  }

  #insert(text) {
    // (`execCommand` is the only way to change a text area that keeps the browser's undo.)
    if (!document.execCommand(text ? 'insertText' : 'delete', false, text)) {
      this.area.setRangeText(text, this.area.selectionStart, this.area.selectionEnd, 'end');
      this.#take();
    }
  }

  #take() {
    const lines = this.area.value.split('\n');
    if (this.breaks.size > 0) this.breaks = new Set([...this.breaks].map(it => movedLine(it, this.#lines, lines)).filter(it => it <= lines.length));
    this.#lines = lines;
    this.#marks = [];
    this.#now = this.#was = 0;
    this.#draw();
    this.changed();
  }

  // Tab moves to the next column of eight, Enter keeps the indentation. Escape, then Tab leaves the editor.
  #key(event) {
    if (event.ctrlKey || event.metaKey || event.altKey || event.isComposing) return;
    const leaves = this.leaves;
    this.leaves = event.key === 'Escape';
    const {selectionStart: from, selectionEnd: to, value} = this.area, start = value.lastIndexOf('\n', from - 1) + 1;
    const isWhole = value.slice(from, to).includes('\n');
    if (event.key === 'F9') {
      event.preventDefault();
      this.toggleBreak(value.slice(0, from).split('\n').length);
    } else if (event.key === 'Tab' && !leaves) {
      event.preventDefault();
      if (isWhole || event.shiftKey) this.#indent(event.shiftKey);
      else this.#insert(' '.repeat(TAB - (from - start) % TAB));
    } else if (event.key === 'Enter' && !event.shiftKey) {
      event.preventDefault();
      const line = value.slice(start, from), indent = /^\s*/.exec(line)[0];
      this.#insert('\n' + (indent || (/^[^\s;*]\S*\s+\S/.test(line) ? ' '.repeat(TAB) : '')));
    }
  }

  // Moves the selected lines to the right, or to the left.
  #indent(toLeft) {
    const {selectionStart, selectionEnd, value} = this.area, from = value.lastIndexOf('\n', selectionStart - 1) + 1;
    const end = value.indexOf('\n', Math.max(selectionEnd - 1, from)), to = end < 0 ? value.length : end;
    const lines = value.slice(from, to).split('\n');
    const text = lines.map(it => toLeft ? it.replace(/^ {1,8}|^\t/, '') : it && ' '.repeat(TAB) + it).join('\n');
    if (text === value.slice(from, to)) return;
    this.area.setSelectionRange(from, to);
    this.#insert(text);
    this.area.setSelectionRange(from, from + text.length);
  }

  /** The width of a column in pixels. */
  get columnWidth() {
    const ruler = make('span', {class: 'row'}, '0'.repeat(100));
    this.behind.firstElementChild.append(ruler);
    const {width} = ruler.getBoundingClientRect();
    ruler.remove();
    return width / 100;
  }

  get #height() {
    return parseFloat(getComputedStyle(this.area).lineHeight);
  }

  #reveal(line) {
    const top = (line - 1) * this.#height, {scrollTop, clientHeight} = this.area;
    if (top < scrollTop + 2 * this.#height || top > scrollTop + clientHeight - 4 * this.#height) this.area.scrollTop = top - clientHeight / 2;
  }

  // Draws the lines that can be seen.
  #draw() {
    const height = this.#height, {scrollTop, scrollLeft, clientHeight} = this.area;
    const first = Math.max(0, Math.floor(scrollTop / height) - 1), end = Math.min(this.#lines.length, first + Math.ceil(clientHeight / height) + 3);
    const numbers = [], rows = [];
    for (let at = first; at < end; ++at) {
      const mark = this.#marks.find(it => it.line === at + 1), place = at + 1 === this.#now ? ' now' : at + 1 === this.#was ? ' was' : '';
      const kinds = (mark?.kind ?? '') + place + (this.breaks.has(at + 1) ? ' break' : '');
      numbers.push(make('div', {class: kinds, 'data-line': at + 1, title: BREAK_TITLE}, String(at + 1)));
      rows.push(this.#row(at, place));
    }
    const top = first * height - scrollTop;
    this.gutter.firstElementChild.replaceChildren(...numbers);
    this.gutter.firstElementChild.style.transform = `translateY(${top}px)`;
    this.gutter.style.minWidth = `${Math.max(3, String(this.#lines.length).length) + 1.6}ch`;
    this.behind.firstElementChild.replaceChildren(...rows);
    this.behind.firstElementChild.style.transform = `translate(${-scrollLeft}px, ${top}px)`;
  }

  #row(at, place) {
    const pieces = piecesOf(this.#lines[at]).map(([kind, text]) => kind ? make('span', {class: `c-${kind}`}, text) : text);
    const row = make('div', {class: `row${place}`}, ...pieces, '\n');
    for (const {line, from, width, kind, text} of this.#marks) {
      if (line !== at + 1) continue;
      const mark = make('span', {class: `mark ${kind}`, title: text});
      mark.style.left = `${columns(this.#lines[at].slice(0, from))}ch`;
      mark.style.width = `${Math.max(1, columns(this.#lines[at].slice(from, from + width)))}ch`;
      row.append(mark);
    }
    return row;
  }
}

// The number of a line after an edit, for its number before.
function movedLine(line, before, after) {
  let same = 0;
  while (same < line && before[same] === after[same]) same += 1;
  return same === line ? line : Math.max(1, line + after.length - before.length);
}

// How many columns a text at the start of a line takes.
function columns(text) {
  let count = 0;
  for (const it of text) count += it === '\t' ? TAB - count % TAB : 1;
  return count;
}
