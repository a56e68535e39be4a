// Explains the word at the cursor, or under the mouse, by `a2lab help`.
import {byId, hex, later, make} from './dom.mjs';
import {Cancelled, Runner, faultText} from './programs.mjs';

// The mouse rests if it does not move for so many milliseconds.
const REST = 500;
const WORD = /[A-Za-z_.][\w.]*|\$[0-9A-Fa-f]+|%[01]+|\d+/g;

// The word of a line that has the cursor, or its first operation.
function wordAt(line, column) {
  const words = [...line.matchAll(WORD)];
  return words.find(it => it.index <= column && column <= it.index + it[0].length)?.[0] ?? words[0]?.[0];
}

// A number in three forms, or nothing.
function formsOf(word) {
  const value = word.startsWith('$') ? parseInt(word.slice(1), 16) : word.startsWith('%') ? parseInt(word.slice(1), 2) : /^\d+$/.test(word) ? Number(word) : NaN;
  return value < 65536 ? `$${hex(value, value < 256 ? 2 : 4)} = ${value} = %${value.toString(2).padStart(value < 256 ? 8 : 16, '0')}` : '';
}

// The word under the mouse, or nothing.
function wordUnder(editor, {clientX, clientY}) {
  const {area, lines} = editor, {left, top} = area.getBoundingClientRect(), style = getComputedStyle(area);
  const line = lines[Math.floor((clientY - top + area.scrollTop - parseFloat(style.paddingTop)) / parseFloat(style.lineHeight))] ?? '';
  const column = Math.floor((clientX - left + area.scrollLeft - parseFloat(style.paddingLeft)) / editor.columnWidth);
  return [...line.matchAll(WORD)].find(it => it.index <= column && column < it.index + it[0].length)?.[0];
}

// What is known of a word: the line of the source that defines it, and what `help` says. (Of other words `help` says nothing useful. A name
// of the source may be one of the manual's words by chance, such as LOOP or Z.)
async function knownOf(word, lines, runner) {
  const at = lines.findIndex(it => it.match(/^[A-Za-z_.][\w.]*/)?.[0].toUpperCase() === word.toUpperCase());
  const {status, stdout} = await runner.run(['a2lab', 'help', word], {}), [title] = stdout.split('\n');
  const isMeant = at < 0 || (word.length > 1 && title.includes(word.toUpperCase()));
  return [formsOf(word), at < 0 ? '' : `line ${at + 1}: ${lines[at].trim()}`, status === 0 && isMeant ? stdout.trimEnd() : ''].filter(Boolean).join('\n');
}

// Explains the word on which the mouse rests.
function hover(editor) {
  const runner = new Runner(), tip = byId('hover'), hide = () => { tip.hidden = true; };
  const rest = later(REST, async event => {
    const word = wordUnder(editor, event);
    if (!word) return;
    try {
      const text = await knownOf(word, editor.lines, runner);
      if (!text || !editor.area.matches(':hover')) return;
      tip.textContent = text;
      tip.hidden = false;
      tip.style.left = `${Math.max(8, Math.min(event.clientX, innerWidth - tip.offsetWidth - 8))}px`;
      tip.style.top = `${event.clientY + tip.offsetHeight + 24 < innerHeight ? event.clientY + 16 : Math.max(8, event.clientY - tip.offsetHeight - 12)}px`;
    } catch (error) {
      if (!(error instanceof Cancelled)) throw error;
    }
  });
  editor.area.addEventListener('mousemove', event => { hide(); rest(event); });
  for (const it of ['mouseleave', 'input', 'scroll', 'keydown']) editor.area.addEventListener(it, hide);
}

/** Lets the user ask. @param {import('./editor.mjs').Editor} editor */
export function listen(editor) {
  const runner = new Runner(), area = byId('help');
  const close = () => area.replaceChildren();
  const closer = make('button', {type: 'button', 'aria-label': 'Close this help', onclick: close}, '×');
  const show = text => area.replaceChildren(make('pre', {tabindex: 0}, text), closer);
  const explain = async () => {
    const {value, selectionStart: at} = editor.area, from = value.lastIndexOf('\n', at - 1) + 1, end = value.indexOf('\n', at);
    const word = wordAt(value.slice(from, end < 0 ? undefined : end), at - from);
    if (!word) return show('Put the cursor on a word of the program first, such as LDA or COUT.');
    try {
      const {fault, stdout, stderr} = await runner.run(['a2lab', 'help', word], {});
      show(fault ? faultText(fault) : [formsOf(word), stdout.trimEnd()].filter(Boolean).join('\n') || stderr.trimEnd());
    } catch (error) {
      if (!(error instanceof Cancelled)) show(error.message);
    }
  };
  hover(editor);
  byId('explain').onclick = explain;
  editor.area.addEventListener('keydown', event => { if (event.key === 'F1') { event.preventDefault(); explain(); } });
}
