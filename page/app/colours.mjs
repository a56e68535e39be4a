// Divides a line of the source into pieces that are coloured alike. This is for the eye only: what a line means, `check` says.

const PIECES = /("[^"]*"?|'[^']*'?)|(;.*)|(#?[<>]?(?:\$[0-9A-Fa-f]+|%[01]+|\b\d+\b))|(\b[A-Za-z_.][\w.]*)|(\s+|.)/g;
// A longer line is not coloured: the assembler does not take it.
const LONGEST = 1000;
const KINDS = ['text', 'comment', 'number', 'word', ''];

/**
 * Returns the pieces of a line: each a kind and its text. Kinds are label, operation, text, number, comment, word, and '' for the rest.
 * @param {string} line
 * @returns {[string, string][]}
 */
export function piecesOf(line) {
  if (line.length > LONGEST) return [['', line]];
  if (line.startsWith('*')) return [['comment', line]];
  const label = /^[^\s;]+/.exec(line)?.[0] ?? '', pieces = label ? [['label', label]] : [];
  let isOperation = true;
  for (const match of line.slice(label.length).matchAll(PIECES)) {
    const kind = KINDS[match.slice(1).findIndex(it => it !== undefined)];
    pieces.push([kind === 'word' && isOperation ? 'operation' : kind, match[0]]);
    if (match[0].trim()) isOperation = false;
  }
  return pieces;
}
