// What a click on `Fix it` writes. `check` says in words what to write; some of these words are exactly the new text.

/**
 * A change of a line: `width` characters from `from` become `text`. Lines count from 1.
 * @typedef {object} Change
 * @property {number} line
 * @property {number} from
 * @property {number} width
 * @property {string} text
 */

// A statement: everything before a comment that is not in quotes, without the blanks at its end.
const STATEMENT = /^(?:"[^"]*"|'[^']*'|'.|[^;"'])*/;
// Words that are a remark on what is to be written, or say that it needs several lines.
const REMARK = /,? (?:then|to|which|and|or|for|in|as) /;
const NAME = '[A-Za-z_][A-Za-z0-9_.]*';

/** Returns the column in a line at which its statement ends. */
function endOf(line) {
  return STATEMENT.exec(line)[0].trimEnd().length;
}

// The forms of a fix, each with what it changes in the line. `marked` replaces the characters that the error marks.
const FORMS = [
  [/^did you mean `?([\w.]+)`?\?$/, ([, name], {marked}) => marked(name)],
  // A number: `write $41`, `write %101`.
  [/^write ([$%][0-9A-Fa-f]+)(?: if it is a hexadecimal number)?$/, ([, number], {marked}) => marked(number)],
  // The label alone, without its colon.
  [new RegExp(`^write (${NAME})$`), ([, name], {marked}) => marked(name)],
  [/^use (>) instead$/, ([, sign], {marked}) => marked(sign)],
  [/^use \( and \)$/, (_, {line, from}) => {
    const end = endOf(line);
    return {from, width: end - from, text: line.slice(from, end).replaceAll('[', '(').replaceAll(']', ')')};
  }],
  // A whole line with a name: `write COUNT EQU $06`.
  [new RegExp(`^write (${NAME} EQU .+)$`), ([, text], {line}) => ({from: 0, width: endOf(line), text})],
  // An operation with its operand, which is after two blanks: `write  LDA #5`. One blank stays before it: column 1 is for labels.
  [/^write  ([A-Z]{2,4}(?: .+)?)$/, ([, text], {line, from}) => {
    return REMARK.test(text) ? undefined : {from, width: endOf(line) - from, text: from ? text : ` ${text}`};
  }],
  // A line at the beginning: `add the line COUT EQU $FDED`.
  [new RegExp(`^add the line (${NAME}) (EQU \\$[0-9A-F]+)$`), ([, name, rest]) => ({line: 1, from: 0, width: 0, text: `${name.padEnd(7)} ${rest}\n`})],
];

/**
 * Returns the change that a fix describes, or `undefined` if its words are no text to write.
 * @param {{line: number, from: number, width: number, fix?: string, replacement?: string}} problem
 * @param {string[]} lines The lines of the program.
 * @returns {Change | undefined}
 */
export function changeOf({line: number, from, width, fix = '', replacement}, lines) {
  const line = lines[number - 1] ?? '', marked = text => ({from, width, text});
  if (typeof replacement === 'string') return {line: number, ...marked(replacement)};
  for (const [form, change] of FORMS) {
    const found = form.exec(fix);
    const made = found && change(found, {line, from, marked});
    if (made) return {line: number, ...made};
  }
  return undefined;
}
