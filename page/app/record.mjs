// Reads the record of a live session: a line for each key, with its step and its code, and a last line with the number of all steps.
// Its form is in docs/manual/terminal.md. Whether it belongs to a program, `a2lab run --replay` says.

/**
 * Returns how many keys and steps a record has, or nothing if it has another form.
 * @param {string} record
 * @returns {{keys: number, steps: number} | null}
 */
export function sizeOf(record) {
  const lines = record.trimEnd().split('\n'), end = /^(\d+) END$/.exec(lines.pop());
  return end && lines.every(it => /^\d+ [0-9A-F]{2}$/.test(it)) ? {keys: lines.length, steps: Number(end[1])} : null;
}
