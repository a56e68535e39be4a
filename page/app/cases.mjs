// Reads the tests of a program as far as running a case again needs it: what runs, with which keys, and how long. What a case checks and
// whether it passes, `a2lab test` says. The forms are those of docs/manual/class.md.

/** The run of a case. @typedef {{name: string, line: number, keys: string, limit: number, call: string | null}} Case */

const LIMIT = 1000000;
// Reads a number of steps. (Another text is an error of the tests, and `a2lab test` reports it.)
const READS = {keys: rest => rest, limit: rest => Number(rest) || LIMIT, call: rest => rest.trim()};

/** Returns the cases of a text. Lines before the first case apply to all; if there is no line `case`, all of it is one case. @returns {Case[]} */
export function casesIn(want) {
  const shared = {name: '', line: 1, keys: '', limit: LIMIT, call: null}, cases = [];
  want.split('\n').forEach((text, at) => {
    const [, word, rest = ''] = /^\s*(\w+)(?:\s(.*))?$/.exec(text.replace(/\r$/, '')) ?? [];
    if (word === 'case') cases.push({...shared, name: rest.trim(), line: at + 1});
    else if (word in READS) Object.assign(cases.at(-1) ?? shared, {[word]: READS[word](rest)});
  });
  return cases.length > 0 ? cases : [shared];
}

const LOADS = {A: 'LDA', X: 'LDX', Y: 'LDY'};

/** Returns the lines before the source in a case: those that call its routine, or none. @param {Case} it  @returns {string[]} */
export function linesBefore({call}) {
  if (call === null) return [];
  const [name, ...words] = call.split(/\s+/), settings = words.map(it => it.split('='));
  const stores = settings.filter(([place]) => !(place in LOADS)).flatMap(([place, byte]) => [` LDA #$${byte}`, ` STA ${place}`]);
  const loads = settings.filter(([place]) => place in LOADS).map(([place, byte]) => ` ${LOADS[place]} #$${byte}`);
  return [' ORG $BF00', ...stores, ...loads, ` JSR ${name}`, ' RTS', ' ORG $300'];
}
