// Makes the page's reader of films from the script of the film's own page (crates/a2_film/data/viewer.html): the same lines read the data,
// go to a step, search for a change and say what a step did. So the two pages cannot differ, and nothing is written twice.
import fs from 'node:fs';

// A section of the script begins with a line that begins like this.
const section = name => `// ---- ${name}`;

// What the sections use of the film's page, without that page. Texts stay texts: the page never makes HTML of them.
const BEFORE = `const $ = () => ({textContent: T0}), txt = () => {}, esc = it => it, chr = String.fromCharCode;
const {max, min, floor, ceil, log, abs} = Math;
const h = (v, n) => v.toString(16).toUpperCase().padStart(n, 0), hx = (v, n = 2) => '$' + h(v, n), X = t => parseInt(t, 16), RAM = 49152;
let went = 0;
const go = k => { went = k; };
`;

// The lines that are not the user's leave the source and the list, so that the numbers of the others are those of the user.
const OWN_LINES = `F.source.splice(0, linesBefore);
F.list = F.list.map(([line, ...rest]) => [line - linesBefore, ...rest]).filter(([line]) => line > 0);
`;

// The cycles of the steps whose instruction uses this address for its data.
const TOUCHES = `const touches = address => {
  const found = [];
  for (let k = 1; k <= N; k++) {
    seek(k);
    const p = PC[k - 1], was = a => {
      for (let c = FIRST[k]; c < FIRST[k + 1]; c++) if (ADR[c] == a) return OLD[c];
      return a < RAM ? ram[a] : 0;
    };
    if (!svc[p] && area(p, was(p), REG.y[k - 1], REG.x[k - 1], was) == address) found.push(CY[k]);
  }
  return found;
};
`;

const AFTER = `return {
  head: F, first: B, count: N, PC, CY, REG, KEY, SW, FIRST, ADR, OLD, NEW, ram, start, LINE, NAME, code, svc, seek, lineOf, nm, scrname,
  get at() { return at; },
  said: k => step(k) + ': ' + words(k),
  find: (what, direction, from) => { typeof what === 'string' ? (selr = what) : (selr = '', sel = what); return find(direction, from); },
  over: direction => { over(direction); return went; },
  why: STOP,
  touches,
};
`;

class Wrong extends Error {}

// The text from the start of a section to the start of the next.
function part(script, name) {
  const from = script.indexOf(section(name)), next = script.indexOf('// ---- ', from + 1), end = next < 0 ? script.length : next;
  if (from < 0) throw new Wrong(`viewer.html has no section ${name}`);
  return script.slice(script.indexOf('\n', from) + 1, end);
}

// The line that begins like this, and so many lines after it.
function lines(text, start, more = 0) {
  const all = text.split('\n'), at = all.findIndex(it => it.startsWith(start));
  if (at < 0) throw new Wrong(`viewer.html has no line that begins with ${start}`);
  return all.slice(at, at + 1 + more).join('\n') + '\n';
}

/**
 * Returns a script that declares `openFilm`, which reads the data of a film.
 * @param {string} file The page of a film that a2lab wrote, or viewer.rt: any text with the whole script in it.
 */
export function readerOf(file) {
  const whole = fs.readFileSync(file, 'utf8'), script = whole.slice(whole.indexOf('"use strict";'));
  const [film, place, listing, plain, screen, who, controls] = ['the film', 'where we are', 'the listing', 'plain words', 'the screen',
    'who wrote this', 'controls'].map(it => part(script, it));
  const names = [...['const LINE={}', 'for(const s of F.list)', 'for(const[n,v]of F.names)', 'const cutc='].map(it => lines(listing, it)),
    'F.source.forEach(t => { const j = t[0] == "*" ? 0 : cutc(t);\n', lines(listing, 'code.push('), '});\n'];
  const searches = [lines(who, 'const what='), lines(who, 'function find(', 2), lines(who, 'function stepOf('), lines(controls, 'function over(')];
  return `const loresColours = (() => {\n${lines(screen, 'const COL=')}return COL;\n})();
const openFilm = (T0, linesBefore) => {
${[BEFORE, film, OWN_LINES, place, ...names, plain, ...searches, TOUCHES, AFTER].join('')}};
`;
}
