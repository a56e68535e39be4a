// Compares what the page of a film reads from its data with the program: node read.mjs A2 FILM.html SOURCE [ARGUMENTS..]
// At some steps of the film it compares registers, flags, cycles, and on a text page the screen, with the output of
// `A2 run SOURCE --limit STEP ARGUMENTS..`. No browser is needed: the page's reader runs by itself. The last line is
// 'N passed, M failed', with one for each step that is compared.
import {readFileSync} from 'node:fs';
import {execFileSync} from 'node:child_process';

const [a2, file, source, ...words] = process.argv.slice(2);
const page = readFileSync(file, 'latin1');
const tag = '<script type="text/plain" id="film">';
const from = page.indexOf(tag) + tag.length;
const data = page.slice(from, page.indexOf('</script>', from));
const script = page.slice(page.indexOf('"use strict";'), page.indexOf('// ---- where we are'));
const film = new Function('document', script + '\nreturn {start,N,PC,CY,REG,FIRST,ADR,NEW,SW};')({getElementById: () => ({textContent: data})});

const hex = (value, digits) => value.toString(16).toUpperCase().padStart(digits, '0');
const line = k => 'A=' + hex(film.REG.a[k], 2) + ' X=' + hex(film.REG.x[k], 2) + ' Y=' + hex(film.REG.y[k], 2) + ' P=' + hex(film.REG.p[k], 2)
  + ' S=' + hex(film.REG.s[k], 2) + ' PC=' + hex(film.PC[k], 4) + ' STEPS=' + k + ' CYCLES=' + film.CY[k];
const ram = k => { const bytes = film.start.slice(); for (let i = 0; i < film.FIRST[k + 1]; i++) bytes[film.ADR[i]] = film.NEW[i]; return bytes; };
const character = byte => String.fromCharCode((byte & 63) < 32 ? (byte & 63) + 64 : byte & 63);
const rows = (bytes, second) => [...Array(24).keys()].map(row => [...Array(40).keys()]
  .map(column => character(bytes[1024 + 128 * (row % 8) + 40 * (row >> 3) + column + (second ? 1024 : 0)])).join(''));

let passed = 0, failed = 0;
const steps = new Set([0, 1, 2, film.N - 1, film.N]);
for (let i = 1; i < 40; i++) steps.add(Math.floor(film.N * i / 40));
for (const k of [...steps].filter(k => k >= 0 && k <= film.N).sort((a, b) => a - b)) {
  let shown;
  try { shown = execFileSync(a2, ['run', source, '--limit', String(k), ...words], {encoding: 'latin1'}); } catch (error) { shown = error.stdout; }
  const told = shown.split('\n'), wrong = [];
  if (!told.includes(line(k))) wrong.push('registers: ' + line(k));
  if (film.SW[k] & 1) rows(ram(k), film.SW[k] & 4).forEach((row, i) => { if (told[i] != row) wrong.push('row ' + i + ': ' + row); });
  if (wrong.length) { failed++; console.log(`${file}, step ${k}: ${wrong[0]}`); } else passed++;
}
console.log(`${passed} passed, ${failed} failed`);
process.exit(failed ? 1 : 0);
