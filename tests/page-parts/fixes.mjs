// Tries the fixes that `a2lab check` shows in errors and in warnings, for tests/fixes: node fixes.mjs A2LAB [COUNT [SEED]]
import {spawnSync} from 'node:child_process';
import fs from 'node:fs';
import os from 'node:os';
import path from 'node:path';
import {fileURLToPath} from 'node:url';
import {changeOf} from '../../page/app/fixes.mjs';

const [program, count = '10000', seed = '1'] = process.argv.slice(2);
const top = fileURLToPath(new URL('../..', import.meta.url)), a2lab = path.resolve(program), room = fs.mkdtempSync(path.join(os.tmpdir(), 'a2-fixes-'));

// What other assemblers write, as [what, instead].
const FOREIGN = [
  ['LDA', 'MOV'], ['JMP', 'BRA'], ['JSR', 'CALL'], ['RTS', 'RET'], ['BNE', 'BNZ'], ['BEQ', 'BZ'], ['BCC', 'BLT'], ['BCS', 'BGE'], ['EOR', 'XOR'],
  ['DFB', '.BYTE'], ['DFB', '.DA'], ['DW', '.WORD'], ['ASC', '.TEXT'], ['ASC', '.AS'], ['DS', '.BS'], ['ORG', '.OR'], ['ORG', '.ORG'], ['EQU', '='], ['EQU', '.EQ'],
  ['CMP', 'CP'], ['STA', 'STORE'], ['LSR', 'SHR'], ['$', '0x'], ['$', '&'], ['%', '0b'], ['(', '['], [')', ']'], ['#', ''], ['#', '# '], [',', ', '], [' EQU ', ': EQU '],
];

/** Returns numbers below a limit, one after another, always the same for a seed. */
function generator(state) {
  return below => {
    state = (Math.imul(state, 1664525) + 1013904223) >>> 0;
    return Math.floor(state / 2 ** 32 * below);
  };
}

/** Returns a line with a mistake in it. */
function mistaken(line, next) {
  const at = next(line.length), letter = 'ABCDEFGXYZ0123456789#$%,.();:'[next(29)];
  switch (next(5)) {
    case 0: return line.slice(0, at) + line.slice(at + 1);
    case 1: return line.slice(0, at) + letter + line.slice(at);
    case 2: return line.slice(0, at) + letter + line.slice(at + 1);
    case 3: return line.slice(0, at) + line.slice(at, at + 2).split('').reverse().join('') + line.slice(at + 2);
    default: {
      const fitting = FOREIGN.filter(([what]) => line.includes(what));
      return fitting.length ? line.replace(...fitting[next(fitting.length)]) : line.toLowerCase();
    }
  }
}

/** Returns the errors and the warnings of a source. */
function foundIn(text) {
  const file = path.join(room, 'f.s');
  fs.writeFileSync(file, text, 'latin1');
  const {status, stdout, stderr} = spawnSync(a2lab, ['check', '--format', 'json', file], {encoding: 'latin1'});
  if (status > 1) throw new Error(`check ended with ${status}: ${stderr}`);
  const errors = status ? JSON.parse(stdout) : [];
  const warnings = [...stderr.matchAll(/:(\d+): warning: ([^;\n]*); ([^\n]*)/g)].map(([, line, what, fix]) => ({line: Number(line), what, fix}));
  return {errors, warnings};
}

/** Returns what an error is, without the words of the source that it is about. */
function kindOf(words) {
  return words.replace(/`[^`]*`/g, '``');
}

function errorsIn(text) {
  return foundIn(text).errors;
}

// What the fix of a warning writes, as [words, change]. `change` returns lines in place of the line and of those before it.
const WARNED = [
  [/^write CLC before ADC, or SEC before SBC: /, (before, line) => [...before, /\bSBC\b/i.test(line) ? ' SEC' : ' CLC', line]],
  [/^write SEC instead of CLC: /, (before, line) => {
    const at = before.findLastIndex(it => /\bCLC\b/i.test(it));
    return [...before.with(at, before[at].replace(/\bCLC\b/i, 'SEC')), line];
  }],
  [/^write RTS before it: /, (before, line) => [...before, ' RTS', line]],
  [/^in " " it is shown normally: /, (before, line) => [...before, line.replace(/'([^']*)'?/, '"$1"')]],
  [/^write capital letters: /, (before, line) => [...before, line.replace(/"[^"]*"/, it => it.toUpperCase())]],
  [/^write ORG after a blank: /, (before, line) => [...before, line.replace(/^\* *= */, ' ORG ')]],
  [/^put a blank before an operation: /, (before, line) => [...before, ` ${line}`]],
  [/^end with RTS or JMP: /, (before, line) => [...before, line, ' RTS']],
  [/^for a hexadecimal address, write \$ before it: /, (before, line) => [...before, line.replace(/(?<=\s)(?=\d)/, '$')]],
];

/** Tries the fix of each warning of a source: the fixed source has no error, and fewer warnings of that kind. */
function tryWarnings(text) {
  const lines = text.split('\n'), {warnings} = foundIn(text);
  for (const {line, what, fix} of warnings) {
    const form = WARNED.find(([words]) => words.test(fix));
    if (!form) continue;
    const fixed = [...form[1](lines.slice(0, line - 1), lines[line - 1]), ...lines.slice(line)].join('\n');
    const {errors, warnings: left} = foundIn(fixed), count = all => all.filter(it => it.what === what).length;
    if (errors.length || count(left) >= count(warnings)) {
      ++failed;
      console.log(`FAILED: ${what}; ${fix}\n${fixed}`);
    } else {
      ++passed;
    }
  }
}

/** Returns the sources in the cases: the parts whose names end in .s. */
function sourcesOfCases() {
  const folder = path.join(top, 'tests/program/cases');
  return fs.readdirSync(folder).flatMap(name => {
    const text = fs.readFileSync(path.join(folder, name), 'latin1');
    return [...text.matchAll(/^--- \S+\.s\n((?:(?!---|===).*\n)*)/gm)].map(it => it[1]);
  });
}

let passed = 0, failed = 0;

/** Tries each fix of a source. */
function tryFixes(text) {
  const lines = text.split('\n');
  for (const {line, column, width, code, text: words, fix} of errorsIn(text)) {
    const change = changeOf({line, from: column - 1, width, fix}, lines);
    if (!change) continue;
    const before = lines[change.line - 1], after = before.slice(0, change.from) + change.text + before.slice(change.from + change.width);
    const fixed = [...lines.slice(0, change.line - 1), after, ...lines.slice(change.line)].join('\n'), added = after.split('\n').length - 1;
    const isAlike = it => it.text === words || kindOf(it.text) === kindOf(words) && it.column === change.from + 1;
    const isLeft = it => it.line === line + added && it.code === code && isAlike(it);
    if (errorsIn(fixed).some(isLeft)) {
      ++failed;
      console.log(`FAILED: ${words}: ${fix}\n  before: ${before}\n  after:  ${after}`);
    } else {
      ++passed;
    }
  }
}

const folder = path.join(top, 'examples'), examples = fs.readdirSync(folder).filter(it => it.endsWith('.s')).map(it => fs.readFileSync(path.join(folder, it), 'latin1'));
for (const text of [...examples, ...sourcesOfCases()]) {
  tryFixes(text);
  tryWarnings(text);
}
const next = generator(Number(seed));
for (let at = 0; at < Number(count); ++at) {
  const lines = examples[next(examples.length)].split('\n'), line = next(lines.length);
  lines[line] = lines[line] && mistaken(lines[line], next);
  tryFixes(lines.join('\n'));
}
fs.rmSync(room, {recursive: true});
console.log(`${passed} passed, ${failed} failed`);
process.exitCode = failed ? 1 : 0;
