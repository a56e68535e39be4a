// Runs programs with less and less memory: node memory.mjs PROGRAM=MODULE.. A program must either do what it does with enough memory, or end
// with the status for no memory; it must never trap. With little enough memory it must end so.
import fs from 'node:fs';
import {MemoryFiles, run} from '../../page/host.mjs';
import {equal, finish, test} from './count.mjs';

const NO_MEMORY = 5, ENOUGH = 16384, FIRST_PAGES = 64;
const bytes = text => new TextEncoder().encode(text);
const source = bytes(' ORG $300\n LDX #0\nL INX\n STX $400\n INC $10\n JMP L\n');
const large = bytes(Array.from({length: 3500}, (_, at) => `${at % 4 ? '' : `N${at}`} LDA #${at % 256}`).join('\n'));

const COMMANDS = {
  a2: [['run', 'it.s', '--limit', '1000'], ['run', 'large.s'], ['asm', 'large.s'], ['debug', 'it.s', 'script'], ['mon', 'it.mon']],
  tools: [['check', 'large.s'], ['list', 'large.s'], ['film', '--limit', '2000', 'it.s'], ['profile', '--limit', '100000', 'it.s'], ['debug', 'it.s'], ['mon']],
};

const does = (module, words, mostPages) => run(module, {
  words, mostPages,
  files: new MemoryFiles([['it.s', source], ['large.s', large], ['script', bytes('go 20000\nback 10000\n')], ['it.mon', bytes('300.3FF\n')]]),
  input: bytes(words[1] === 'mon' ? '300.3FF\n' : 'go 2000\nback 100\n'),
});

// The module with another size of its first memory, which is one byte after the import's name. It may then begin with so little memory
// that its heap is nearly empty.
function withFirstPages(module, pages) {
  const changed = Buffer.from(module), at = changed.indexOf('\x03env\x06memory\x02\x01') + '\x03env\x06memory\x02\x01'.length;
  equal(changed[at], FIRST_PAGES, 'the first size of the memory');
  changed[at] = pages;
  return new WebAssembly.Module(changed);
}

function tryPages(modules, words) {
  const whole = does(modules.get(FIRST_PAGES), words, ENOUGH), seen = ({status, stdout, stderr}) => [status, Buffer.from(stdout).toString('latin1'), Buffer.from(stderr).toString('latin1')];
  equal(whole.fault, null, 'the fault');
  let refused = 0;
  for (const [pages, module] of modules) {
    const found = does(module, words, pages);
    equal(found.fault, null, `the fault with ${pages} pages`);
    if (found.status === NO_MEMORY) ++refused;
    else equal(seen(found), seen(whole), `what it does with ${pages} pages`);
  }
  if (!refused) throw new Error('it always has enough memory');
}

// The module with each first size in which it has room for its own data and stack.
function modulesOf(file) {
  const module = fs.readFileSync(file), found = new Map();
  for (let pages = FIRST_PAGES; pages > 0; --pages) {
    const changed = withFirstPages(module, pages);
    if (does(changed, ['none'], pages).fault) break;
    found.set(pages, changed);
  }
  return found;
}

for (const it of process.argv.slice(2)) {
  const [name, file] = it.split('='), modules = modulesOf(file);
  for (const words of COMMANDS[name] ?? COMMANDS.tools) await test(`little memory: ${name} ${words.join(' ')}`, () => tryPages(modules, [name, ...words]));
}
finish();
