// Tests sessions of the program of tools in a page. Their output is compared with that of the native program at a terminal for the same
// keys, byte for byte, except that of `play`, which depends on the clock.
import {spawnSync} from 'node:child_process';
import fs from 'node:fs';
import os from 'node:os';
import path from 'node:path';
import {fileURLToPath} from 'node:url';
import {equal, test} from './count.mjs';

const HELLO = 'COUT EQU $FDED\n ORG $300\n LDX #3\nL LDA #$C1\n JSR COUT\n DEX\n BNE L\n RTS\n';
const ECHO = 'L LDA $C000\n BPL L\n BIT $C010\n JSR $FDED\n CMP #$D1\n BNE L\n RTS\n';

// The sessions, and their keys in pieces that are typed one after the other.
const TALKS = [
  {name: 'the Monitor', words: ['mon', '--raw', '30x80xfull'], keys: ['300:A9 C1 20 ED FD 60\r', '300.305\r', '300L\r', '300G\r', '3\x7f\x1b[A\r', '\x04']},
  {name: 'the Monitor, with a file', words: ['mon', '--raw', '24x80xnone', 'it.s'], keys: ['300.310\r', 'quit\r', '\x04']},
  {name: 'the debugger', words: ['debug', '--raw', '30x80xfull', 'it.s'], keys: ['step 3\r', 'go 5\r', 'back 2\r', 'break L\r', 'go\r', 'quit\r', '\x04']},
  {name: 'the debugger in panes', words: ['debug', '--raw', '40x100xfull', '--tui', 'it.s'], keys: ['step\r', 'go 7\r', 'back 4\r', 'who $400\r', 'quit\r', '\x04']},
];

const TERMINAL = fileURLToPath(new URL('at-terminal.py', import.meta.url));

// Returns what the native program shows at a terminal.
function nativeOf(tools, words, keys) {
  const room = fs.mkdtempSync(path.join(os.tmpdir(), 'page-session-'));
  fs.writeFileSync(path.join(room, 'it.s'), HELLO);
  const {status, stdout} = spawnSync('python3', [TERMINAL, tools, ...words], {cwd: room, input: keys, timeout: 60000, encoding: 'latin1'});
  fs.rmSync(room, {recursive: true});
  return {status, shown: stdout};
}

async function talk(value, program, {name, words, keys}, tools) {
  const wanted = nativeOf(tools, words, keys.join(''));
  await value(`talk(${JSON.stringify([program, ...words])}, ${JSON.stringify({'it.s': HELLO})})`);
  for (const it of keys) {
    await value(`talking.type(${JSON.stringify(it)})`);
    await new Promise(done => setTimeout(done, 30));
  }
  const shown = await value('talking.until()'), {status, fault} = await value('talking.ended');
  equal([status, fault], [wanted.status, null], name);
  equal(shown, wanted.shown, name);
}

async function begin(value, words, wait) {
  await value(`talk(${JSON.stringify(words)}, {}, ${wait})`);
}

// The end of a session of faults.c, and what it has shown.
async function endOf(value) {
  const shown = await value('talking.until()'), {status, fault, error} = await value('talking.ended');
  return [status, fault?.kind ?? error ?? null, shown];
}

/** Tests how a session waits, with the program faults.c. */
export async function waiting(value) {
  await test('a session gets keys when they are typed, by pieces of the size that it asks for, and the end of input', async () => {
    await begin(value, ['faults', 'c']);
    await value('talking.type("ab")');
    await value('talking.until("begun\\nab")');
    await value('talking.type("0123456789 more than ten")');
    await value('talking.until("than ten")');
    await value('talking.end()');
    equal(await endOf(value), [0, null, 'begun\nab0123456789 more than ten']);
  });
  await test('a session with a time gets no bytes after it', async () => {
    await begin(value, ['faults', 'c'], 20);
    equal(await endOf(value), [0, null, 'begun\n']);
  });
  for (const [what, kind] of [['t', 'trap'], ['d', 'stack'], ['w', 'trap']]) {
    await test(`a session that ends by the fault ${kind} (${what})`, async () => {
      await begin(value, ['faults', what]);
      equal(await endOf(value), [null, kind, 'begun\n']);
    });
  }
}

/** Tests all sessions. `tools` is the path of the native program; `value` evaluates an expression in the page. */
export async function sessions(tools, value) {
  const program = path.basename(tools).replace(/\..*/, '');
  for (const it of TALKS) await test(`a session of ${it.name}`, () => talk(value, program, it, tools));
  await test('play shows a program\'s screen, and gives it the keys that are typed', async () => {
    await value(`talk(${JSON.stringify([program, 'play', '--raw', '24x80xfull', 'it.s'])}, ${JSON.stringify({'it.s': ECHO})}, 16)`);
    for (const it of ['H', 'I', 'Q']) {
      await value(`talking.type('${it}')`);
      await value(`talking.until('${it}')`);
    }
  });
}
