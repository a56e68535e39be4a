// Tests the page of make-page.mjs in Firefox, opened from disk: node in-firefox.mjs PAGE.html [TOOLS]. A program runs, and sessions are
// compared with those of TOOLS, the native program of tools.
import path from 'node:path';
import {pathToFileURL} from 'node:url';
import {equal, finish, test} from './count.mjs';
import {browser} from './firefox.mjs';
import {sessions, waiting} from './sessions.mjs';

const [file, tools] = process.argv.slice(2);
const firefox = await browser();
try {
  const {value} = await firefox.open(pathToFileURL(path.resolve(file)).href);
  await test('the modules are compiled in Firefox', () => value('ready'));
  await test('a program runs in Firefox', async () => {
    const files = JSON.stringify({'p.s': ' LDA #1\n RTS\n'}), {status, stdout} = await value(`measure(["a2", "run", "p.s"], ${files}, 1)`);
    equal([status, stdout.trim()], [0, 'A=01 X=00 Y=00 P=30 S=FF PC=FF69 STEPS=2 CYCLES=8\nSTOP RETURNED']);
  });
  await test('programs can wait in Firefox', () => value('canWait'));
  await waiting(value);
  if (tools) await sessions(tools, value);
} finally {
  await firefox.close();
}
finish();
