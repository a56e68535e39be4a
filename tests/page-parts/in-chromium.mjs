// Tests the page of make-page.mjs in Chromium, opened from disk: node in-chromium.mjs PAGE.html CASES [TOOLS]. It compares some of the
// cases, and sessions with those of TOOLS, the native program of tools. An error, a line in the console or a request is a failure.
import fs from 'node:fs';
import path from 'node:path';
import {pathToFileURL} from 'node:url';
import {browser} from '../film/chromium.mjs';
import {equal, fail, finish, pass, test} from './count.mjs';
import {sessions, waiting} from './sessions.mjs';

const CASES = 300, LONGEST = 30000, AT_ONCE = 25;
const [file, casesFile, tools] = process.argv.slice(2);
const url = pathToFileURL(path.resolve(file)).href;

// Returns cases with short texts, evenly from the whole list.
function someCases() {
  const lines = fs.readFileSync(casesFile, 'utf8').split('\n').filter(it => it && it.length < LONGEST);
  const step = Math.max(1, Math.floor(lines.length / CASES));
  return lines.filter((_, at) => at % step === 0).map(it => JSON.parse(it));
}

async function compareCases(page) {
  const cases = someCases();
  for (let at = 0; at < cases.length; at += AT_ONCE) {
    const some = cases.slice(at, at + AT_ONCE), differing = await page.value(`differing(${JSON.stringify(some)})`);
    differing.forEach((wrong, index) => wrong ? fail(`in Chromium: ${some[index].name}`, wrong) : pass());
  }
}

const chromium = await browser();
try {
  const page = await chromium.open(url);
  await test('the modules are compiled', () => page.value('ready'));
  await compareCases(page);
  await test('a program without memory ends by a fault, and the next one runs', async () => {
    const files = JSON.stringify({'p.s': ' RTS\n'}), words = JSON.stringify(['a2', 'run', 'p.s']);
    equal((await page.value(`measure(${words}, ${files}, 1, 63)`)).fault?.kind, 'memory');
    equal((await page.value(`measure(${words}, ${files}, 1)`)).status, 0);
  });
  await test('programs can wait', () => page.value('canWait'));
  await waiting(page.value);
  if (tools) await sessions(tools, page.value);
  // (Workers have addresses of their own.)
  const faults = () => page.faults().filter(it => !it.startsWith('request: blob:'));
  await test('no error, no line in the console, no request', () => equal(faults(), []));
} finally {
  await chromium.close();
}
finish();
