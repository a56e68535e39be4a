// Takes pictures of a2.html in Chromium, to be looked at: node pictures.mjs a2.html FOLDER. The picture step.png is that of README.md,
// docs/manual/page.png.
import path from 'node:path';
import {pathToFileURL} from 'node:url';
import {browser} from '../film/chromium.mjs';
import {inPage} from './in-page-of-app.mjs';

const [file, folder] = process.argv.slice(2), url = pathToFileURL(path.resolve(file)).href;
const WANT = 'stop RETURNED\ncase doubles\ncall DOUBLE A=15\nreg A=2A\ncase keeps X\ncall DOUBLE A=01 X=07\nreg A=02 X=07\n';
const WRONG = 'START LDA #3\n JSR DOUBLE\n RTS\nDOUBLE ASL A\n TAX\n RTS\n';
const CALLS = 'START LDX #3\n JSR OUTER\n RTS\nOUTER LDA #1\n PHA\n JSR INNER\n PLA\n RTS\nINNER TXA\n RTS\n';
const ERRORS = 'COUT EQU $FDED\n LDX #5\nAGAIN LDA #$AA\n JSR COUT\n DEX\n BNE AGIAN\n RTS\n';
const OPENED = `const id = it => document.getElementById(it), sleep = time => new Promise(done => setTimeout(done, time)), example = name => parts.library.openExample(name);`;
const STEP = `example('bars'); await parts.runs.run(); await sleep(500); await parts.back.go(Math.floor(Number(id('at').max) * .985)); id('line-back').click(); await sleep(2000);`;

/** The states: what makes each, and the size of the window. */
const STATES = {
  step: [STEP, {width: 1200, height: 800}],
  'step-dark': [STEP, {dark: true}],
  'step-on-a-phone': [`${STEP} id('panel-run').scrollIntoView();`, {width: 360, height: 740}],
  'phone-light': [`parts.library.add({name: 'calls', text: ${JSON.stringify(CALLS)}}); await parts.runs.run(); await parts.back.go(6); await sleep(1000);`, {width: 360, height: 740}],
  stack: [`parts.library.add({name: 'calls', text: ${JSON.stringify(CALLS)}}); await parts.runs.run(); await parts.back.go(6); await sleep(1000); id('said').scrollIntoView();`],
  'stack-on-a-phone-dark': [`parts.library.add({name: 'calls', text: ${JSON.stringify(CALLS)}}); await parts.runs.run(); await parts.back.go(6); await sleep(1000); id('said').scrollIntoView();`,
    {width: 360, height: 740, dark: true}],
  session: [`example('echo'); id('session').value = '402 48\\n733 49\\n2044 END\\n'; await parts.replay.show(); id('tab-live').click(); await sleep(500);`],
  errors: [`parts.library.add({name: 'errors', text: ${JSON.stringify(ERRORS)}}); await sleep(500);`],
  play: [`example('catch'); id('tab-live').click(); id('play').click(); await sleep(3000);`],
  debugger: [`example('primes'); id('tab-live').click(); id('debug').click(); await sleep(2000);`],
  monitor: [`example('primes'); id('tab-live').click(); id('monitor').click(); await sleep(1000);
    for (const key of [...'300L', 'Enter']) id('terminal').dispatchEvent(new KeyboardEvent('keydown', {key, cancelable: true})); await sleep(1000);`],
  tests: [`parts.library.add({name: 'exercise', text: ${JSON.stringify(WRONG)}, want: ${JSON.stringify(WANT)}}); id('tab-tests').click(); await parts.tests.run(); id('want-part').open = true;`],
  'tests-on-a-phone': [`parts.library.add({name: 'exercise', text: ${JSON.stringify(WRONG)}, want: ${JSON.stringify(WANT)}}); id('tab-tests').click(); await parts.tests.run(); id('panel-tests').scrollIntoView();`,
    {width: 360, height: 740}],
  'about-dark': [`id('tab-about').click();`, {dark: true}],
  tools: [`example('primes'); id('tab-tools').click(); id('tool').value = 2; await parts.tools.run();`],
  learn: [`location.hash = '#learn=examples/the-examples'; await sleep(1000);`],
  'learn-on-a-phone-dark': [`location.hash = '#learn=stops'; await sleep(1000);`, {width: 360, height: 740, dark: true}],
};

const chromium = await browser();
try {
  for (const [name, [body, size]] of Object.entries(STATES)) {
    const page = await chromium.open(url, size);
    await page.value('ready');
    await page.value(inPage(OPENED + body));
    await page.picture(path.join(folder, `${name}.png`));
    await page.close();
  }
} finally {
  await chromium.close();
}
