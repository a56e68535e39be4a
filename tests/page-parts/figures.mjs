// Measures what the page promises of its speed, in Chromium: node figures.mjs a2.html SECONDS prints an object of figures.
// SECONDS is how long a session of `play` runs before its memory is measured.
// (tests/page-speed calls it, and says what each figure means.)
import path from 'node:path';
import {pathToFileURL} from 'node:url';
import {browser} from '../film/chromium.mjs';
import {inPage} from './in-page-of-app.mjs';
import {privateBytes, processorMilliseconds} from './renderers.mjs';

const LINES = 4096, TRIES = 15, STEPS = 10000000, IDLE = 5000;
const [file, seconds] = process.argv.slice(2), url = pathToFileURL(path.resolve(file)).href;
const sleep = time => new Promise(done => setTimeout(done, time));
const middle = list => list.sort((a, b) => a - b)[list.length >> 1];
const HELPERS = `window.id = it => document.getElementById(it);
window.until = async test => { for (const begun = Date.now(); !test(); await new Promise(done => { const {port1, port2} = new MessageChannel(); port1.onmessage = done; port2.postMessage(0); }))
  if (Date.now() - begun > 60000) throw new Error('waited too long: ' + test); };
window.press = key => id('terminal').dispatchEvent(new KeyboardEvent('keydown', {key, cancelable: true, bubbles: true}));
window.runs = async () => { id('run').click(); await until(() => !id('stop').hidden); await until(() => id('stop').hidden); }, true`;

// Milliseconds from opening the file to the first screen.
async function firstScreen(chromium) {
  const times = [];
  for (let tries = 0; tries < 3; ++tries) {
    const page = await chromium.open(url);
    times.push(await page.value(`ready.then(() => performance.getEntriesByName('first screen')[0].startTime)`));
    await page.close();
  }
  return middle(times);
}

// Milliseconds from a key to the result of the check of a long source.
async function checking(value) {
  const text = ' LDA #1\n STA $400\n'.repeat(LINES / 2 - 1);
  await value(inPage(`parts.library.add({name: 'long', text: ${JSON.stringify(text)}}); await until(() => id('count').textContent === 'No errors')`));
  const times = [];
  for (let tries = 0; tries < TRIES; ++tries) {
    times.push(await value(inPage(`const area = id('source'); area.focus(); area.setSelectionRange(area.value.length, area.value.length); id('count').textContent = '';
      const begun = performance.now(); document.execCommand('insertText', false, ';'); await until(() => id('count').textContent !== ''); return performance.now() - begun`)));
    await sleep(50);
  }
  return middle(times);
}

// Milliseconds of one step back from the end of a long run, and of a step back later.
async function goingBack(value) {
  await value(inPage(`parts.library.add({name: 'endless', text: 'L INC 6\\n JMP L\\n'}); id('limit').value = ${STEPS}; await runs()`));
  await sleep(3000);
  const back = inPage(`const before = id('where').textContent, begun = performance.now(); id('step-back').click();
    await until(() => id('where').textContent !== before); return performance.now() - begun`);
  const first = await value(back), times = [];
  for (let tries = 0; tries < TRIES; ++tries) times.push(await value(back));
  return {first, later: middle(times)};
}

// Milliseconds from a key to the screen on which it is drawn.
async function keys(value) {
  await value(inPage(`parts.library.add({name: 'echo', text: 'L LDA $C000\\n BPL L\\n BIT $C010\\n JSR $FDED\\n JMP L\\n'}); id('tab-live').click(); id('play').click();
    await until(() => !id('end-live').hidden && parts.live.text !== '')`));
  await sleep(500);
  const times = [];
  for (let tries = 0; tries < TRIES; ++tries) {
    const typed = 'ABCDEFGHIJKLMNOPQRSTUVWXYZ'.slice(0, tries + 1);
    times.push(await value(inPage(`const begun = performance.now(); press('${typed.at(-1)}'); await until(() => parts.live.screenText.includes('${typed}')); return performance.now() - begun`)));
    await sleep(100);
  }
  return middle(times);
}

// The part of a processor that `play` takes at the pace of an Apple II.
async function atPace() {
  const before = processorMilliseconds();
  await sleep(IDLE);
  return (processorMilliseconds() - before) / IDLE;
}

const chromium = await browser();
try {
  const figures = {screen: await firstScreen(chromium)}, page = await chromium.open(url);
  await page.value('ready');
  await page.value(HELPERS);
  figures.check = await checking(page.value);
  figures.back = await goingBack(page.value);
  figures.key = await keys(page.value);
  figures.processor = await atPace();
  await sleep(1000 * Number(seconds));
  figures.memory = privateBytes();
  console.log(JSON.stringify(figures));
} finally {
  await chromium.close();
}
