// Tests a2.html in Chromium, opened from disk: node app-in-chromium.mjs a2.html [A2]. A2 is the native program. An error, a line in the
// console or a request is a failure, except the one request that a test makes.
import fs from 'node:fs';
import os from 'node:os';
import path from 'node:path';
import {pathToFileURL} from 'node:url';
import {browser} from '../film/chromium.mjs';
import {HELPERS, appTests} from './app.mjs';
import {exerciseAgain, exercisePage, savedExercise} from './app-learning.mjs';
import {equal, finish, test} from './count.mjs';

const [file, a2] = process.argv.slice(2), url = pathToFileURL(path.resolve(file)).href;
const chromium = await browser();
try {
  const page = await chromium.open(url);
  await appTests(page.value, a2);
  await test('the keyboard reaches all controls, and leaves the editor and the terminal', async () => {
    await page.value(`the.id('tab-run').click(), the.type(' LDA #1\\n RTS\\n'), the.ran()`);
    await page.value(`document.activeElement.blur(), document.body.focus()`);
    const reached = new Set();
    for (let tries = 0; tries < 60; ++tries) {
      await page.key('Tab');
      const id = await page.value(`document.activeElement.id`);
      if (id === 'source') await page.key('Escape');
      reached.add(id);
    }
    const wanted = ['programs', 'new', 'examples', 'open', 'save', 'link', 'theme', 'run', 'keys', 'limit', 'free', 'source', 'explain', 'tab-run', 'at', 'step-back', 'sound', 'page', 'follow'];
    equal(wanted.filter(it => !reached.has(it)), []);
    await page.value(`the.id('tab-run').focus()`);
    await page.key('ArrowRight');
    equal(await page.value(`[document.activeElement.id, the.id('panel-live').hidden]`), ['tab-live', false]);
  });
  await test('the word under the mouse is explained', async () => {
    await page.value(`the.type('N EQU $06\\n LDA N\\n RTS\\n'), document.getElementById('source').scrollIntoView({block: 'center'})`);
    const {x, y, width} = await page.value(`(() => { const {x, y} = the.id('source').getBoundingClientRect(); return {x, y, width: parts.editor.columnWidth}; })()`);
    const over = async (line, column) => {
      await page.call('Input.dispatchMouseEvent', {type: 'mouseMoved', x: x + 8 + (column + .5) * width, y: y + 6 + 21 * (line - .5)});
      await page.value(`the.until(() => !the.id('hover').hidden, 'the hint')`);
      return page.value(`the.text('hover')`);
    };
    equal([(await over(1, 7)).split('\n')[0], (await over(2, 5)).split('\n')[0], /LDA/.test(await over(2, 2))], ['$06 = 6 = %00000110', 'line 1: N EQU $06', true]);
  });
  await test('the accessibility tree names all controls of each panel, and has landmarks', async () => {
    const controls = ['button', 'textbox', 'searchbox', 'combobox', 'checkbox', 'slider', 'tab', 'link', 'img', 'application', 'tabpanel', 'dialog', 'listbox', 'menuitem'];
    for (const tab of await page.value(`[...document.querySelectorAll('[role=tab]')].map(it => it.id)`)) {
      await page.value(`the.id('${tab}').click(), the.sleep(300)`);
      const nodes = (await page.call('Accessibility.getFullAXTree')).nodes.filter(it => !it.ignored), roles = nodes.map(it => it.role.value);
      equal(nodes.filter(it => controls.includes(it.role.value) && !it.name?.value.trim()).map(it => it.role.value), [], tab);
      equal(['banner', 'main', 'tablist', 'status'].filter(it => !roles.includes(it)), [], tab);
      equal(nodes.filter(it => it.role.value === 'tab' && it.properties.some(({name, value}) => name === 'selected' && value.value)).length, 1, tab);
    }
    await page.value(`the.id('tab-run').click()`);
  });
  await test('no error, no line in the console, no request', () => {
    // (The tests press `Sound` by a script, which Chromium does not take for a user.)
    equal(page.faults().filter(it => !/^request: blob:|127\.0\.0\.1:9|AudioContext was not allowed/.test(it)), []);
  });
  await page.close();
  for (const [width, height, dark] of [[1280, 900, false], [360, 700, true]]) {
    const other = await chromium.open(url, {width, height, dark});
    await test(`the page fits ${width} pixels`, async () => {
      await other.value('ready');
      for (const tab of ['tab-run', 'tab-live', 'tab-tests', 'tab-tools', 'tab-learn', 'tab-about']) {
        await other.value(`document.getElementById('${tab}').click(), new Promise(done => setTimeout(done, 200))`);
        equal(await other.value('document.documentElement.scrollWidth - document.documentElement.clientWidth'), 0, tab);
      }
    });
    await other.close();
  }
  await test('two tabs with one program: each sees what the other keeps, and no text is lost', async () => {
    const tabs = [await chromium.open(url), await chromium.open(url)];
    for (const it of tabs) await it.value('ready');
    // (A tab in the background has no focus, so nothing can be typed there.)
    const type = (tab, text) => tab.value(`{ const area = document.getElementById('source'); area.value = ${JSON.stringify(text)}; area.dispatchEvent(new Event('input')); }`);
    const until = (tab, expression) => tab.value(`new Promise((done, failed) => { setTimeout(() => failed(new Error(document.getElementById('source').value)), 10000);
      const look = () => ${expression} ? done(true) : setTimeout(look, 20); look(); })`);
    await type(tabs[0], '* FIRST\n');
    await tabs[0].value('parts.library.keep()');
    await until(tabs[1], `document.getElementById('source').value === '* FIRST\\n'`);
    await Promise.all(tabs.map((it, at) => type(it, `* OF TAB ${at}\n`)));
    for (const it of tabs) await it.value(`new Promise(done => setTimeout(done, 1500))`);
    const kept = await tabs[0].value(`Object.keys(localStorage).filter(it => it.startsWith('a2.program.')).map(it => JSON.parse(localStorage.getItem(it)).text)`);
    equal(['* OF TAB 0\n', '* OF TAB 1\n'].filter(it => !kept.includes(it)), []);
    for (const it of tabs) await it.close();
  });
  {
    const page = await chromium.open(url);
    await page.value('ready');
    await page.value(HELPERS);
    const file = path.join(fs.mkdtempSync(path.join(os.tmpdir(), 'page-exercise-')), 'exercise.html');
    fs.writeFileSync(file, await savedExercise(page.value));
    await page.value(`Object.keys(localStorage).forEach(it => localStorage.removeItem(it)), localStorage.setItem('a2.program.other', '{"text": ""}')`);
    await page.close();
    for (const tests of [exercisePage, exerciseAgain]) {
      const other = await chromium.open(pathToFileURL(file).href);
      await other.value('ready');
      await other.value(HELPERS);
      await tests(other.value);
      await test('no error, no request', () => equal(other.faults().filter(it => !it.startsWith('request: blob:')), []));
      await other.close();
    }
    fs.rmSync(path.dirname(file), {recursive: true});
  }
  await test('the text is there after a reload', async () => {
    const first = await chromium.open(url);
    await first.value('ready');
    await first.value(`document.getElementById('source').select(), document.execCommand('insertText', false, '* KEPT\\n RTS\\n')`);
    await first.value(`new Promise(done => setTimeout(done, 1500))`);
    await first.close();
    const again = await chromium.open(url);
    await again.value('ready');
    equal(await again.value(`document.getElementById('source').value`), '* KEPT\n RTS\n');
  });
} finally {
  await chromium.close();
}
finish();
