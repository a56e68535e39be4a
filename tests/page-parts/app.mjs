// Tests of a2.html, the page for people, in a browser. Each works through what the page shows, as its users do.
import {spawnSync} from 'node:child_process';
import fs from 'node:fs';
import {fileURLToPath} from 'node:url';
import {equal, test} from './count.mjs';
import {inPage} from './in-page-of-app.mjs';
import {exercises, learning, liveSounds, replays, sounds} from './app-learning.mjs';

const example = name => fs.readFileSync(fileURLToPath(new URL(`../../examples/${name}.s`, import.meta.url)), 'utf8');

// What the tests call in the page.
export const HELPERS = `window.the = {
  id: it => document.getElementById(it),
  text: it => document.getElementById(it).textContent,
  sleep: time => new Promise(done => setTimeout(done, time)),
  async until(test, what) {
    for (const begun = Date.now(); Date.now() - begun < 60000; await the.sleep(20)) { const it = test(); if (it) return it; }
    throw new Error('waited in vain: ' + (what || test) + ' count=' + the.text('count') + ' result=' + the.text('result') + ' notices=' + the.text('notices'));
  },
  type(text) {
    const area = the.id('source');
    area.focus();
    area.select();
    document.execCommand('insertText', false, text) || (area.value = text, area.dispatchEvent(new Event('input')));
  },
  async checked() { await the.until(() => the.text('count') !== the.before); return the.text('count'); },
  async ran() {
    the.text('result') && the.id('result').replaceChildren();
    the.id('run').click();
    await the.until(() => the.text('result') && the.id('stop').hidden, 'a run');
    return the.text('result');
  },
  async at(step) {
    const it = the.id('at');
    it.value = step;
    it.dispatchEvent(new Event('input'));
    await the.until(() => the.text('where').startsWith('step ' + step.toLocaleString('en') + ' of'), 'step ' + step);
    return [...document.querySelectorAll('[data-register] b')].map(it => it.textContent);
  },
  closeNotices: () => document.querySelectorAll('.notice .close').forEach(it => it.click()),
  notices: () => [...document.querySelectorAll('.notice span')].map(it => it.textContent),
  async link(hash) {
    the.closeNotices();
    location.hash = hash;
    return the.until(() => the.notices()[0], 'a message');
  },
}, true`;

// The registers, in the order of the page.
const ORDER = ['A', 'X', 'Y', 'S', 'P', 'PC'];

// The registers of a run of a native program that is limited to so many steps.
function nativeAt(a2, name, step) {
  const file = fileURLToPath(new URL(`../../examples/${name}.s`, import.meta.url));
  const {stdout} = spawnSync(a2, ['run', '--limit', String(step), file], {encoding: 'utf8'});
  return ORDER.map(it => new RegExp(`\\b${it}=([0-9A-F]+) `).exec(stdout.slice(stdout.lastIndexOf('A=')))?.[1]);
}

async function programs(value, a2) {
  await test('the first example runs when the page is opened', async () => {
    equal(await value(inPage(`await ready; return document.querySelector('.stop').textContent`)), 'STOP RETURNED');
    equal((await value(`the.text('screen-words')`)).trim(), 'A');
  });
  await test('errors are shown while one types, at their place, and vanish', async () => {
    const found = await value(inPage(`the.type(' LDA #1\\n BNE NOWHERE\\n RTS\\n'); await the.until(() => document.querySelector('#problems li.error'), 'an error');
      return [document.querySelector('#gutter .error').textContent, document.querySelectorAll('#problems li').length]`));
    equal(found, ['2', 1]);
    equal(await value(inPage(`document.querySelector('#problems .goes').click(); const it = the.id('source'); return it.value.slice(it.selectionStart, it.selectionEnd)`)), 'NOWHERE');
    await value(inPage(`the.type(' IF 1\\n RTS\\n'); await the.until(() => the.text('problems').includes('the block is not closedclose it with'), 'the error of a block')`));
    await value(inPage(`the.type(' LDA #1\\n RTS\\n'); await the.until(() => !document.querySelector('#problems li'), 'no error')`));
  });
  await test('a click fixes a misspelled name', async () => {
    await value(inPage(`the.type('LOOP INX\\n BNE LOPO\\n RTS\\n'); await the.until(() => document.querySelector('#problems .fixes'), 'a fix');
      document.querySelector('#problems .fixes').click(); await the.until(() => the.text('count') === 'No errors', 'no error')`));
    equal(await value(`the.id('source').value`), 'LOOP INX\n BNE LOOP\n RTS\n');
  });
  await test('clicks write all fixes that are a new text', async () => {
    await value(inPage(`the.type(' .ORG $300\\n LDX #0x05\\nL: DEX\\n LDA #"A"\\n CALL COUT\\n TXA\\n BNZ L\\n RTS\\n');
      for (let clicks = 0; clicks < 9; ++clicks) {
        await the.until(() => document.querySelector('#problems .fixes:not(:disabled)') || the.text('count') === 'No errors', 'a fix');
        document.querySelector('#problems .fixes')?.click();
        await the.sleep(300);
      }
      await the.until(() => the.text('count') === 'No errors', 'no error')`));
    equal(await value(`the.id('source').value`), 'COUT    EQU $FDED\n ORG $300\n LDX #$05\nL DEX\n LDA #"A"\n JSR COUT\n TXA\n BNE L\n RTS\n');
  });
  await test('a program with errors does not run, and the page says why', async () => {
    await value(inPage(`the.type(' LDA\\n'); await the.ran()`));
    equal(await value(`document.querySelector('#result .bad') !== null && the.id('back').hidden`), true);
  });
  await test('all steps of a run can be seen, and are those of the native program', async () => {
    await value(inPage(`the.type(${JSON.stringify(example('primes'))}); await the.ran()`));
    for (const step of a2 ? [0, 1, 37, 500, 1000, 12] : []) equal(await value(inPage(`return the.at(${step})`)), nativeAt(a2, 'primes', step), `step ${step}`);
    await value(inPage(`await the.at(0); the.id('step-on').click(); the.id('step-on').click(); await the.until(() => the.text('where').startsWith('step 2 of'))`));
    await value(inPage(`the.id('step-back').click(); await the.until(() => the.text('where').startsWith('step 1 of'))`));
    equal(await value(`document.querySelectorAll('#gutter .now').length`), 1);
  });
  await test('a register and a byte are followed to the steps that changed them', async () => {
    await value(inPage(`await the.at(300); document.querySelector('[data-register=A]').click(); await the.until(() => document.querySelector('#who button'), 'a button')`));
    const [before, after] = await value(inPage(`const before = the.text('where'); document.querySelector('#who button').click();
      await the.until(() => the.text('where') !== before); return [before, the.text('where')]`));
    equal(before !== after, true);
  });
  await test('an endless loop ends by its limit, and a long one when Stop is pressed', async () => {
    await value(inPage(`the.type('L JMP L\\n'); the.id('limit').value = '100000000'; the.id('run').click(); await the.until(() => !the.id('stop').hidden);
      the.id('stop').click(); await the.until(() => the.id('stop').hidden); the.id('limit').value = '1000000'`));
  });
}

// A normal, an inverse and a flashing A; dots of hi-res of each colour.
const THREE = ' LDA #$C1\n STA $400\n LDA #1\n STA $401\n LDA #$41\n STA $402\n RTS\n';
const HI_RES = ' LDA $C050\n LDA $C052\n LDA $C057\n LDA #$7F\n STA $2000\n LDA #1\n STA $2002\n STA $2005\n LDA #$81\n STA $2008\n STA $200B\n RTS\n';

// Counts the dots of each colour on a canvas.
const COLOURS = `the.colours = id => {
  const canvas = the.id(id), {width, height} = canvas, copy = new OffscreenCanvas(width, height).getContext('2d', {willReadFrequently: true}), counts = {};
  copy.drawImage(canvas, 0, 0);
  const {data} = copy.getImageData(0, 0, width, height);
  for (let at = 0; at < data.length; at += 4) { const it = [...data.subarray(at, at + 3)].join(); counts[it] = (counts[it] ?? 0) + 1; }
  return counts;
}, true`;

async function drawn(value) {
  await value(COLOURS);
  await test('characters are drawn normal, inverse and flashing', async () => {
    await value(inPage(`the.type(${JSON.stringify(THREE)}); await the.ran()`));
    const dots = [];
    for (let tries = 0; tries < 30 && new Set(dots).size < 2; ++tries) dots.push(await value(inPage(`await the.sleep(100); return the.colours('screen')['228,242,228']`)));
    // (The letter has 16 of the 56 dots of its cell, each drawn as 4.)
    equal([...new Set(dots)].sort((a, b) => a - b), [4 * (16 + 40 + 16), 4 * (16 + 40 + 40)]);
    equal((await value(`the.text('screen-words')`)).slice(0, 3), 'AAA');
  });
  await test('lo-res is drawn in its sixteen colours, and as much of each', async () => {
    await value(inPage(`the.type(${JSON.stringify(example('lores'))}); await the.ran()`));
    const counts = await value(`the.colours('screen')`);
    equal(Object.keys(counts).length, 16);
    equal(Object.values(counts).reduce((a, b) => a + b), 560 * 384);
  });
  await test('hi-res is drawn from both of its bytes\' bits', async () => {
    await value(inPage(`the.type(${JSON.stringify(HI_RES)}); await the.ran()`));
    equal(Object.entries(await value(`the.colours('screen')`)).sort(), [['0,0,0', 560 * 384 - 4 * 11], ['198,60,240', 4], ['240,128,47', 4], ['255,255,255', 4 * 7],
      ['47,140,240', 4], ['58,208,58', 4]]);
  });
}

// A call of more steps than a film of the page has.
const CALL = ' JSR SUB\n RTS\nSUB LDA #0\n STA 6\nL INC 7\n BNE L\n INC 6\n LDA 6\n CMP #120\n BNE L\n RTS\n';
// A run of more steps than a film of the page has.
const LONG = ' LDA #0\n STA 6\nL INC 7\n BNE L\n INC 6\n LDA 6\n CMP #200\n BNE L\n STA 8\n RTS\n';

async function longRuns(value) {
  await test('a long run is shown in parts, and a change is found across them', async () => {
    await value(inPage(`the.type(${JSON.stringify(LONG)}); await the.ran()`));
    const steps = await value(`Number(/STEPS=(\\d+)/.exec(the.text('result'))[1])`);
    equal(steps > 100000, true);
    for (const step of [0, 60000, steps - 1, 3]) await value(inPage(`return the.at(${step})`));
    await value(inPage(`await the.at(${steps}); parts.back.choose(6); await the.until(() => the.text('who'))`));
    const where = await value(inPage(`await the.at(1); the.id('line-on').click(); await the.until(() => the.text('where').startsWith('step 2 of')); return the.text('where')`));
    equal(where.startsWith('step 2 of'), true);
    equal(await value(inPage(`the.id('break-on').hidden; parts.editor.toggleBreak(9); the.id('break-on').click();
      await the.until(() => the.text('said').includes('Next: line 9'), 'the breakpoint'); return Number(the.id('at').value)`)), steps - 2);
    equal(await value(inPage(`parts.back.choose(6); await the.until(() => the.text('who').includes('last changed')); const it = [...document.querySelectorAll('#who button')][0]; it.click();
      await the.until(() => the.text('said').includes('Next: line 6')); return the.id('gutter').querySelector('.was').textContent`)), '5');
  });
}

async function longCalls(value) {
  await test('one goes over a long call, and back to the start by line', async () => {
    await value(inPage(`the.type(${JSON.stringify(CALL)}); await the.ran(); await the.at(0); the.id('over-on').click();
      await the.until(() => the.text('said').includes('Next: line 2'), 'line 2')`));
    await value(inPage(`await the.at(2); the.id('line-back').click(); await the.until(() => the.text('said').includes('Next: line 3'), 'line 3');
      the.id('line-back').click(); await the.until(() => the.text('where').startsWith('step 0 of'), 'the start')`));
  });
}

// Two calls, one in the other, and a byte that is pushed.
const CALLS = 'START LDX #3\n JSR OUTER\n RTS\nOUTER LDA #1\n PHA\n JSR INNER\n PLA\n RTS\nINNER TXA\n RTS\n';

async function machineCode(value) {
  await test('the stack has its return addresses, with the lines and the steps of their calls', async () => {
    await value(inPage(`the.type(${JSON.stringify(CALLS)}); await the.ran(); await the.at(5)`));
    const rows = await value(`[...document.querySelectorAll('#stack tr')].map(row => [...row.children].slice(0, 3).map(it => it.textContent).join(' '))`);
    equal(rows.slice(0, 3), ['01F9 030B line 6: calls line 9 (INNER); returns to line 7', '01FB 01 line 5: pushes A ($01) onto the stack', '01FC 0304 line 2: calls line 4 (OUTER); returns to line 3']);
    await value(inPage(`[...document.querySelectorAll('#stack button')][1].click(); await the.until(() => the.text('where').startsWith('step 4 of'))`));
  });
  await test('the next step and this one have their addresses, bytes and instructions', async () => {
    equal(await value(inPage(`await the.at(4); await the.until(() => the.text('said').includes('JSR $'), 'the instruction');
      return [...document.querySelectorAll('.instruction')].map(it => it.textContent)`)), ['0308- 48 PHA', '0309- 20 0E 03 JSR $030E']);
  });
}

async function keeping(value) {
  await test('a text is kept, and is there after other programs were open', async () => {
    const [kept, shown] = await value(inPage(`the.type('* MINE\\n RTS\\n'); parts.library.keep(); const name = the.id('programs').value;
      the.id('examples').value = 'primes'; the.id('examples').onchange({target: the.id('examples')}); const other = the.id('source').value;
      the.id('programs').value = name; the.id('programs').onchange({target: the.id('programs')}); return [the.id('source').value, other]`));
    equal(kept, '* MINE\n RTS\n');
    equal(shown, example('primes'));
  });
  await test('a change of the editor by the page can be undone', async () => {
    equal(await value(inPage(`the.type(' LDA 10\\n RTS\\n'); parts.editor.replace(1, 6, 2, '#10'); const it = [the.id('source').value];
      document.execCommand('undo'); return [...it, the.id('source').value]`)), [' LDA #10\n RTS\n', ' LDA 10\n RTS\n']);
  });
  await test('two tabs with one program lose neither text', async () => {
    const found = await value(inPage(`parts.library.keep(); const name = the.id('programs').value, key = 'a2.program.' + name;
      const other = text => { localStorage.setItem(key, JSON.stringify({text})); dispatchEvent(new StorageEvent('storage', {key})); };
      other('* OTHER\\n'); const taken = the.id('source').value; the.type('* MINE\\n'); other('* OTHER 2\\n'); parts.library.keep();
      const mine = the.id('programs').value;
      return [taken, the.id('source').value, mine !== name, JSON.parse(localStorage.getItem(key)).text, JSON.parse(localStorage.getItem('a2.program.' + mine)).text]`));
    equal(found, ['* OTHER\n', '* MINE\n', true, '* OTHER 2\n', '* MINE\n']);
  });
  await test('full storage gives a message, and the text stays', async () => {
    const found = await value(inPage(`the.closeNotices(); const of = Storage.prototype, set = of.setItem;
      of.setItem = () => { throw new DOMException('full', 'QuotaExceededError'); };
      the.type('* FULL\\n RTS\\n'); parts.library.keep(); const it = [the.notices().length, the.id('source').value]; of.setItem = set; parts.library.keep(); return it`));
    equal(found, [1, '* FULL\n RTS\n']);
  });
  await test('forbidden storage gives a message, and the text stays', async () => {
    const found = await value(inPage(`the.closeNotices(); const of = Storage.prototype, set = of.setItem;
      of.setItem = () => { throw new DOMException('no', 'SecurityError'); };
      the.type('* FORBIDDEN\\n RTS\\n'); parts.library.keep(); const it = [the.notices().length, the.id('source').value]; of.setItem = set; parts.library.keep(); return it`));
    equal(found, [1, '* FORBIDDEN\n RTS\n']);
  });
  await test('a page that goes to the background keeps its text at once', async () => {
    equal(await value(inPage(`the.type('* HIDDEN\\n RTS\\n'); Object.defineProperty(document, 'hidden', {value: true, configurable: true});
      document.dispatchEvent(new Event('visibilitychange')); delete document.hidden;
      return JSON.parse(localStorage.getItem('a2.program.' + the.id('programs').value)).text`)), '* HIDDEN\n RTS\n');
  });
  await test('files: a text is opened; one of 100 MB or of bytes is not, and nothing is lost', async () => {
    const found = await value(inPage(`the.closeNotices(); const before = the.id('source').value, drop = file => {
        const transfer = new DataTransfer(); transfer.items.add(file);
        dispatchEvent(new DragEvent('drop', {dataTransfer: transfer, cancelable: true})); };
      drop(new File([new Uint8Array(100 << 20)], 'big.s')); await the.until(() => the.notices().length === 1, 'a message on the large file');
      drop(new File([new Uint8Array([0, 255, 1, 2])], 'bytes.s')); await the.until(() => the.notices().length === 2, 'a message on bytes');
      drop(new File([new Uint8Array([7, 65, 66])], 'bell.s')); await the.until(() => the.notices().length === 3, 'a message on a bell');
      const isSame = the.id('source').value === before;
      drop(new File([' RTS ; dropped\\r\\n'], 'dropped.s')); await the.until(() => the.id('programs').value === 'dropped', 'the program');
      return [the.notices().length, isSame, the.id('source').value, the.id('programs').value]`));
    equal(found, [3, true, ' RTS ; dropped\n', 'dropped']);
  });
  await test('files: bytes of other programs are opened as a source, at the address that they or their name say', async () => {
    const found = await value(inPage(`the.closeNotices(); const drop = file => {
        const transfer = new DataTransfer(); transfer.items.add(file);
        dispatchEvent(new DragEvent('drop', {dataTransfer: transfer, cancelable: true})); };
      const opened = async (name, ...content) => {
        drop(new File(content, name)); await the.until(() => the.id('programs').value === name.replace(/\\..*/, ''), name);
        return the.id('source').value; };
      return [await opened('tiny.hex', ':06030000A9C120EDFD6023\\n:00000001FF\\n'), await opened('dump.mon', '*300.302\\n0300- A9 C1 60\\n'),
        await opened('raw-2000.bin', new Uint8Array([0xA2, 5, 0xCA, 0xD0, 0xFD, 0x60])),
        await opened('session.mon', ']CALL -151\\n; A copy\\n300:A9 C1\\n:60\\n*300G\\n0302-    A=C1 X=00 Y=00 P=30 S=FF\\n'), the.notices().length]`));
    equal(found[0].includes('JSR COUT') && found[0].includes('ORG $0300'), true);
    equal(found[1].includes('LDA #$C1'), true);
    equal(found[2].includes('ORG $2000') && found[2].includes('BNE L2002'), true);
    equal(found[3].includes('; ]CALL -151') && found[3].includes('RTS'), true);
    equal(found[4], 0);
  });
}

async function links(value) {
  const text = ' LDA #1 ; ünïcode <img src=x onerror=alert(1)>\n RTS\n';
  await test('a link gives the program back, beside the others', async () => {
    const found = await value(inPage(`navigator.clipboard.writeText = async it => { the.copied = it; };
      parts.library.add({name: 'sent <b>', text: ${JSON.stringify(text)}, keys: 'A\\\\r', free: true});
      the.id('link').click(); await the.until(() => the.copied, 'a link');
      parts.library.add({name: 'other', text: ' RTS\\n'}); localStorage.removeItem('a2.program.sent <b>'); const {length} = the.id('programs').options;
      await the.link(new URL(the.copied).hash); return [the.id('source').value, the.id('programs').value, the.id('keys').value, the.id('free').checked,
        the.id('programs').options.length - length, location.hash, document.querySelectorAll('#notices b, #notices img').length]`));
    equal(found, [text, 'sent <b>', 'A\\r', true, 0, '', 0]);
  });
  for (const [what, hash] of [['is cut off', '#p=q1YqSS0u'], ['is not base64', '#p=%%%'], ['is empty', '#p='], ['is too long', `#p=${'A'.repeat(500000)}`]]) {
    await test(`a link that ${what} changes nothing`, async () => {
      equal(await value(inPage(`const before = the.id('source').value; await the.link(${JSON.stringify(hash)}); return the.id('source').value === before`)), true);
    });
  }
  await test('a link that unpacks to 20 MB, or to no program, changes nothing', async () => {
    const found = await value(inPage(`const pack = async text => { const stream = new Blob([text]).stream().pipeThrough(new CompressionStream('deflate-raw'));
        const bytes = new Uint8Array(await new Response(stream).arrayBuffer()); let it = ''; for (const byte of bytes) it += String.fromCharCode(byte);
        return '#p=' + btoa(it).replaceAll('+', '-').replaceAll('/', '_').replace(/=+$/, ''); };
      const before = the.id('source').value, said = [];
      for (const it of ['A'.repeat(20 << 20), 'null', '[]', '{"name":1,"text":"x"}', '{"name":"x","text":{"a":1}}', '{"name":"x","text":"y","session":5}']) said.push(await the.link(await pack(it)));
      return [said.length, the.id('source').value === before]`));
    equal(found, [6, true]);
  });
}

async function sessions(value) {
  const begin = async button => { await value(inPage(`the.id('tab-live').click(); the.id('${button}').click(); await the.until(() => !the.id('end-live').hidden, 'a session')`)); };
  const shows = text => value(inPage(`await the.until(() => [the.id('terminal').innerText, parts.live.text].join().includes(${JSON.stringify(text)}), 'the terminal to show it'); return true`));
  const press = keys => value(inPage(`for (const key of ${JSON.stringify(keys)}) the.id('terminal').dispatchEvent(new KeyboardEvent('keydown', {key, cancelable: true, bubbles: true}))`));
  await test('the Monitor answers', async () => {
    await value(inPage(`the.type(' LDA #$C1\\n RTS\\n')`));
    await begin('monitor');
    await press([...'1234:AB', 'Enter', ...'1234', 'Enter']);
    await shows('1234- AB');
    await value(`the.id('end-live').click()`);
  });
  await test('the debugger steps forwards and back', async () => {
    await begin('debug');
    await shows('LDA');
    await press([...'step', 'Enter', ...'back', 'Enter', ...'quit', 'Enter']);
    await value(inPage(`await the.until(() => the.id('end-live').hidden, 'the end of the session')`));
  });
  await test('a program runs live with the keys that are typed', async () => {
    await value(inPage(`the.type('L LDA $C000\\n BPL L\\n BIT $C010\\n JSR $FDED\\n JMP L\\n')`));
    await begin('play');
    await press(['H', 'I']);
    await shows('HI');
    await value(inPage(`the.id('end-live').click(); await the.until(() => the.id('end-live').hidden, 'the end of the session')`));
    await value(`the.id('tab-run').click()`);
  });
}

async function tools(value) {
  const use = (number, then = '') => value(inPage(`the.id('tool').value = ${number}; the.id('tool').onchange(); the.text('tool-output') && the.id('tool-output').replaceChildren();
    await parts.tools.run(); ${then}; return the.text('tool-output')`));
  await value(inPage(`the.id('tab-tools').click(); the.type('; nothing\\nSTART LDA #1\\n RTS\\n')`));
  await test('each tool prints something', async () => {
    const length = await value(`the.id('tool').options.length`);
    for (let number = 0; number < length; ++number) equal((await use(number)).length > 0, true, `tool ${number}`);
  });
  await test('a listing has the bytes', async () => equal(/A9 01.*LDA #1/.test(await use(0)), true));
  await test('a promise that fails gives a run that can be stepped', async () => {
    await value(inPage(`the.type(';: ensures A = old X + 1\\nNEXT TXA\\n RTS\\n'); the.id('tab-tools').click()`));
    equal(/FAILS/.test(await use(6)), true);
    await value(inPage(`the.id('tool-film').click(); await the.until(() => !the.id('back').hidden && /step 2 of 2/.test(the.text('where')), 'the film')`));
    await value(inPage(`the.id('step-back').click(); await the.until(() => /step 1 of 2/.test(the.text('where')))`));
    await value(inPage(`the.id('tab-tools').click(); the.type(';: ensures A = old X\\n;: changes A\\nNEXT TXA\\n RTS\\n')`));
    equal(/HOLDS/.test(await use(6)), true);
    equal(await value(`the.id('tool-film').hidden`), true);
  });
  await test('a text that a tool makes goes into the editor, and undo takes it back', async () => {
    await value(inPage(`the.type('START LDA #1\\n RTS\\n')`));
    await use(7);
    equal(await value(inPage(`const before = the.id('source').value; the.id('tool-take').click(); const after = the.id('source').value;
      document.execCommand('undo'); return [after !== before, the.id('source').value === before]`)), [true, true]);
    await value(`the.id('tab-run').click()`);
  });
}

async function layout(value) {
  await test('each control has a name', async () => {
    const nameless = await value(inPage(`return [...document.querySelectorAll('button, input:not([type=file]), select, textarea, [role=application], canvas')].filter(it =>
      !(it.getAttribute('aria-label') || it.getAttribute('aria-labelledby') || it.textContent.trim() && it.tagName === 'BUTTON' || it.labels?.length)).map(it => it.outerHTML.slice(0, 80))`));
    equal(nameless, []);
  });
  for (const theme of ['light', 'dark']) {
    await test(`texts have enough contrast in ${theme} colours`, async () => {
      equal(await value(inPage(`document.documentElement.dataset.theme = '${theme}'; the.type('L LDA #NOWHERE+1 ; why "A"\\n ASC "X"\\n'); await the.until(() => document.querySelector('#problems li'));
        const rgb = it => it.match(/[\\d.]+/g).map(Number), part = it => (it /= 255) <= .03928 ? it / 12.92 : ((it + .055) / 1.055) ** 2.4;
        const light = ([r, g, b]) => .2126 * part(r) + .7152 * part(g) + .0722 * part(b);
        const paper = it => { for (; it; it = it.parentElement) { const colour = rgb(getComputedStyle(it).backgroundColor); if ((colour[3] ?? 1) > .5) return colour; } return [255, 255, 255]; };
        const own = it => [...it.childNodes].some(child => child.nodeType === 3 && child.data.trim());
        return [...document.querySelectorAll('body *')].filter(it => own(it) && it.checkVisibility() && it.id !== 'source' && !it.disabled && it.tagName !== 'OPTION').map(it => {
          const [a, b] = [light(rgb(getComputedStyle(it).color)), light(paper(it))].sort((a, b) => b - a), ratio = (a + .05) / (b + .05);
          return ratio < 4.5 ? it.tagName + '#' + it.id + '.' + it.className + ' ' + ratio.toFixed(2) : null; }).filter(Boolean)`)), []);
    });
  }
  await test('ids are unique', async () => {
    equal(await value(`(() => { const ids = [...document.querySelectorAll('[id]')].map(it => it.id); return ids.filter((it, at) => ids.indexOf(it) !== at); })()`), []);
  });
  await test('the page may not use the network', async () => {
    equal(await value(inPage(`const fail = new Promise(done => document.addEventListener('securitypolicyviolation', () => done('refused'), {once: true}));
      const image = new Image(); image.src = 'http://127.0.0.1:9/'; return Promise.race([fail, the.sleep(5000)])`)), 'refused');
  });
}

/** Runs all tests. `value` evaluates an expression in the page; `a2` is the path of the native program, if there is one. */
export async function appTests(value, a2) {
  await value('ready');
  await value(HELPERS);
  await programs(value, a2);
  await drawn(value);
  await longRuns(value);
  await longCalls(value);
  await machineCode(value);
  await keeping(value);
  await links(value);
  await sessions(value);
  await replays(value);
  await sounds(value);
  await liveSounds(value);
  await exercises(value);
  await learning(value);
  await tools(value);
  await layout(value);
}
