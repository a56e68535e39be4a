// Tests of the parts of a2.html that teach: the manual, exercises, the keys of a session, and sound. (app.mjs calls them.)
import {equal, test} from './count.mjs';
import {inPage} from './in-page-of-app.mjs';

const ECHO = 'L LDA $C000\n BPL L\n BIT $C010\n JSR $FDED\n JMP L\n';
// A tone: 200 touches of the speaker.
const BEEP = 'L LDA $C030\n LDY #96\nW DEY\n BNE W\n JMP L\n';
const TONE = ' LDY #200\nL LDA $C030\n LDX #100\nW DEX\n BNE W\n DEY\n BNE L\n RTS\n';
const WANT = 'stop RETURNED\ncase doubles\ncall DOUBLE A=15\nreg A=2A\ncase keeps X\ncall DOUBLE A=01 X=07\nreg A=02 X=07\n';
const WRONG = 'START LDA #3\n JSR DOUBLE\n RTS\nDOUBLE ASL A\n TAX\n RTS\n';

export async function learning(value) {
  await test('the manual opens, and its links lead to its pages', async () => {
    equal(await value(inPage(`the.id('tab-learn').click(); await the.until(() => the.id('manual').querySelector('h1'), 'a page');
      return [the.id('manual-page').options.length > 20, the.id('manual').querySelector('h1').textContent]`)), [true, 'The page']);
    equal(await value(inPage(`location.hash = '#learn=class/an-exercise'; await the.until(() => the.text('manual').includes('Tests for a class'), 'the page');
      await the.until(() => document.activeElement.id === 'in-an-exercise', 'the heading'); return the.id('manual-page').value`)), 'class');
    await value(inPage(`document.querySelector('#manual a[href="#learn=promises"]').click(); await the.until(() => the.id('manual-page').value === 'promises', 'a link')`));
  });
  await test('an address that is in no manual changes nothing', async () => {
    for (const hash of ['#learn=__proto__', '#learn=nothing/at-all', '#learn=%E0%A4%A', '#learn=../x', '#learn=']) {
      await value(inPage(`the.closeNotices(); location.hash = ${JSON.stringify(hash)}; await the.sleep(50)`));
      equal(await value(`[the.id('manual-page').value, the.notices().length]`), ['promises', 0], hash);
    }
    await value(`history.replaceState(null, '', location.href.split('#')[0])`);
  });
  await test('a program of the manual opens in the editor, and so does an example', async () => {
    equal(await value(inPage(`the.id('manual-page').value = 'language'; the.id('manual-page').onchange({target: the.id('manual-page')});
      await the.until(() => the.id('manual').querySelector('h1').textContent === the.id('manual-page').selectedOptions[0].textContent && location.hash === '#learn=language', 'the page');
      [...document.querySelectorAll('#manual .program')].find(it => it.textContent.includes('JSR COUT')).querySelector('button').click();
      return [the.id('programs').value.startsWith('language'), the.id('source').value.includes('JSR COUT')]`)), [true, true]);
    equal(await value(inPage(`location.hash = '#learn=examples'; await the.until(() => the.text('manual').includes('primes.s'));
      [...document.querySelectorAll('#manual .program button')].find(it => it.textContent === 'Open primes.s in the editor').click();
      return the.id('source').value.includes('primes')`)), true);
  });
  await test('words are found in the manual', async () => {
    equal(await value(inPage(`const find = text => { the.id('manual-find').value = text; the.id('manual-find').oninput({target: the.id('manual-find')}); return the.id('manual').querySelectorAll('a').length; };
      return [find('speaker') > 0, find('xyzzy <b>'), find('') > 5]`)), [true, 0, true]);
  });
}

const want = (value, text) => value(inPage(`the.id('want').value = ${JSON.stringify(text)}; the.id('want').dispatchEvent(new Event('input'))`));

export async function exercises(value) {
  const press = inPage(`the.id('tab-tests').click(); the.id('verdict').textContent = ''; parts.tests.run(); await the.until(() => the.text('verdict')); return the.text('verdict')`);
  await test('an exercise says what fails, and the failing case can be stepped, with the lines of the pupil', async () => {
    await value(inPage(`parts.library.add({name: 'exercise', text: ${JSON.stringify(WRONG)}})`));
    await want(value, WANT);
    equal(await value(press), '1 of 2 passed.');
    equal(await value(`[...document.querySelectorAll('#cases li')].map(it => it.className)`), ['good', 'bad']);
    equal(await value(inPage(`document.querySelector('#cases button').click(); await the.until(() => !the.id('panel-run').hidden && the.id('stop').hidden && the.text('where').includes('step 7 of 7'), 'the film');
      await the.at(4); return [the.text('said').includes('line 5: TAX'), document.querySelector('#gutter .now').textContent]`)), [true, '5']);
  });
  await test('a right program passes, a wrong one is not run, and errors of tests are shown', async () => {
    await value(inPage(`the.type(${JSON.stringify(WRONG.replace(' TAX\n', ''))})`));
    equal(await value(press), '2 of 2 passed. Well done!');
    await value(inPage(`the.type(' LDA\\n')`));
    equal(/^The program has an error/.test(await value(press)), true);
    await want(value, 'nonsense\n');
    equal(await value(press), 'The tests themselves have an error.');
  });
  await test('a link of an exercise opens its tests', async () => {
    await want(value, WANT);
    equal(await value(inPage(`the.closeNotices(); the.copied = null; navigator.clipboard.writeText = async it => { the.copied = it; }; the.id('tab-run').click();
      the.type(' RTS\\n'); the.id('link').click(); await the.until(() => the.copied, 'a link'); parts.library.add({name: 'other', text: ''});
      await the.link(new URL(the.copied).hash); await the.until(() => !the.id('panel-tests').hidden); return [the.id('want').value, the.id('source').value]`)), [WANT, ' RTS\n']);
  });
}

/** An exercise as a page: returns the text of the page that is saved. */
export async function savedExercise(value) {
  let page = '';
  await test('an exercise is saved as a page', async () => {
    await value(inPage(`parts.library.add({name: 'ex <b>', text: ${JSON.stringify(WRONG)} + '; </script><img src=x>\\n', want: ''}); the.closeNotices(); the.saved = null;
      const make = URL.createObjectURL; URL.createObjectURL = it => { the.saved = it; return make(it); }; the.id('exercise').click()`));
    equal(await value(`[the.saved, the.notices()[0].includes('needs tests')]`), [null, true]);
    await want(value, WANT);
    page = await value(inPage(`the.id('exercise').click(); await the.until(() => the.saved, 'a page'); return the.saved.text()`));
    equal([page.length > 1e6, page.includes('</script><img')], [true, false]);
    await value(`the.id('tab-run').click()`);
  });
  return page;
}

/** Tests a page with an exercise in it, which has just been opened. */
export async function exercisePage(value) {
  await test('a page with an exercise shows it, and keeps the work of a pupil', async () => {
    equal(await value(inPage(`await ready; return [the.id('programs').value, the.id('source').value, the.id('want').value, the.id('panel-tests').hidden, document.querySelectorAll('#notices b, img').length]`)),
      ['ex <b>', WRONG + '; </script><img src=x>\n', WANT, false, 0]);
    equal(await value(inPage(`the.type(${JSON.stringify(WRONG.replace(' TAX\n', ''))}); parts.library.keep(); the.id('verdict').textContent = ''; parts.tests.run(); await the.until(() => the.text('verdict')); return the.text('verdict')`)),
      '2 of 2 passed. Well done!');
  });
}

/** The same page, opened again. */
export async function exerciseAgain(value) {
  await test('the page with an exercise opens the work of the pupil again, and can begin again', async () => {
    equal(await value(inPage(`await ready; const mine = the.id('source').value; [...document.querySelectorAll('.notice button')].find(it => it.textContent === 'Begin again').click();
      return [mine, the.id('source').value.includes(' TAX'), the.id('programs').value]`)), [WRONG.replace(' TAX\n', ''), true, 'ex <b> 2']);
  });
}

export async function replays(value) {
  await test('the keys of a session are recorded, and make the same run again', async () => {
    await value(inPage(`parts.library.add({name: 'echo live', text: ${JSON.stringify(ECHO)}}); the.id('tab-live').click(); the.id('play').click(); await the.until(() => !the.id('end-live').hidden);
      for (const key of ['O', 'K']) the.id('terminal').dispatchEvent(new KeyboardEvent('keydown', {key, cancelable: true, bubbles: true}));
      await the.until(() => parts.live.text.includes('OK'), 'the echo'); the.id('end-live').click(); await the.until(() => !the.id('session-part').hidden, 'a record')`));
    equal(/^\d+ 4F\n\d+ 4B\n\d+ END\n$/.test(await value(`the.id('session').value`)), true);
    equal(await value(inPage(`the.id('replay').click(); await the.until(() => the.text('live-says').includes('ran again'), 'the end'); return parts.live.text.startsWith('OK')`)), true);
  });
  if (await value(inPage(`await parts.replay.show(); return !the.id('replay-run').hidden`))) {
    await test('a session is gone through with the slider', async () => {
      await value(inPage(`the.id('replay-run').click(); await the.until(() => !the.id('back').hidden && the.id('stop').hidden && the.text('screen-words').startsWith('OK'), 'the end')`));
      equal(await value(inPage(`await the.at(0); const before = the.text('screen-words'); the.id('tab-live').click(); return before.includes('OK')`)), false);
    });
  }
  await test('the debugger begins at the end of the session, and goes back', async () => {
    const press = keys => value(inPage(`for (const key of ${JSON.stringify(keys)}) the.id('terminal').dispatchEvent(new KeyboardEvent('keydown', {key, cancelable: true, bubbles: true}))`));
    await value(inPage(`the.id('replay-debug').click(); await the.until(() => !the.id('end-live').hidden && parts.live.text.includes('OK'), 'the end of the session')`));
    await press([...'who $401', 'Enter']);
    await value(inPage(`await the.until(() => /O *$/m.test(parts.live.text) || !parts.live.text.includes('OK'), 'the step before the K'); the.id('end-live').click()`));
  });
  await test('a link with the keys of a session brings them', async () => {
    const session = await value(`the.id('session').value`);
    equal(await value(inPage(`the.closeNotices(); the.copied = null; navigator.clipboard.writeText = async it => { the.copied = it; };
      the.id('link-session').click(); await the.until(() => the.copied, 'a link'); parts.library.add({name: 'other', text: ''}); const isHidden = the.id('session-part').hidden;
      localStorage.removeItem('a2.program.echo live'); await the.link(new URL(the.copied).hash); return [isHidden, the.id('session').value, the.notices()[0].includes('Replay it')]`)),
      [true, session, true]);
    equal(await value(inPage(`the.copied = null; the.id('link').click(); await the.until(() => the.copied); const other = the.copied; parts.library.add({name: 'other', text: ''});
      await the.link(new URL(other).hash); return the.id('session').value`)), '');
  });
  await test('keys that belong to another program give the message of the program', async () => {
    await value(inPage(`the.id('session').value = '5 41\\n900 END\\n'; the.type(' RTS\\n'); the.id('replay').click(); await the.until(() => parts.live.text.includes('recording of another source'), 'the message')`));
    await value(`the.id('tab-run').click()`);
  });
}

// Takes down what the page plays. (A browser plays nothing without a user.)
const LISTEN = `the.played = [];
  window.AudioContext = class {
    state = 'running';
    sampleRate = 48000;
    get currentTime() { return performance.now() / 1000; }
    resume() {}
    createGain() { return {context: this, connect() {}, disconnect() {}}; }
    createBuffer() { return {copyToChannel(samples) { this.samples = samples; }}; }
    createBufferSource() { return {connect() {}, stop() {}, start(at) { the.played.push({late: at * 1000 < performance.now(), at: Math.round(at * 48000), samples: this.buffer.samples}); }}; }
  }`;

export async function liveSounds(value) {
  await test('a live session is silent until its sound is turned on, and again when it is turned off', async () => {
    await value(inPage(`the.real = window.AudioContext; ${LISTEN}; parts.library.add({name: 'beep', text: ${JSON.stringify(BEEP)}}); the.id('tab-live').click(); the.id('play').click();
      await the.until(() => parts.live.text.includes('running'), 'the session'); await the.sleep(300)`));
    equal(await value(`[the.played.length, the.id('live-sound').getAttribute('aria-pressed'), localStorage.getItem('a2.sound')]`), [0, 'false', null]);
    equal(await value(inPage(`the.id('live-sound').click(); await the.until(() => the.played.length > 20, 'the sound');
      return [the.id('live-sound').getAttribute('aria-pressed'), localStorage.getItem('a2.sound'), parts.live.sound.made > 1000]`)), ['true', 'on', true]);
    equal(await value(inPage(`the.id('live-sound').click(); const before = the.played.length; await the.sleep(300); return [the.played.length - before, localStorage.getItem('a2.sound')]`)), [0, 'off']);
  });
  await test('a beep is a tone, its reports are not drawn, and the choice is remembered', async () => {
    const [rises, isLate, text] = await value(inPage(`the.id('live-sound').click(); the.played = []; the.id('play').click(); await the.until(() => the.played.length > 40, 'the sound');
      const sound = new Float32Array(48000 * 20), from = the.played[0].at;
      for (const {at, samples} of the.played.slice(0, 40)) sound.fill(0, at - from).set(samples.subarray(0, sound.length - at + from), at - from);
      return [sound.filter((it, at) => at > 0 && it >= 0 && sound[at - 1] < 0).length, the.played.some(it => it.late), parts.live.text]`));
    equal([rises > 100, isLate, /6502|;\d+ \d+/.test(text)], [true, false, false]);
    await value(inPage(`the.id('end-live').click(); the.id('live-sound').click(); window.AudioContext = the.real; the.id('tab-run').click()`));
  });
}

export async function sounds(value) {
  await test('the sound of a run has all touches of the speaker, and a silent run is said to be silent', async () => {
    await value(inPage(`parts.library.add({name: 'tone', text: ${JSON.stringify(TONE)}}); await the.ran(); the.id('sound').click();
      await the.until(() => the.text('sound-says').includes('200 times') || the.id('sound').hidden, 'the sound'); parts.sound.stop()`));
    await value(inPage(`the.type(' RTS\\n'); await the.ran(); the.id('sound').click(); await the.until(() => the.text('sound-says').includes('silent') || the.id('sound').hidden, 'no sound')`));
  });
}
