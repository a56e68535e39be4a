// Drives a headless Chromium by the DevTools protocol over a pipe, with node alone. It ends only the process that it began.
import {spawn} from 'node:child_process';
import {mkdtempSync, rmSync, writeFileSync} from 'node:fs';
import {tmpdir} from 'node:os';
import {join} from 'node:path';

const FLAGS = ['--headless=new', '--no-sandbox', '--disable-gpu', '--no-first-run', '--disable-background-networking', '--disable-sync',
  '--disable-component-update', '--disable-extensions', '--disable-default-apps', '--host-resolver-rules=MAP * ~NOTFOUND', '--remote-debugging-pipe'];
const CODES = {ArrowRight: 39, ArrowLeft: 37, ArrowDown: 40, ArrowUp: 38, Home: 36, End: 35, ' ': 32, Enter: 13, Tab: 9};
const sleep = time => new Promise(done => setTimeout(done, time));

export async function browser() {
  const room = mkdtempSync(join(tmpdir(), 'film-chromium-'));
  const child = spawn('chromium', [...FLAGS, '--user-data-dir=' + room, 'about:blank'], {stdio: ['ignore', 'ignore', 'ignore', 'pipe', 'pipe']});
  const waiting = new Map, events = [];
  let id = 0, rest = [];
  child.stdio[4].on('data', piece => {
    for (let end; (end = piece.indexOf(0)) >= 0; piece = piece.subarray(end + 1)) {
      const message = JSON.parse(Buffer.concat([...rest, piece.subarray(0, end)]).toString());
      rest = [];
      if (!message.id) { events.push(message); continue; }
      const [done, failed] = waiting.get(message.id);
      waiting.delete(message.id);
      message.error ? failed(new Error(JSON.stringify(message.error))) : done(message.result);
    }
    if (piece.length) rest.push(piece);
  });
  // (if the browser ends, whatever waits for it reports that)
  for (const pipe of child.stdio.slice(3)) pipe.on('error', () => {});
  child.on('exit', () => { for (const [, failed] of waiting.values()) failed(new Error('Chromium has ended')); });
  const send = (method, params = {}, sessionId) => new Promise((done, failed) => {
    waiting.set(++id, [done, failed]);
    child.stdio[3].write(JSON.stringify({id, method, params, sessionId}) + '\0');
  });
  const until = async test => {
    for (const begun = Date.now(); !events.some(test); await sleep(5)) if (Date.now() - begun > 300000) throw new Error('Chromium does not answer');
  };

  // A page in a tab of its own, of this size, in light or dark colours, on the screen or as it is printed.
  const open = async (url, {width = 1280, height = 900, dark = false, media = 'screen'} = {}) => {
    const {targetId} = await send('Target.createTarget', {url: 'about:blank'});
    const {sessionId} = await send('Target.attachToTarget', {targetId, flatten: true});
    const call = (method, params) => send(method, params, sessionId);
    for (const part of ['Page', 'Runtime', 'Network', 'Log']) await call(part + '.enable');
    await call('Emulation.setDeviceMetricsOverride', {width, height, deviceScaleFactor: 1, mobile: width < 500});
    await call('Emulation.setEmulatedMedia', {media, features: [{name: 'prefers-color-scheme', value: dark ? 'dark' : 'light'}]});
    const begun = performance.now();
    await call('Page.navigate', {url});
    await until(event => event.sessionId == sessionId && event.method == 'Page.loadEventFired');
    const loaded = performance.now() - begun;
    const value = async expression => {
      const {result, exceptionDetails: fault} = await call('Runtime.evaluate', {expression, returnByValue: true, awaitPromise: true});
      if (fault) throw new Error(expression.slice(0, 200) + ': ' + (fault.exception?.description ?? JSON.stringify(fault)));
      return result.value;
    };
    const key = async (name, modifiers = 0) => {
      const text = name == 'Enter' ? '\r' : name.length == 1 ? name : undefined;
      const event = {key: name, code: name == ' ' ? 'Space' : name, modifiers, windowsVirtualKeyCode: CODES[name], text};
      await call('Input.dispatchKeyEvent', {type: 'keyDown', ...event});
      await call('Input.dispatchKeyEvent', {type: 'keyUp', ...event});
    };
    const type = text => call('Input.insertText', {text});
    const click = async (x, y) => { for (const type of ['mousePressed', 'mouseReleased']) await call('Input.dispatchMouseEvent', {type, x, y, button: 'left', clickCount: 1}); };
    const picture = async (file, whole) => writeFileSync(file, Buffer.from((await call('Page.captureScreenshot', {format: 'png', captureBeyondViewport: !!whole})).data, 'base64'));
    const heap = async () => { await call('HeapProfiler.enable'); await call('HeapProfiler.collectGarbage'); return call('Runtime.getHeapUsage'); };
    // What went wrong: errors, lines in the console, requests for anything except the page.
    const faults = () => events.filter(event => event.sessionId == sessionId).flatMap(({method, params}) =>
      method == 'Runtime.exceptionThrown' ? ['error: ' + (params.exceptionDetails.exception?.description ?? params.exceptionDetails.text)]
      : method == 'Runtime.consoleAPICalled' ? ['console: ' + JSON.stringify(params.args)]
      : method == 'Log.entryAdded' ? ['log: ' + params.entry.text]
      : method == 'Page.javascriptDialogOpening' ? ['dialog: ' + params.message]
      : method == 'Network.requestWillBeSent' && params.request.url.split('#')[0] != url.split('#')[0] ? ['request: ' + params.request.url] : []);
    const close = () => send('Target.closeTarget', {targetId});
    return {call, value, key, type, click, picture, heap, faults, close, loaded};
  };

  const close = async () => {
    const gone = new Promise(done => child.once('exit', done));
    send('Browser.close').catch(() => {});
    await Promise.race([gone, sleep(5000)]);
    if (child.exitCode === null) child.kill('SIGKILL');
    rmSync(room, {recursive: true, force: true, maxRetries: 5, retryDelay: 200});
  };
  return {open, close};
}
