// Drives Debian's firefox-esr, without a display, by its Marionette protocol (lengths and JSON over a connection). It needs nothing but
// node, and ends only the process that it began.
import {spawn} from 'node:child_process';
import {mkdtempSync, rmSync, writeFileSync} from 'node:fs';
import net from 'node:net';
import {tmpdir} from 'node:os';
import {join} from 'node:path';

const sleep = time => new Promise(done => setTimeout(done, time));

async function freePort() {
  const server = net.createServer().listen(0, '127.0.0.1');
  await new Promise(done => server.once('listening', done));
  const {port} = server.address();
  await new Promise(done => server.close(done));
  return port;
}

// Connects to the port as soon as something listens there.
async function connected(port, child) {
  for (let tries = 0; tries < 600 && child.exitCode === null; ++tries) {
    const socket = net.connect(port, '127.0.0.1');
    const isOpen = await new Promise(done => { socket.once('connect', () => done(true)); socket.once('error', () => done(false)); });
    if (isOpen) return socket;
    await sleep(100);
  }
  throw new Error('Firefox does not answer');
}

/** Calls over a socket. A message is its length in decimal digits, a colon, and JSON. */
class Messages {
  #rest = Buffer.alloc(0);
  #waiting = new Map();
  #number = 0;

  constructor(socket) {
    this.socket = socket;
    socket.on('data', piece => { this.#rest = Buffer.concat([this.#rest, piece]); this.#takeAll(); });
    const ended = () => { for (const {failed} of this.#waiting.values()) failed(new Error('Firefox has ended')); };
    socket.on('close', ended).on('error', ended);
  }

  #takeAll() {
    for (let colon; (colon = this.#rest.indexOf(':')) >= 0;) {
      const end = colon + 1 + Number(this.#rest.subarray(0, colon));
      if (this.#rest.length < end) return;
      this.#take(JSON.parse(this.#rest.subarray(colon + 1, end)));
      this.#rest = this.#rest.subarray(end);
    }
  }

  #take(message) {
    // (The first message is not an answer.)
    if (!Array.isArray(message)) return;
    const [, number, fault, answer] = message, {done, failed} = this.#waiting.get(number);
    this.#waiting.delete(number);
    if (fault) failed(new Error(fault.message));
    else done(answer?.value);
  }

  call(name, values = {}) {
    const text = JSON.stringify([0, ++this.#number, name, values]);
    this.socket.write(`${Buffer.byteLength(text)}:${text}`);
    return new Promise((done, failed) => this.#waiting.set(this.#number, {done, failed}));
  }
}

export async function browser() {
  const room = mkdtempSync(join(tmpdir(), 'page-firefox-')), port = await freePort();
  writeFileSync(join(room, 'user.js'), `user_pref("marionette.port", ${port});\nuser_pref("datareporting.policy.dataSubmissionEnabled", false);\n`);
  const words = ['--headless', '--marionette', '--no-remote', '--profile', room, '--width', '1280', '--height', '900'];
  const child = spawn('firefox-esr', words, {stdio: 'ignore', env: {...process.env, HOME: room}});
  child.on('error', () => {});
  const messages = new Messages(await connected(port, child));
  await messages.call('WebDriver:NewSession');
  await messages.call('WebDriver:SetTimeouts', {script: 300000, pageLoad: 300000});

  /** Opens a page. Its `value` evaluates an expression in the page, and awaits it if it is a promise. */
  const open = async url => {
    await messages.call('WebDriver:Navigate', {url});
    const value = async expression => {
      const script = `const done = arguments[0]; (async () => (${expression}))().then(it => done({it}), fault => done({fault: String(fault)}));`;
      const {it, fault} = await messages.call('WebDriver:ExecuteAsyncScript', {script, args: []});
      if (fault !== undefined) throw new Error(`${expression.slice(0, 200)}: ${fault}`);
      return it;
    };
    return {value};
  };

  const close = async () => {
    const gone = new Promise(done => child.once('exit', done));
    messages.call('Marionette:Quit', {flags: ['eForceQuit']}).catch(() => {});
    await Promise.race([gone, sleep(10000)]);
    if (child.exitCode === null) child.kill('SIGKILL');
    rmSync(room, {recursive: true, force: true, maxRetries: 5, retryDelay: 200});
  };
  return {open, close};
}
