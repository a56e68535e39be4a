// The host of the programs in a browser or in node. It answers the calls that host.c makes, and runs a module as a filter (from its
// words and input to its status and output) or as a session (which waits for keys).
//
// A program runs in an instance of its own, with a memory of its own. When it ends, by itself or by a fault, both are thrown away.

/**
 * An open file or a stream. A negative result is an error, negated (`ERRORS`).
 * @typedef {object} Stream
 * @property {(room: Uint8Array) => number} [read] Puts bytes at the start of `room`; returns how many, 0 at the end.
 * @property {(bytes: Uint8Array) => number} [write] Takes bytes from the start of `bytes`, and copies them; returns how many.
 * @property {() => void} [close]
 * @property {boolean} [isTerminal]
 */

/**
 * Files by their names. A negative result is an error, negated (`ERRORS`).
 * @typedef {object} Files
 * @property {(name: string, isNew: boolean) => Stream | number} open Opens a file to read it, or creates one to write it.
 * @property {(from: string, to: string) => number} rename Returns 0.
 * @property {(name: string) => number} unlink Returns 0.
 * @property {(name: string) => {number: number, isFolder: boolean} | number} stat Each file has a number of its own.
 */

/**
 * What a program gets.
 * @typedef {object} Call
 * @property {(string | Uint8Array)[]} words The name of the program, and its arguments.
 * @property {Files} [files] None if left out.
 * @property {Uint8Array} [input] Its standard input; empty if left out.
 * @property {number} [mostPages] The limit of its memory, in pages of 64 KiB, at most MOST_PAGES.
 * @property {number} [mostOutput] The limit of its standard output, and of its standard error, in bytes.
 */

/**
 * Why a program did not end by itself.
 * @typedef {object} Fault
 * @property {'memory' | 'stack' | 'trap' | 'waiting'} kind The engine has no memory for it; its stack is too small; it trapped; the
 *   engine cannot let it wait (JSPI is missing).
 * @property {string} message The engine's message.
 */

/**
 * How a program ended: by itself with a status, or by a fault. The other field is null.
 * @typedef {object} Ended
 * @property {number | null} status
 * @property {Fault | null} fault
 */

/** @typedef {Ended & {stdout: Uint8Array, stderr: Uint8Array}} Result */

/** The numbers of errors on Linux. */
export const ERRORS = {NOT_FOUND: 2, BAD_STREAM: 9, EXISTS: 17, NO_FOLDER: 20, IS_FOLDER: 21, NO_ROOM: 28};

// The pages of a memory at the start and at most. (page/build has both, in bytes.)
const FIRST_PAGES = 64, MOST_PAGES = 16384;

const MOST_OUTPUT = 256 << 20;

// The arguments of main, which these programs do not use: they ask for their words.
const NO_WORDS = [0, 0n];

/** A list of bytes that grows. */
class Bytes {
  #room = new Uint8Array(1024);
  #length = 0;

  /** @param {number} most The limit of its length. */
  constructor(most = Infinity) {
    this.most = most;
  }

  /** Adds all of these bytes, or returns an error. @param {Uint8Array} bytes  @returns {number} */
  add(bytes) {
    const length = this.#length + bytes.length;
    if (length > this.most) return -ERRORS.NO_ROOM;
    if (length > this.#room.length) {
      const larger = new Uint8Array(Math.max(length, 2 * this.#room.length));
      larger.set(this.#room.subarray(0, this.#length));
      this.#room = larger;
    }
    this.#room.set(bytes, this.#length);
    this.#length = length;
    return bytes.length;
  }

  get all() {
    return this.#room.slice(0, this.#length);
  }
}

/** Returns a stream of these bytes. @param {Uint8Array} bytes  @returns {Stream} */
export function streamOf(bytes) {
  let at = 0;
  return {
    read(room) {
      const piece = bytes.subarray(at, at + room.length);
      room.set(piece);
      at += piece.length;
      return piece.length;
    },
  };
}

/**
 * Files in memory. A folder is there if the name of a file leads through it.
 * @implements {Files}
 */
export class MemoryFiles {
  /** @type {Map<string, {bytes: Uint8Array, number: number}>} */
  #files = new Map();
  #count = 0;

  /**
   * @param {Iterable<[string, Uint8Array]>} files Names and contents.
   * @param {number} [most] The limit of a new file, in bytes.
   */
  constructor(files = [], most = MOST_OUTPUT) {
    this.most = most;
    for (const [name, bytes] of files) this.set(name, bytes);
  }

  /** @param {string} name  @param {Uint8Array} bytes */
  set(name, bytes) {
    this.#files.set(pathOf(name), {bytes, number: ++this.#count});
  }

  /** @returns {Uint8Array | undefined} The contents of the file with this name. */
  get(name) {
    return this.#files.get(pathOf(name))?.bytes;
  }

  /** The names of all files. */
  get names() {
    return [...this.#files.keys()];
  }

  open(name, isNew) {
    const path = pathOf(name), file = this.#files.get(path), folder = this.#isFolder(path);
    if (!name || !this.#isFolder(folderOf(path))) return -ERRORS.NOT_FOUND;
    if (isNew && (file || folder)) return -ERRORS.EXISTS;
    if (folder) return {read: () => -ERRORS.IS_FOLDER};
    if (!isNew && !file) return -ERRORS.NOT_FOUND;
    if (name.endsWith('/')) return isNew ? -ERRORS.IS_FOLDER : -ERRORS.NO_FOLDER;
    return isNew ? this.#create(path) : streamOf(file.bytes);
  }

  rename(from, to) {
    const [one, other] = [pathOf(from), pathOf(to)], file = this.#files.get(one);
    if (!file || !to || !this.#isFolder(folderOf(other))) return -ERRORS.NOT_FOUND;
    if (this.#isFolder(other)) return -ERRORS.IS_FOLDER;
    this.#files.delete(one);
    this.#files.set(other, file);
    return 0;
  }

  unlink(name) {
    return this.#files.delete(pathOf(name)) ? 0 : -ERRORS.NOT_FOUND;
  }

  stat(name) {
    const path = pathOf(name), file = this.#files.get(path);
    if (name && this.#isFolder(path)) return {number: 0, isFolder: true};
    return file ? {number: file.number, isFolder: false} : -ERRORS.NOT_FOUND;
  }

  #create(path) {
    const file = {bytes: new Uint8Array(), number: ++this.#count}, written = new Bytes(this.most);
    this.#files.set(path, file);
    return {write: bytes => written.add(bytes), close: () => { file.bytes = written.all; }};
  }

  #isFolder(path) {
    return path === '' || this.names.some(it => it.startsWith(path + '/'));
  }
}

// The name without `.`, `..` and doubled slashes. All names begin in one folder.
function pathOf(name) {
  const parts = [];
  for (const part of name.split('/')) {
    if (part === '..') parts.pop();
    else if (part !== '' && part !== '.') parts.push(part);
  }
  return parts.join('/');
}

function folderOf(path) {
  return path.slice(0, Math.max(path.lastIndexOf('/'), 0));
}

function nanoseconds(milliseconds) {
  return BigInt(Math.round(milliseconds * 1e6));
}

const UTF8 = {decoder: new TextDecoder('utf-8', {ignoreBOM: true}), encoder: new TextEncoder()};

// Answers a program's calls. Pointers and lengths have 64 bits and arrive as BigInt, though the memory has 32-bit addresses.
class System {
  #streams;
  #next = 3;

  /** @param {Call} call  @param {Stream[]} streams Standard input, output and error. */
  constructor({words, files = new MemoryFiles(), mostPages = MOST_PAGES}, streams) {
    this.files = files;
    this.words = words.map(it => typeof it === 'string' ? UTF8.encoder.encode(it) : it);
    this.#streams = new Map(streams.map((it, at) => [at, it]));
    this.memory = new WebAssembly.Memory({initial: Math.min(FIRST_PAGES, mostPages), maximum: mostPages});
  }

  /** The functions that a module imports. */
  get imports() {
    return {
      read: (file, at, room) => BigInt(this.#streams.get(file)?.read?.(this.bytes(at, room)) ?? -ERRORS.BAD_STREAM),
      write: (file, at, length) => BigInt(this.#streams.get(file)?.write?.(this.bytes(at, length)) ?? -ERRORS.BAD_STREAM),
      open: (name, length, flags) => this.#open(this.#text(name, length), flags),
      close: file => this.#close(file),
      rename: (from, length, to, toLength) => this.files.rename(this.#text(from, length), this.#text(to, toLength)),
      unlink: (name, length) => this.files.unlink(this.#text(name, length)),
      stat: (name, length) => this.#stat(this.#text(name, length)),
      arg: (index, at, room) => this.#arg(Number(index), this.bytes(at, room)),
      isatty: file => this.#streams.get(file)?.isTerminal ? 1 : 0,
      clock: number => nanoseconds(number === 0 ? Date.now() : performance.now()),
    };
  }

  /** A view of the memory, which is valid until the memory grows. A program that asks for bytes outside of it has a fault. */
  bytes(at, length) {
    const {buffer} = this.memory;
    if (at < 0n || length < 0n || at + length > BigInt(buffer.byteLength)) throw new WebAssembly.RuntimeError('a host call is out of bounds');
    return new Uint8Array(buffer, Number(at), Number(length));
  }

  #text(at, length) {
    return UTF8.decoder.decode(this.bytes(at, length));
  }

  #open(name, flags) {
    const created = 0o100;
    const stream = this.files.open(name, (flags & created) !== 0);
    if (typeof stream === 'number') return stream;
    this.#streams.set(this.#next, stream);
    return this.#next++;
  }

  #close(file) {
    const stream = this.#streams.get(file);
    if (!stream) return -ERRORS.BAD_STREAM;
    this.#streams.delete(file);
    stream.close?.();
    return 0;
  }

  #stat(name) {
    const found = this.files.stat(name);
    return BigInt(typeof found === 'number' ? found : 2 * found.number + (found.isFolder ? 1 : 0));
  }

  #arg(index, room) {
    const missing = -1n, tooLong = -2n, word = this.words[index];
    if (!word) return missing;
    room.set(word.subarray(0, room.length));
    return word.length > room.length ? tooLong : BigInt(word.length);
  }
}

/**
 * Returns the fault that an engine reports by this error. Another error, such as one of the caller's streams, is thrown again.
 * @returns {Fault}
 */
function faultOf(error) {
  const message = String(error.message ?? error);
  if (error instanceof WebAssembly.RuntimeError) return {kind: 'trap', message};
  // (Firefox has an error of its own for this)
  if (/call stack|recursion/i.test(message)) return {kind: 'stack', message};
  // (A module does not link with a memory that is smaller than its own data.)
  if (error instanceof RangeError || error instanceof WebAssembly.LinkError) return {kind: 'memory', message};
  throw error;
}

/**
 * Runs a program as a filter, until it ends.
 * @param {WebAssembly.Module} module
 * @param {Call} call
 * @param {Stream[]} [streams] Standard input, output and error. If left out, they are `input` and what the result holds.
 * @returns {Result}
 */
export function run(module, call, streams) {
  const out = [new Bytes(call.mostOutput ?? MOST_OUTPUT), new Bytes(call.mostOutput ?? MOST_OUTPUT)];
  streams ??= [streamOf(call.input ?? new Uint8Array()), ...out.map(it => ({write: bytes => it.add(bytes)}))];
  const ended = {status: null, fault: null};
  try {
    const system = new System(call, streams);
    const {exports} = new WebAssembly.Instance(module, {host: system.imports, env: {memory: system.memory}});
    ended.status = exports.main(...NO_WORDS);
  } catch (error) {
    ended.fault = faultOf(error);
  }
  return {...ended, stdout: out[0].all, stderr: out[1].all};
}

/** Whether this engine lets a program wait: whether it has JavaScript Promise Integration. */
export const canWait = typeof WebAssembly.Suspending === 'function' && typeof WebAssembly.promising === 'function';

// Lets the engine do other work, such as receiving keys. (A timer would take 4 ms.)
function breathe() {
  return new Promise(done => {
    const {port1, port2} = new MessageChannel();
    port1.onmessage = () => { port1.close(); done(); };
    port2.postMessage(null);
  });
}

/**
 * The clock of a session, in milliseconds. A program that shows something only so often shows a key at once if the clock goes ahead by that
 * time. Then the clock stays until real time is the same, so it is never further ahead, and in the long run it is right.
 */
export class Clock {
  #least = 0;

  /** @param {number} time */
  goAhead(time) {
    this.#least = performance.now() + time;
  }

  get now() {
    return Math.max(this.#least, performance.now());
  }
}

/** A program whose reads of standard input wait for keys. It may keep its thread busy, so it belongs in a worker. */
export class Session {
  #keys = [];
  #hasEnded = false;
  #wake = () => {};
  #clock = new Clock();

  /**
   * @param {WebAssembly.Module} module
   * @param {Call} call Its `input` is not used.
   * @param {object} how
   * @param {(stream: number, bytes: Uint8Array) => void} how.show Receives what the program writes to stream 1 (standard output) or 2.
   * @param {number} [how.wait] After so many milliseconds without a key, a read returns no bytes. If left out, it waits for a key.
   * @param {number} [how.ahead] At a key, the clock goes ahead by so many milliseconds.
   */
  constructor(module, call, {show, wait, ahead = 0}) {
    Object.assign(this, {wait, ahead});
    const shown = number => ({isTerminal: true, write: bytes => { show(number, bytes.slice()); return bytes.length; }});
    const streams = [{isTerminal: true}, shown(1), shown(2)];
    /** @type {Promise<Ended>} How it ends. */
    this.ended = canWait ? this.#run(module, call, streams) :
      Promise.resolve({status: null, fault: {kind: 'waiting', message: 'this browser lacks WebAssembly.Suspending'}});
  }

  /** Types these bytes. */
  type(bytes) {
    for (const it of bytes) this.#keys.push(it);
    this.#clock.goAhead(this.ahead);
    this.#wake();
  }

  /** Ends standard input. */
  end() {
    this.#hasEnded = true;
    this.#wake();
  }

  async #run(module, call, streams) {
    try {
      const system = new System(call, streams), imports = system.imports, {read, clock} = imports;
      const waiting = async (file, at, room) => file === 0 ? BigInt(await this.#read(system, at, room)) : read(file, at, room);
      imports.read = new WebAssembly.Suspending(waiting);
      imports.clock = number => number === 0 ? clock(number) : nanoseconds(this.#clock.now);
      const {exports} = await WebAssembly.instantiate(module, {host: imports, env: {memory: system.memory}});
      return {status: await WebAssembly.promising(exports.main)(...NO_WORDS), fault: null};
    } catch (error) {
      return {status: null, fault: faultOf(error)};
    }
  }

  async #read(system, at, room) {
    await (this.#keys.length || this.#hasEnded || this.wait === 0 ? breathe() : this.#key());
    const bytes = this.#keys.splice(0, Number(room));
    system.bytes(at, BigInt(bytes.length)).set(bytes);
    return bytes.length;
  }

  // Waits for a key, the end of input, or the end of its time.
  #key() {
    return new Promise(done => {
      const timer = this.wait === undefined ? undefined : setTimeout(done, this.wait);
      this.#wake = () => { clearTimeout(timer); done(); };
    });
  }
}

/**
 * Returns the bytes that inline.mjs has packed.
 * @param {string} packed Gzipped, in base64.
 * @returns {Promise<ArrayBuffer>}
 */
export async function unpackBytes(packed) {
  const bytes = Uint8Array.from(atob(packed), it => it.charCodeAt(0));
  return new Response(new Blob([bytes]).stream().pipeThrough(new DecompressionStream('gzip'))).arrayBuffer();
}

/**
 * Compiles a module that inline.mjs has packed.
 * @param {string} packed
 * @returns {Promise<WebAssembly.Module>}
 */
export async function unpack(packed) {
  return WebAssembly.compile(await unpackBytes(packed));
}
