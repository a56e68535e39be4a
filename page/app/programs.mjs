// Runs the programs as filters, each call in a worker.
import {unpack} from '../host.mjs';
import {block} from './dom.mjs';

const modules = new Map(), read = bytes => new TextDecoder().decode(bytes);

/** Returns the compiled module of a program, such as a2lab. @returns {Promise<WebAssembly.Module>} */
export function moduleOf(name) {
  if (!modules.has(name)) modules.set(name, unpack(block(`module-${name}`)));
  return modules.get(name);
}

let workerUrl = null;

/** Returns a new worker, which understands the messages of worker.mjs. */
export function startWorker() {
  workerUrl ??= URL.createObjectURL(new Blob([JSON.parse(block('worker'))], {type: 'text/javascript'}));
  return new Worker(workerUrl);
}

/**
 * Returns files as worker.mjs takes them.
 * @param {Record<string, string | Uint8Array | undefined>} files Texts or bytes by their names; no file where there is none.
 */
export function filesOf(files) {
  const bytesOf = content => typeof content === 'string' ? new TextEncoder().encode(content) : content;
  return Object.entries(files).filter(([, content]) => content !== undefined).map(([name, content]) => [name, bytesOf(content)]);
}

/** Returns the texts of files by their names. @param {[string, Uint8Array][]} files As worker.mjs sends them. */
export function textsOf(files) {
  return Object.fromEntries(files.map(([name, bytes]) => [name, read(bytes)]));
}

/**
 * Returns the options of a program's run: of a session that was recorded, or of a run that has these keys waiting, and no guard if it is free.
 * @returns {string[]}
 */
export function runOptions({keys, free, record}) {
  return record !== undefined ? ['--replay', RECORD] : [...(keys ? ['--keys', keys] : []), ...(free ? ['--free'] : [])];
}

/** The file that has the keys of a live session. */
export const RECORD = 'session.keys';

/** What a call that was cancelled throws. */
export class Cancelled extends Error {}

/** Runs one program at a time. A new call cancels the one before it. */
export class Runner {
  #worker = null;
  #failed = null;
  #number = 0;

  /**
   * Runs a program until it ends.
   * @param {string[]} words The name of the program, and its arguments.
   * @param {Record<string, string | Uint8Array>} files
   * @returns {Promise<{status: number | null, fault: object | null, stdout: string, stderr: string, bytes: Uint8Array,
   *   files: Record<string, string>, made: Record<string, Uint8Array>}>} `bytes` are those of `stdout`. `files` has the texts of all files that
   *   there are when it ends, and `made` their bytes.
   */
  async run(words, files) {
    this.cancel();
    const number = this.#number, module = await moduleOf(words[0]);
    if (number !== this.#number) throw new Cancelled();
    const {status, fault, stdout, stderr, files: there} = await this.#ask({kind: 'run', id: number, module, words, files: filesOf(files)});
    return {status, fault, stdout: read(stdout), stderr: read(stderr), bytes: stdout, files: textsOf(there), made: Object.fromEntries(there)};
  }

  /** Ends a call that has not ended yet. */
  cancel() {
    this.#number += 1;
    if (!this.#failed) return;
    this.#end();
    this.#failed(new Cancelled());
    this.#failed = null;
  }

  #end() {
    this.#worker.terminate();
    this.#worker = null;
  }

  #ask(message) {
    this.#worker ??= startWorker();
    return new Promise((done, failed) => {
      this.#failed = failed;
      this.#worker.onmessage = ({data}) => {
        this.#failed = null;
        // (After a fault the worker may lack memory too.)
        if (data.fault) this.#end();
        done(data);
      };
      this.#worker.onerror = event => {
        event.preventDefault();
        this.#failed = null;
        this.#end();
        failed(new Error(event.message));
      };
      this.#worker.postMessage(message);
    });
  }
}

const helps = new Map();

/** Whether a command of a2lab has an option, as its help says. @param {string} command  @param {string} option  @returns {Promise<boolean>} */
export async function takes(command, option) {
  if (!helps.has(command)) helps.set(command, new Runner().run(['a2lab', 'help', command], {}).then(it => it.stdout));
  return (await helps.get(command)).includes(`\n  ${option} `);
}

const FAULTS = {
  memory: 'The browser has no memory left for this.',
  stack: 'This is nested too deeply for this browser.',
  trap: 'The program failed in a way that it should not. Your text is safe.',
  waiting: 'This needs a newer browser: Chromium or Chrome 137, or Firefox 153, or later.',
};

/** Says in plain words why a program did not end by itself. */
export function faultText({kind, message}) {
  return `${FAULTS[kind] ?? 'The program failed.'} (${message})`;
}
