// The script of the page that make-page.mjs makes. `ready` is the milliseconds that unpacking and compiling took; `differing` compares cases;
// `measure` runs a program; `talk` begins a session, which is then `talking`.
import {MemoryFiles, canWait, run, unpack} from '../../page/host.mjs';
import {difference} from './difference.mjs';

const modules = {};

async function compileAll() {
  const begun = performance.now();
  for (const name in packed) modules[name] = await unpack(packed[name]);
  return performance.now() - begun;
}

window.canWait = canWait;
window.ready = compileAll();
window.differing = cases => cases.map(it => difference(modules[it.program], it));

const bytesOf = text => new TextEncoder().encode(text);

/** Runs a program several times; returns the milliseconds of each run, and how the last one ended. */
window.measure = (words, files, times, mostPages) => {
  const spent = [];
  let ended;
  for (let at = 0; at < times; ++at) {
    const begun = performance.now();
    ended = run(modules[words[0]], {words, mostPages, files: new MemoryFiles(Object.entries(files).map(([name, text]) => [name, bytesOf(text)]))});
    spent.push(performance.now() - begun);
  }
  const {status, fault} = ended, [stdout, stderr] = [ended.stdout, ended.stderr].map(it => new TextDecoder().decode(it));
  return {spent, status, fault, stdout, stderr};
};

/** A session in a worker of its own. */
class Talk {
  constructor(words, files, wait) {
    this.shown = '';
    this.ended = null;
    this.worker = new Worker(URL.createObjectURL(new Blob([workerText], {type: 'text/javascript'})));
    this.worker.onmessage = ({data}) => this.#take(data);
    this.worker.onerror = error => { this.ended = {error: error.message}; };
    const pairs = Object.entries(files).map(([name, text]) => [name, bytesOf(text)]);
    this.worker.postMessage({kind: 'begin', module: modules[words[0]], words, files: pairs, wait});
  }

  #take(data) {
    // (One character for each byte, to compare it with the output of a native program.)
    if (data.kind === 'shown') this.shown += Array.from(data.bytes, it => String.fromCharCode(it)).join('');
    else this.ended = {status: data.status, fault: data.fault};
  }

  type(text) {
    this.worker.postMessage({kind: 'type', bytes: bytesOf(text)});
  }

  end() {
    this.worker.postMessage({kind: 'end'});
  }

  /** Waits until it shows this text, or without a text until it ends; fails after 20 seconds. Returns what it has shown. */
  async until(text) {
    for (const begun = performance.now(); performance.now() - begun < 20000; await new Promise(done => setTimeout(done, 5))) {
      if (text === undefined ? this.ended : this.shown.includes(text)) return this.shown;
    }
    throw new Error(`no ${JSON.stringify(text ?? 'end')} after ${JSON.stringify(this.shown.slice(-500))}`);
  }
}

window.talk = (...words) => { window.talking = new Talk(...words); };
