// The milliseconds of processor time that runs of sources take in node: node speed.mjs MODULE FOLDER STEPS RUNS SOURCE.. prints an object of
// lists. (tests/page-speed calls it.)
import fs from 'node:fs';
import path from 'node:path';
import {MemoryFiles, run} from '../../page/host.mjs';

const [file, folder, steps, runs, ...sources] = process.argv.slice(2);
const module = new WebAssembly.Module(fs.readFileSync(file));

function spent(name) {
  const begun = process.cpuUsage(), files = new MemoryFiles([[name, fs.readFileSync(path.join(folder, name))]]);
  const {status, fault} = run(module, {words: ['a2', 'run', name, '--limit', steps], files});
  if (fault || status !== 3) throw new Error(`${name}: ${status} ${fault?.message}`);
  const {user, system} = process.cpuUsage(begun);
  return (user + system) / 1000;
}

console.log(JSON.stringify(Object.fromEntries(sources.map(name => [name, Array.from({length: Number(runs)}, () => spent(name))]))));
