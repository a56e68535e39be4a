// What the pages of this script's browser use: the processes in which they run, as Linux shows them.
import fs from 'node:fs';

// A file of /proc, or nothing if its process has ended.
function read(name) {
  try { return fs.readFileSync(`/proc/${name}`, 'latin1'); } catch { return ''; }
}

function renderers() {
  const parents = new Map(fs.readdirSync('/proc').filter(it => /^\d+$/.test(it)).map(it => [it, read(`${it}/stat`).split(') ').pop().split(' ')[1]]));
  const isOurs = it => it === String(process.pid) || parents.has(it) && isOurs(parents.get(it));
  return [...parents.keys()].filter(it => isOurs(it) && read(`${it}/cmdline`).includes('--type=renderer'));
}

/** The processor time of all their threads. */
export function processorMilliseconds() {
  const threads = renderers().flatMap(it => fs.readdirSync(`/proc/${it}/task`).map(thread => `${it}/task/${thread}/schedstat`));
  return threads.reduce((sum, it) => sum + Number(read(it).split(' ')[0]) / 1e6, 0);
}

/** The memory that the largest of them shares with no other process. */
export function privateBytes() {
  const of = it => [...read(`${it}/smaps_rollup`).matchAll(/^Private_\w+: +(\d+) kB$/gm)].reduce((sum, found) => sum + 1024 * Number(found[1]), 0);
  return Math.max(0, ...renderers().map(of));
}
