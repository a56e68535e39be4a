// Runs programs whose reads and writes are short, or fail: node streams.mjs PROGRAM=MODULE.. Short ones change nothing. If one fails, the
// program ends with the status of a fault, and has written the start of its whole output and nothing else.
import fs from 'node:fs';
import {MemoryFiles, run, streamOf} from '../../page/host.mjs';
import {equal, finish, test} from './count.mjs';

const FAULT = 4, INPUT_OUTPUT = 5;
const here = name => new URL(name, import.meta.url);
const source = fs.readFileSync(here('../../examples/bars.s'));
const COMMANDS = {
  a2: [[], ['run', 'it.s'], ['asm', 'it.s'], ['debug', 'it.s', 'script'], ['mon', 'script']],
  tools: [['check', 'it.s'], ['list', 'it.s'], ['trace', '--limit', '50', 'it.s'], ['film', '--limit', '50', 'it.s'], ['fmt', 'it.s'], ['mon']],
};

const text = pieces => new TextDecoder('latin1').decode(Buffer.concat(pieces));

/** Files and streams whose calls are counted. `fail` says by its number whether a call fails, `most` how many bytes each moves. */
class Counted {
  constructor({most = Infinity, failsAt = Infinity}) {
    this.calls = 0;
    const counted = act => { if (this.calls++ === failsAt) return -INPUT_OUTPUT; return act(); };
    const short = stream => ({
      read: room => counted(() => stream.read(room.subarray(0, most))),
      write: bytes => counted(() => stream.write(bytes.subarray(0, most))),
      close: () => stream.close?.(),
    });
    const files = new MemoryFiles([['it.s', source], ['script', new TextEncoder().encode('step 3\n300.310\nback\n')]]);
    const open = (name, isNew) => counted(() => { const stream = files.open(name, isNew); return typeof stream === 'number' ? stream : short(stream); });
    this.files = {open, rename: (...names) => files.rename(...names), unlink: name => files.unlink(name), stat: name => files.stat(name)};
    this.written = [[], []];
    const keep = list => ({write: bytes => list.push(bytes.slice()) && bytes.length});
    this.streams = [short(streamOf(source)), short(keep(this.written[0])), keep(this.written[1])];
  }
}

function does(module, words, how) {
  const counted = new Counted(how), {status, fault} = run(module, {words, files: counted.files}, counted.streams);
  equal(fault, null, 'the fault');
  return {status, calls: counted.calls, stdout: text(counted.written[0]), stderr: text(counted.written[1])};
}

function tryFailures(module, words, whole) {
  for (let failsAt = 0; failsAt < whole.calls; failsAt += 1 + Math.floor(whole.calls / 40)) {
    const {status, stdout, stderr} = does(module, words, {failsAt, most: 500});
    // (A failing call may be one that the program tries for the sake of another, so it may also succeed.)
    if (status === whole.status && stdout === whole.stdout) continue;
    equal([status, whole.stdout.startsWith(stdout)], [FAULT, true], `status and output if call ${failsAt} fails`);
    if (!stderr) throw new Error(`it does not say that call ${failsAt} failed`);
  }
}

for (const it of process.argv.slice(2)) {
  const [name, file] = it.split('='), module = new WebAssembly.Module(fs.readFileSync(file));
  for (const command of COMMANDS[name] ?? COMMANDS.tools) {
    const words = [name, ...command], whole = does(module, words, {most: 500}), seen = ({status, stdout, stderr}) => [status, stdout, stderr];
    for (const most of [1, 2, 7, 100000]) {
      await test(`short reads and writes: ${words.join(' ')}, ${most} bytes`, () => equal(seen(does(module, words, {most})), seen(whole)));
    }
    await test(`failing reads and writes: ${words.join(' ')}`, () => tryFailures(module, words, whole));
  }
}
finish();
