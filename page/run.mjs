// Runs a program as the native one runs: node page/run.mjs PROGRAM ARGUMENTS.. PROGRAM is a name, such as a2, whose module page/build
// has put into out/page, or the path of a module. Files are those of the system. The exit status is the program's; 125 means that
// it did not end by itself, and a line on standard error says why.
import fs from 'node:fs';
import path from 'node:path';
import tty from 'node:tty';
import {fileURLToPath} from 'node:url';
import {DiskFiles, streamOn} from './disk.mjs';
import {run} from './host.mjs';

const NO_END = 125;

function moduleOf(program) {
  const built = fileURLToPath(new URL('../out/page/', import.meta.url));
  return new WebAssembly.Module(fs.readFileSync(program.endsWith('.wasm') ? program : `${built}${program}.wasm`));
}

const [program, ...words] = process.argv.slice(2);
const name = path.basename(program, '.wasm');
const streams = [0, 1, 2].map(it => streamOn(it, tty.isatty(it)));
const {status, fault} = run(moduleOf(program), {words: [name, ...words], files: new DiskFiles()}, streams);
if (fault) process.stderr.write(`${name}: ${fault.kind}: ${fault.message}\n`);
process.exitCode = fault ? NO_END : status;
