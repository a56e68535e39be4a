// Runs modules in place of native programs: node server.mjs FOLDER PROGRAM=MODULE.. writes its port to the file `port` of the folder, and
// ends when its standard input ends. A process that connects sends the name of a program, its own number, and the number of the
// connection's descriptor. The server runs the module with that process's arguments, folder and open files, which Linux shows in /proc,
// and answers with the exit status.
//
// Each call runs in a thread of its own, since it may wait for the output of another call.
import fs from 'node:fs';
import net from 'node:net';
import path from 'node:path';
import {Worker, isMainThread, parentPort, workerData} from 'node:worker_threads';
import {DiskFiles, streamOn} from '../../page/disk.mjs';
import {ERRORS, run} from '../../page/host.mjs';

const NO_END = 125;

// Opens a stream of another process again. (Writes go to the end of a file, where that process would write too.)
function streamOf(process, number, flags) {
  try {
    const [, had] = /flags:\s+0(\d+)/.exec(fs.readFileSync(`/proc/${process}/fdinfo/${number}`, 'latin1'));
    return streamOn(fs.openSync(`/proc/${process}/fd/${number}`, flags | parseInt(had, 8) & fs.constants.O_NONBLOCK));
  } catch (error) {
    const refused = error.code === 'ENOENT' ? -ERRORS.BAD_STREAM : error.errno;
    return {read: () => refused, write: () => refused};
  }
}

/** The files of the system for another process, which can also open its own descriptors by name. */
class FilesOf extends DiskFiles {
  constructor(process) {
    super(`/proc/${process}/cwd`);
    this.process = process;
  }

  at(name) {
    const number = ['/dev/stdin', '/dev/stdout', '/dev/stderr'].indexOf(name);
    return super.at(number < 0 ? name.replace(/^\/(dev|proc\/self)\/fd\//, `/proc/${this.process}/fd/`) : `/proc/${this.process}/fd/${number}`);
  }
}

// The arguments of a script's process as bytes, after the names of bash and of the script.
function wordsOf(process) {
  const line = fs.readFileSync(`/proc/${process}/cmdline`), words = [];
  for (let at = 0, end; (end = line.indexOf(0, at)) >= 0; at = end + 1) words.push(line.subarray(at, end));
  return words.slice(2);
}

function linkOf(process, number) {
  try { return fs.readlinkSync(`/proc/${process}/fd/${number}`); } catch { return ''; }
}

// Waits until the process has its own standard output again. (While bash writes to the connection, that is its standard output.)
function awaitOutput(process, connection) {
  const never = new Int32Array(new SharedArrayBuffer(4));
  while (linkOf(process, 1) === linkOf(process, connection)) Atomics.wait(never, 0, 0, 1);
}

function serve(program, process, connection) {
  awaitOutput(process, connection);
  const {O_RDONLY, O_WRONLY, O_APPEND} = fs.constants;
  const streams = [O_RDONLY, O_WRONLY | O_APPEND, O_WRONLY | O_APPEND].map((flags, number) => streamOf(process, number, flags));
  const call = {words: [program, ...wordsOf(process)], files: new FilesOf(process)};
  const {status, fault} = run(workerData[program], call, streams);
  if (fault) streams[2].write(Buffer.from(`${program}: ${fault.kind}: ${fault.message}\n`));
  for (const it of streams) it.close?.();
  return fault ? NO_END : status;
}

function begin(folder, programs) {
  const modules = Object.fromEntries(programs.map(it => it.split('=')).map(([name, file]) => [name, new WebAssembly.Module(fs.readFileSync(file))]));
  const idle = [];
  const answer = socket => {
    socket.once('data', line => {
      const worker = idle.pop() ?? new Worker(new URL(import.meta.url), {workerData: modules});
      worker.once('message', status => { idle.push(worker); socket.end(`${status}\n`); });
      worker.postMessage(line.toString().trim().split(' '));
    });
    socket.on('error', () => {});
  };
  const server = net.createServer(answer).listen(0, '127.0.0.1', () => fs.writeFileSync(path.join(folder, 'port'), String(server.address().port)));
  process.stdin.on('end', () => process.exit()).resume();
}

if (isMainThread) begin(process.argv[2], process.argv.slice(3));
else parentPort.on('message', words => parentPort.postMessage(serve(...words)));
