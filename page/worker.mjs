// The worker of a page: it runs one session, and filters that may take long. The page ends it by terminate().
//
// It receives messages {kind, ..} and sends others:
//
//     begin  {module, words, files, wait, ahead}  begins a session   shown  {stream, bytes}, whenever it writes
//     type   {bytes}, end {}                      keys, end of input ended  {status, fault, files}, when it ends
//     run    {id, module, words, files, input}    runs a filter      ran    {id, status, fault, stdout, stderr, files}
//
// `files` is a list of pairs, a name and bytes; the worker sends back all files that there are at the end.
import {MemoryFiles, Session, run} from './host.mjs';

/** @type {Session | null} */
let session = null;

const contents = files => files.names.map(name => [name, files.get(name)]);

const tasks = {
  run({id, module, words, files, input}) {
    const memory = new MemoryFiles(files);
    postMessage({kind: 'ran', id, ...run(module, {words, input, files: memory}), files: contents(memory)});
  },

  async begin({module, words, files, wait, ahead}) {
    const memory = new MemoryFiles(files), show = (stream, bytes) => postMessage({kind: 'shown', stream, bytes});
    session = new Session(module, {words, files: memory}, {show, wait, ahead});
    postMessage({kind: 'ended', ...await session.ended, files: contents(memory)});
  },

  type: ({bytes}) => session?.type(bytes),
  end: () => session?.end(),
};

onmessage = ({data}) => tasks[data.kind](data);
