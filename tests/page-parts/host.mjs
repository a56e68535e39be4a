// Tests page/host.mjs: node host.mjs FAULTS.wasm, which is faults.c with page/host.c.
import fs from 'node:fs';
import {ERRORS, MemoryFiles, run, streamOf} from '../../page/host.mjs';
import {equal, finish, test} from './count.mjs';

const module = new WebAssembly.Module(fs.readFileSync(process.argv[2]));
const bytes = text => new TextEncoder().encode(text), text = it => new TextDecoder().decode(it);
const does = (what, call = {}) => run(module, {words: ['faults', what], ...call});

for (const [what, kind] of [['t', 'trap'], ['d', 'stack'], ['w', 'trap']]) {
  await test(`a program that ends by the fault ${kind} (${what}), and one after it`, () => {
    const {status, fault, stdout} = does(what);
    equal([status, fault.kind, text(stdout)], [null, kind, 'begun\n']);
    equal(does('x').status, 7);
  });
}

await test('there is no memory to begin with', () => {
  const {status, fault} = does('x', {mostPages: 63});
  equal([status, fault.kind], [null, 'memory']);
});

await test('memory is had until the pages are used up', () => {
  for (const pages of [64, 128, 1024]) {
    const megabytes = does('m', {mostPages: pages}).status, most = pages / 16;
    if (megabytes > most - 2 || megabytes < most - 4) throw new Error(`${megabytes} megabytes of ${pages} pages`);
  }
});

await test('output is taken up to a limit, and then refused', () => {
  const {status, stdout} = does('f', {mostOutput: 250_000});
  equal([status, stdout.length], [ERRORS.NO_ROOM, 200_006]);
});

await test('a program reads what there is, by pieces of the size that it asks for', () => {
  for (const length of [0, 1, 9, 10, 11, 20, 1234]) {
    const input = bytes('x'.repeat(length)), {status, stdout} = does('c', {input});
    equal([status, stdout.length], [0, 6 + length]);
  }
});

await test('a host function of a caller that says too much ends the program', () => {
  const lies = [{read: () => 11}, {write: it => it.length}, {}];
  equal(run(module, {words: ['faults', 'c']}, lies).fault.kind, 'trap');
});

await test('an error of the caller\'s own is thrown', () => {
  let thrown;
  try {
    run(module, {words: ['faults', 'c']}, [{read: () => { throw new TypeError('mine'); }}, {write: it => it.length}, {}]);
  } catch (error) { thrown = error.message; }
  equal(thrown, 'mine');
});

await test('what is not open', () => equal(does('n').status, 5));

await test('words are given whole or not at all', () => {
  equal(run(module, {words: ['faults', 't'.repeat(100_000)]}).status, 7);
  equal(run(module, {words: ['faults', 't'.repeat(100_001)]}).status, 7);
  equal(run(module, {words: ['faults', new Uint8Array([0xff])]}).status, 7);
});

await test('a stream gives its bytes once, and never more than there is room', () => {
  const stream = streamOf(bytes('hello')), room = new Uint8Array(3);
  equal([stream.read(room), text(room), stream.read(room), text(room.subarray(0, 2)), stream.read(room)], [3, 'hel', 2, 'lo', 0]);
  equal(stream.read(new Uint8Array(0)), 0);
});

const someFiles = () => new MemoryFiles([['a.s', bytes('one')], ['folder/b.s', bytes('two')]]);
const {NOT_FOUND, EXISTS, IS_FOLDER, NO_FOLDER} = ERRORS;

await test('files are found by their names', () => {
  const files = someFiles(), room = new Uint8Array(9);
  for (const name of ['a.s', './a.s', 'folder/../a.s', '//a.s']) equal(files.open(name, false).read(room), 3, name);
  for (const name of ['', 'b.s', 'A.s', 'a.s.', 'none/a.s', 'folder/none']) equal(files.open(name, false), -NOT_FOUND, name);
  equal(files.open('a.s/', false), -NO_FOLDER);
  for (const name of ['folder', 'folder/', '.', '/', '..']) equal(files.open(name, false).read(room), -IS_FOLDER, name);
});

await test('a new file is there at once, and holds what was written when it is closed', () => {
  const files = someFiles(), stream = files.open('new', true), piece = bytes('abc');
  equal(files.open('new', true), -EXISTS);
  equal(stream.write(piece), 3);
  piece.fill(0);
  equal(text(files.get('new')), '');
  stream.close();
  equal(text(files.get('new')), 'abc');
  equal(['a.s', 'folder'].map(it => files.open(it, true)), [-EXISTS, -EXISTS]);
  equal(['none/new', '', 'other/'].map(it => files.open(it, true)), [-NOT_FOUND, -NOT_FOUND, -IS_FOLDER]);
});

await test('a new file has at most so many bytes', () => {
  const stream = new MemoryFiles([], 5).open('new', true);
  equal([stream.write(bytes('abc')), stream.write(bytes('abc')), stream.write(bytes('de'))], [3, -ERRORS.NO_ROOM, 2]);
});

await test('files are renamed and removed', () => {
  const files = someFiles(), number = files.stat('a.s').number;
  equal(files.rename('a.s', 'folder/b.s'), 0);
  equal([files.names, text(files.get('folder/b.s')), files.stat('folder/b.s').number === number], [['folder/b.s'], 'one', true]);
  equal([files.rename('a.s', 'c.s'), files.rename('folder/b.s', 'none/c'), files.rename('folder/b.s', 'folder')], [-NOT_FOUND, -NOT_FOUND, -IS_FOLDER]);
  equal([files.unlink('a.s'), files.unlink('folder/b.s'), files.names], [-NOT_FOUND, 0, []]);
});

await test('names are of one file or of others', () => {
  const files = someFiles(), number = name => files.stat(name).number;
  equal(number('a.s') === number('./a.s'), true);
  equal(number('a.s') === number('folder/b.s'), false);
  equal([files.stat('none'), files.stat(''), files.stat('folder').isFolder, files.stat('a.s').isFolder], [-NOT_FOUND, -NOT_FOUND, true, false]);
});

finish();
