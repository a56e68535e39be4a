// Tests the heap of page/host.c: node heap.mjs HOST.wasm, which is that file alone with all functions exported.
import fs from 'node:fs';
import {equal, finish, test} from './count.mjs';

const PAGE = 65536, FIRST = 64, AT_ANSWER = 1024n;
const module = new WebAssembly.Module(fs.readFileSync(process.argv[2]));

/** A heap in a memory of its own, with a limit in pages. */
class Heap {
  constructor(most = 16384) {
    this.memory = new WebAssembly.Memory({initial: FIRST, maximum: most});
    const unused = new Proxy({}, {get: (_, name) => () => { throw new Error(`the heap calls ${name}`); }});
    this.calls = new WebAssembly.Instance(module, {env: {memory: this.memory}, host: unused}).exports;
  }

  get pages() { return this.memory.buffer.byteLength / PAGE; }

  bytes(at, length) { return new Uint8Array(this.memory.buffer, at, length); }

  #answer() {
    const [isGiven, at] = new BigUint64Array(this.memory.buffer, Number(AT_ANSWER), 2);
    if (isGiven > 1n || at === 0n || at % (isGiven ? 16n : 1n) !== 0n) throw new Error(`it answers ${isGiven}, ${at}`);
    return isGiven ? Number(at) : null;
  }

  /** Returns the address of a new block, or null. */
  get(size) {
    this.calls.rattle_alloc(AT_ANSWER, BigInt(size), 16n);
    return this.#answer();
  }

  resize(at, kept, size) {
    this.calls.rattle_realloc(AT_ANSWER, BigInt(at), BigInt(kept), BigInt(size), 16n);
    return this.#answer();
  }

  drop(at) { this.calls.rattle_dealloc(BigInt(at)); }
}

// Returns a generator of pseudo-random numbers below a limit.
function randomNumbers(seed) {
  let state = seed;
  return most => {
    state = (Math.imul(state, 1664525) + 1013904223) >>> 0;
    return Math.floor(state / 2 ** 32 * most);
  };
}

/** Blocks in use. Each is filled with a byte of its own, so that a store into the wrong block shows. */
class Blocks {
  constructor(heap) {
    this.heap = heap;
    this.all = [];
    this.count = 0;
  }

  fill(block, from = 0) { this.heap.bytes(block.at, block.size).fill(block.byte, from); }

  check({at, size, byte}, length = size) {
    if (!Buffer.alloc(length, byte).equals(this.heap.bytes(at, length))) throw new Error(`the block of ${size} bytes at ${at} has changed`);
  }

  add(size) {
    const at = this.heap.get(size);
    if (at === null) return false;
    const block = {at, size, byte: ++this.count % 255 + 1};
    this.fill(block);
    this.all.push(block);
    return true;
  }

  resize(index, size) {
    const block = this.all[index], kept = Math.min(size, block.size), at = this.heap.resize(block.at, kept, size);
    if (at === null) return this.check(block);
    this.all[index] = {...block, at, size};
    this.check(this.all[index], kept);
    this.fill(this.all[index], kept);
  }

  remove(index) {
    const [block] = this.all.splice(index, 1);
    this.check(block);
    this.heap.drop(block.at);
  }

  removeAll() { while (this.all.length) this.remove(this.all.length - 1); }
}

// A size from 0 to a megabyte, most often a small one.
const someSize = random => random(2) ? random(100) : random(20) ? random(5000) : random(1 << 20);

function useAtRandom(blocks, seed, steps) {
  const random = randomNumbers(seed);
  for (let step = 0; step < steps; ++step) {
    const index = random(blocks.all.length), what = random(10);
    if (!blocks.all.length || what < 5) blocks.add(someSize(random));
    else if (what < 7) blocks.resize(index, someSize(random));
    else blocks.remove(index);
  }
}

// When everything is free again, it is one block, so nearly all of the memory can be allocated at once.
function checkWhole(heap) {
  const pages = heap.pages, used = Number(heap.calls.__heap_base.value) + PAGE;
  const at = heap.get(pages * PAGE - used);
  if (at === null || heap.pages !== pages) throw new Error(`not all of ${pages} pages can be allocated at once; now there are ${heap.pages}`);
  heap.drop(at);
}

for (let seed = 1; seed <= 20; ++seed) {
  await test(`blocks in any order, ${seed}`, () => {
    const heap = new Heap(), blocks = new Blocks(heap);
    useAtRandom(blocks, seed, 3000);
    blocks.removeAll();
    checkWhole(heap);
  });
}

for (let most = FIRST; most < FIRST + 40; ++most) {
  await test(`blocks in any order in at most ${most} pages`, () => {
    const heap = new Heap(most), blocks = new Blocks(heap);
    useAtRandom(blocks, most, 1500);
    if (heap.pages > most) throw new Error(`${heap.pages} pages`);
    blocks.removeAll();
    checkWhole(heap);
  });
}

await test('a full heap: a refused call changes nothing, and freed blocks can be used again', () => {
  const heap = new Heap(128), blocks = new Blocks(heap);
  while (blocks.add(1000));
  equal(heap.pages, 128);
  const free = 128 * PAGE - Number(heap.calls.__heap_base.value) - blocks.all.length * 1008;
  if (free > PAGE) throw new Error(`${free} bytes are left when 1000 are refused`);
  blocks.resize(7, 100000);
  equal(heap.get(1000), null);
  blocks.remove(500);
  equal(blocks.add(1000), true);
  blocks.removeAll();
  checkWhole(heap);
});

await test('each allocation of a series is refused in turn, and the next succeeds', () => {
  for (let refused = 0; refused < 30; ++refused) {
    const heap = new Heap(FIRST), blocks = new Blocks(heap);
    for (let at = 0; at < 30; ++at) equal(blocks.add(at === refused ? FIRST * PAGE : 40 * at), at !== refused);
    blocks.removeAll();
    checkWhole(heap);
  }
});

for (const size of [2n ** 31n - 31n, 2n ** 31n, 2n ** 32n, 2n ** 32n + 1n, 2n ** 48n, 2n ** 63n - 1n]) {
  await test(`${size} bytes are refused, and no memory is taken`, () => {
    const heap = new Heap(), at = heap.get(10), pages = heap.pages;
    heap.bytes(at, 10).fill(7);
    equal(heap.get(size), null);
    equal(heap.resize(at, 10, size), null);
    equal(heap.pages, pages);
    equal([...heap.bytes(at, 10)], Array(10).fill(7));
  });
}

await test('blocks of 0 bytes have addresses of their own', () => {
  const heap = new Heap(), places = new Set(Array.from({length: 100}, () => heap.get(0)));
  equal(places.size, 100);
});

for (const size of [24, 100, 1000, 5000, 100000]) {
  await test(`blocks of ${size} bytes cost at most 24 more`, () => {
    const heap = new Heap(), count = Math.ceil(4e6 / size), places = Array.from({length: count}, () => heap.get(size));
    const [first, last] = [Math.min, Math.max].map(choose => places.reduce((one, other) => choose(one, other)));
    const span = last + size - first;
    if (span > count * (size + 24)) throw new Error(`${count} take ${span} bytes`);
  });
}

await test('a large block that was freed is used again', () => {
  const heap = new Heap(), first = heap.get(20e6);
  heap.get(10);
  const pages = heap.pages;
  heap.drop(first);
  for (const size of [20e6, 19e6, 5e6]) {
    equal(heap.get(size), first);
    heap.drop(first);
  }
  equal(heap.pages, pages);
});

await test('the last block grows without moving', () => {
  const heap = new Heap();
  let at = heap.get(1000);
  const first = at;
  for (let size = 1000; size < 100e6; size *= 2) at = heap.resize(at, size, 2 * size);
  equal(at, first);
  if (heap.pages * PAGE > 200e6) throw new Error(`${heap.pages} pages for 128 MB`);
});

await test('a block shrinks without moving, and the rest can be used', () => {
  const heap = new Heap(), at = heap.get(100000);
  heap.get(10);
  equal(heap.resize(at, 1000, 1000), at);
  equal(heap.get(98000), at + 1008);
});

await test('a block grows into the free one after it', () => {
  const heap = new Heap(), [one, two] = [heap.get(1000), heap.get(1000)];
  heap.get(10);
  heap.drop(two);
  equal(heap.resize(one, 1000, 2000), one);
});

finish();
