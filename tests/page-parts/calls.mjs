// Tests the other functions of page/host.c: node calls.mjs HOST.wasm, which is that file alone with all functions exported.
import fs from 'node:fs';
import {equal, finish, test} from './count.mjs';

const NAME = 2000, OTHER = 2100, ROOM = 3000, AT_ANSWER = 1024n;
const module = new WebAssembly.Module(fs.readFileSync(process.argv[2]));

/** The functions of host.c with a host that has only these functions. */
function over(host) {
  const memory = new WebAssembly.Memory({initial: 64, maximum: 16384}), seen = [];
  const noted = Object.fromEntries(WebAssembly.Module.imports(module).filter(it => it.module === 'host').map(({name}) =>
    [name, (...words) => { seen.push([name, ...words.map(Number)]); return host[name](...words); }]));
  const calls = new WebAssembly.Instance(module, {env: {memory}, host: noted}).exports;
  const put = (at, text) => { new Uint8Array(memory.buffer).set(new TextEncoder().encode(text + '\0'), at); return BigInt(at); };
  return {calls, memory, seen, put};
}

const traps = call => { try { call(); } catch (error) { return error instanceof WebAssembly.RuntimeError; } return false; };

for (const [name, words] of [['read', [0, BigInt(ROOM), 10n]], ['write', [1, BigInt(ROOM), 10n]], ['__write', [1, BigInt(ROOM), 10n]]]) {
  const host = name.replace('__', '');
  for (const count of [0n, 1n, 9n, 10n]) {
    await test(`${name} of ${count} of 10 bytes`, () => equal(over({[host]: () => count}).calls[name](...words), count));
  }
  for (const count of [11n, 12n, 2n ** 40n, 2n ** 63n - 1n]) {
    await test(`${name} traps where the host says ${count} of 10 bytes`, () => traps(() => over({[host]: () => count}).calls[name](...words)));
  }
  await test(`${name} that fails sets errno`, () => {
    const {calls} = over({[host]: () => -28n});
    equal([calls[name](...words), calls.rattle_errno()], [-1n, 28]);
  });
}

await test('names go to the host with their lengths', () => {
  const {calls, seen, put} = over({open: () => 7, unlink: () => 0, rename: () => 0, stat: () => 246n, close: () => 0});
  equal(calls.open(put(NAME, 'five.s'), 0o302, 0n), 7);
  equal(calls.unlink(put(NAME, '')), 0);
  equal(calls.rename(put(NAME, 'one'), put(OTHER, 'other')), 0);
  equal(calls.close(7), 0);
  equal(seen, [['open', NAME, 6, 0o302], ['unlink', NAME, 0], ['rename', NAME, 3, OTHER, 5], ['close', 7]]);
});

for (const [name, words] of [['open', [BigInt(NAME), 0, 0n]], ['unlink', [BigInt(NAME)]], ['rename', [BigInt(NAME), BigInt(OTHER)]], ['close', [3]]]) {
  await test(`${name} that fails sets errno`, () => {
    const {calls} = over({[name]: () => -17});
    equal([calls[name](...words), calls.rattle_errno()], [-1, 17]);
  });
}

for (const [answer, mode] of [[246n, 0o100000], [247n, 0o040000]]) {
  await test(`statx of a file or a folder: ${answer}`, () => {
    const {calls, memory, put} = over({stat: () => answer});
    new Uint8Array(memory.buffer, ROOM, 300).fill(0xAA);
    equal(calls.statx(-100, put(NAME, 'x'), 0, 0, BigInt(ROOM)), 0);
    const view = new DataView(memory.buffer, ROOM, 264);
    equal([view.getUint16(28, true), view.getBigUint64(32, true), view.getBigUint64(40, true), view.getUint8(255), view.getUint8(256)], [mode, 123n, 0n, 0, 0xAA]);
  });
}

await test('statx and readlink of nothing', () => {
  const {calls, put} = over({stat: () => -2n});
  equal([calls.statx(-100, put(NAME, 'x'), 0, 0, BigInt(ROOM)), calls.rattle_errno()], [-1, 2]);
  calls.rattle_set_errno(0);
  equal([calls.readlink(put(NAME, 'x'), BigInt(ROOM), 10n), calls.rattle_errno()], [-1n, 2]);
});

await test('words', () => {
  for (const answer of [-2n, -1n, 0n, 10n]) equal(over({arg: () => answer}).calls.rattle_arg(1n, BigInt(ROOM), 10n), answer);
  equal(traps(() => over({arg: () => 11n}).calls.rattle_arg(1n, BigInt(ROOM), 10n)), true);
  const {calls, put} = over({});
  equal([calls.rattle_env(put(NAME, 'PATH'), BigInt(ROOM), 10n), calls.rattle_env_at(0n, BigInt(ROOM), 10n)], [-1n, -1n]);
});

await test('the clock', () => {
  const {calls, memory} = over({clock: () => 12_345_678_901n});
  equal(calls.clock_gettime(1, BigInt(ROOM - ROOM % 8)), 0);
  equal([...new BigInt64Array(memory.buffer, ROOM - ROOM % 8, 2)], [12n, 345_678_901n]);
});

await test('bytes are compared as numbers without a sign', () => {
  const {calls, put} = over({}), [one, other] = [BigInt(NAME), BigInt(OTHER)];
  for (const [a, b, n] of [['', '', 0], ['a', 'b', 0], ['a', 'b', 1], ['ab', 'aa', 2], ['a\x7f', 'a\xe9', 2], ['same', 'same', 4]]) {
    put(NAME, a), put(OTHER, b);
    const wanted = Math.sign(Buffer.compare(Buffer.from(a).subarray(0, n), Buffer.from(b).subarray(0, n)));
    equal(Math.sign(calls.memcmp(one, other, BigInt(n))), wanted, `${a} and ${b}`);
    equal(calls.bcmp(one, other, BigInt(n)) === 0, wanted === 0);
  }
});

const WHOLE = 2n ** 128n, HALF = 2n ** 64n;
const edges = [0n, 1n, 2n, 0xffffffffn, 0x100000000n, HALF - 1n, HALF, HALF + 1n, 2n ** 127n, WHOLE - 1n, 0x123456789abcdef0fedcba9876543210n];
const halves = it => [BigInt.asIntN(64, it), BigInt.asIntN(64, it >> 64n)];

/** Calls a function of 128-bit numbers. */
function wide(name, ...words) {
  const {calls, memory} = over({});
  calls[name](AT_ANSWER, ...words);
  const [low, high] = new BigUint64Array(memory.buffer, Number(AT_ANSWER), 2);
  return high << 64n | low;
}

await test('products of 128 bits', () => {
  for (const x of edges) for (const y of edges) equal(wide('__multi3', ...halves(x), ...halves(y)), x * y % WHOLE, `${x} * ${y}`);
});

await test('shifts of 128 bits', () => {
  for (const x of edges) {
    for (const n of [0, 1, 31, 32, 63, 64, 65, 100, 127]) {
      equal(wide('__ashlti3', ...halves(x), n), (x << BigInt(n)) % WHOLE, `${x} << ${n}`);
      equal(wide('__lshrti3', ...halves(x), n), x >> BigInt(n), `${x} >> ${n}`);
    }
  }
});

finish();
