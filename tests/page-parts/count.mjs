// Counts tests, and ends with the line 'N passed, M failed'.
let passed = 0, failed = 0;

/** Runs a test, which fails if `body` throws or returns false. */
export async function test(name, body) {
  try {
    if (await body() === false) throw new Error('it is false');
    passed += 1;
  } catch (error) {
    fail(name, error.stack ?? error);
  }
}

export function fail(name, why) {
  failed += 1;
  console.log(`FAILED: ${name}\n${why}`);
}

export function pass(count = 1) {
  passed += count;
}

export function equal(found, wanted, what = 'it') {
  const [one, other] = [found, wanted].map(it => JSON.stringify(it, (_, value) => typeof value === 'bigint' ? `${value}n` : value));
  if (one !== other) throw new Error(`${what} is ${one}, and should be ${other}`);
}

export function finish() {
  console.log(`${passed} passed, ${failed} failed`);
  process.exitCode = failed > 0 ? 1 : 0;
}
