// Compares a module with a native program, in node or in a page.
import {MemoryFiles, run} from '../../page/host.mjs';

const bytesOf = text => Uint8Array.from(atob(text), it => it.charCodeAt(0));
const same = (one, other) => one.length === other.length && one.every((it, at) => it === other[at]);
const start = bytes => JSON.stringify(new TextDecoder().decode(bytes.slice(0, 200)));

/** Returns what differs between the module and the native program in a case of cases.py, or null. */
export function difference(module, it) {
  const files = new MemoryFiles(Object.entries(it.files).map(([name, text]) => [name, bytesOf(text)]));
  const found = run(module, {words: [it.program, ...it.arguments], files, input: bytesOf(it.stdin)});
  if (found.fault) return `${found.fault.kind}: ${found.fault.message}`;
  if (found.status !== it.status) return `its status is ${found.status}, and should be ${it.status}: ${start(found.stderr)}`;
  for (const name of ['stdout', 'stderr']) {
    const wanted = bytesOf(it[name]);
    if (!same(found[name], wanted)) return `its ${name} is ${start(found[name])}, and should be ${start(wanted)}`;
  }
  const names = new Set([...Object.keys(it.files), ...Object.keys(it.changed)].filter(name => !it.gone.includes(name)));
  if (names.size !== files.names.length) return `the files then are ${files.names}, and should be ${[...names]}`;
  const wrong = [...names].find(name => !files.get(name) || !same(files.get(name), bytesOf(it.changed[name] ?? it.files[name])));
  return wrong === undefined ? null : `the file ${wrong} is ${start(files.get(wrong) ?? [])}`;
}
