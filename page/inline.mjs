// Puts modules into a page. (A page that is opened from disk cannot import them.)
import {execFileSync} from 'node:child_process';
import fs from 'node:fs';
import path from 'node:path';

const IMPORT = /^import (?:\{(.*)\}|\* as (\w+)) from '(\.[^']*)';$/gm, EXPORT = /^export (?=(?:async )?(?:function|class|const|let) (\w+))/gm;

/**
 * Returns a script of a module and of those that it imports by relative names. Each becomes a function that returns its exports. It is an
 * error to import a name that the other module does not export in a declaration of its own.
 * @param {string} file
 * @returns {string}
 */
export function inlined(file) {
  const modules = new Map(), parts = [];
  const take = whole => {
    if (modules.has(whole)) return modules.get(whole);
    const text = fs.readFileSync(whole, 'utf8').replace(IMPORT, (_, wanted, all, other) => {
      const {name, exported} = take(path.resolve(path.dirname(whole), other));
      for (const it of wanted?.split(',') ?? []) {
        if (!exported.includes(it.trim().split(' ')[0])) throw new Error(`${whole}: ${other} does not export ${it.trim()}`);
      }
      return `const ${all ?? `{${wanted.replaceAll(' as ', ': ')}}`} = ${name};`;
    });
    const module = {name: `module${modules.size}`, exported: [...text.matchAll(EXPORT)].map(it => it[1])};
    modules.set(whole, module);
    parts.push(`const ${module.name} = (() => {\n${text.replace(EXPORT, '')}return {${module.exported.join(', ')}};\n})();\n`);
    return module;
  };
  take(path.resolve(file));
  return parts.join('');
}

/** Returns a value as an expression for a script in a page. It has no `<`, so it cannot end the script. */
export function expressionOf(value) {
  return JSON.stringify(value).replaceAll('<', '\\u003c');
}

/**
 * Returns bytes as `unpackBytes` of host.mjs expects them: gzipped, in base64. The system's gzip makes less of them than node's zlib, and its
 * result does not depend on the version of node.
 * @param {Uint8Array | string} bytes
 * @returns {string}
 */
export function packed(bytes) {
  return execFileSync('gzip', ['-9cn'], {input: bytes, maxBuffer: 2 ** 28}).toString('base64');
}
