// Makes the page, one HTML file that needs nothing else: node make-html.mjs MODULES FILE.html [VERSION]. MODULES is a folder with a2lab.wasm.
// VERSION is what the page says about itself.
//
// The page forbids itself any network, and any script or style but its own, which it names by their hashes.
import {createHash} from 'node:crypto';
import fs from 'node:fs';
import path from 'node:path';
import {fileURLToPath} from 'node:url';
import {coloursOf, shapesOf} from './font.mjs';
import {expressionOf, inlined, packed} from './inline.mjs';
import {readerOf} from './reader.mjs';

const at = name => fileURLToPath(new URL(name, import.meta.url)), text = name => fs.readFileSync(at(name), 'utf8');
const PROGRAMS = ['a2lab'], PICTURE = at('../crates/a2_picture/data/');

// The title of an example is the first sentence of its first comment.
function exampleOf(file) {
  const source = fs.readFileSync(file, 'utf8'), name = path.basename(file, '.s');
  const comment = /^[;*] ?(.*)$/m.exec(source)?.[1] ?? name, title = /^(.*?[.:])(?: |$)/.exec(comment)?.[1].slice(0, -1) ?? comment;
  return {name, title, text: source, keys: /--keys '([^']*)'/.exec(source)?.[1] ?? '', free: /^[;*].* --free\b/m.test(source)};
}

function examples() {
  const folder = at('../examples/');
  return fs.readdirSync(folder).filter(it => it.endsWith('.s')).sort().map(it => exampleOf(folder + it));
}

// The manual's pages: their texts by their names.
function manual() {
  const folder = at('../docs/manual/'), names = fs.readdirSync(folder).filter(it => it.endsWith('.md')).sort();
  return Object.fromEntries(names.map(it => [it.slice(0, -'.md'.length), fs.readFileSync(folder + it, 'utf8')]));
}

// A block of data, which no browser runs.
function dataBlock(id, data, type = 'application/json') {
  return `<script type="${type}" id="data-${id}">${data}</script>\n`;
}

function data(modules, version) {
  const there = PROGRAMS.filter(it => fs.existsSync(path.join(modules, `${it}.wasm`)));
  if (!there.includes('a2lab')) throw new Error(`there is no a2lab.wasm in ${modules}; page/build makes it`);
  return [dataBlock('examples', expressionOf(examples())), dataBlock('font', expressionOf(shapesOf(PICTURE + 'font.txt'))),
    dataBlock('colours', expressionOf(coloursOf(PICTURE + 'colours.txt'))),
    dataBlock('worker', expressionOf(inlined(at('worker.mjs')))), dataBlock('manual', packed(JSON.stringify(manual())), 'text/plain'),
    dataBlock('version', version.replaceAll('<', ''), 'text/plain'), ...there.map(it => dataBlock(`module-${it}`, packed(fs.readFileSync(path.join(modules, `${it}.wasm`))), 'text/plain'))].join('');
}

// A script as it can be in HTML.
const script = source => `'use strict';\n${source}`.replaceAll('</script', '<\\/script').replaceAll('<!--', '<\\!--');

function page(modules, version) {
  const style = text('app/style.css'), reader = script(readerOf(at('../crates/a2_film/src/viewer.rt'))), whole = script(inlined(at('app/main.mjs')));
  const hash = it => `'sha256-${createHash('sha256').update(it).digest('base64')}'`;
  const policy = `default-src 'none'; script-src ${hash(reader)} ${hash(whole)} 'wasm-unsafe-eval'; style-src ${hash(style)}; worker-src blob:; ` +
    "base-uri 'none'; form-action 'none'";
  const parts = {POLICY: policy, STYLE: style, ABOUT: text('app/about.html'), DATA: data(modules, version), READER: reader, SCRIPT: whole};
  return text('app/index.html').replace(/@@(\w+)@@/g, (_, name) => parts[name]);
}

const [modules, file, version = ''] = process.argv.slice(2);
if (!file) {
  console.error('node make-html.mjs MODULES FILE.html [VERSION]');
  process.exit(2);
}
fs.writeFileSync(file, page(modules, version));
console.error(`page: ${file}: ${fs.statSync(file).size} bytes`);
