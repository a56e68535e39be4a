// Runs the cases that cases.py wrote with modules, and with files in memory: node compare.mjs CASES PROGRAM=MODULE..
import fs from 'node:fs';
import {fail, finish, pass} from './count.mjs';
import {difference} from './difference.mjs';

const [cases, ...programs] = process.argv.slice(2);
const modules = Object.fromEntries(programs.map(it => it.split('=')).map(([name, file]) => [name, new WebAssembly.Module(fs.readFileSync(file))]));
for (const line of fs.readFileSync(cases, 'utf8').split('\n').filter(Boolean)) {
  const it = JSON.parse(line), wrong = modules[it.program] ? difference(modules[it.program], it) : 'there is no module of its program';
  if (wrong) fail(`${it.name}: ${it.program} ${it.arguments.join(' ')}`, wrong);
  else pass();
}
finish();
