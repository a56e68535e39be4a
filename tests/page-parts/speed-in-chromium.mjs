// The milliseconds of processor time that runs of sources take in Chromium: node speed-in-chromium.mjs PAGE.html FOLDER STEPS RUNS SOURCE..
// prints an object of lists. Each source runs in a page of its own. (tests/page-speed calls it.)
import fs from 'node:fs';
import path from 'node:path';
import {pathToFileURL} from 'node:url';
import {browser} from '../film/chromium.mjs';
import {processorMilliseconds} from './renderers.mjs';

const [file, folder, steps, runs, ...sources] = process.argv.slice(2);

const chromium = await browser(), found = {};
try {
  for (const name of sources) {
    const page = await chromium.open(pathToFileURL(path.resolve(file)).href);
    await page.value('ready');
    const files = JSON.stringify({[name]: fs.readFileSync(path.join(folder, name), 'latin1')}), words = JSON.stringify(['a2', 'run', name, '--limit', steps]);
    found[name] = [];
    for (let at = 0; at < runs; ++at) {
      const before = processorMilliseconds(), {status, fault} = await page.value(`measure(${words}, ${files}, 1)`);
      found[name].push(processorMilliseconds() - before);
      if (fault || status !== 3) throw new Error(`${name}: ${status} ${fault?.message}`);
    }
    await page.close();
  }
} finally {
  await chromium.close();
}
console.log(JSON.stringify(found));
