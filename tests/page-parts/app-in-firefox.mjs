// Tests a2.html in Firefox, opened from disk: node app-in-firefox.mjs a2.html [A2]. A2 is the native program.
import path from 'node:path';
import {pathToFileURL} from 'node:url';
import {appTests} from './app.mjs';
import {finish} from './count.mjs';
import {browser} from './firefox.mjs';

const [file, a2] = process.argv.slice(2);
const firefox = await browser();
try {
  const {value} = await firefox.open(pathToFileURL(path.resolve(file)).href);
  await appTests(value, a2);
} finally {
  await firefox.close();
}
finish();
