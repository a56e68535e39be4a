// Makes one HTML file that tests modules: node make-page.mjs FILE.html PROGRAM=MODULE.. It allows itself no network. in-page.mjs is its
// script.
import fs from 'node:fs';
import {fileURLToPath} from 'node:url';
import {expressionOf, inlined, packed} from '../../page/inline.mjs';

const here = name => fileURLToPath(new URL(name, import.meta.url));
const [file, ...programs] = process.argv.slice(2);
const modules = Object.fromEntries(programs.map(it => it.split('=')).map(([name, module]) => [name, packed(fs.readFileSync(module))]));
const policy = "default-src 'none'; script-src 'unsafe-inline' 'wasm-unsafe-eval'; worker-src blob:";

fs.writeFileSync(file, `<!doctype html>
<meta charset="utf-8">
<meta http-equiv="Content-Security-Policy" content="${policy}">
<title>Modules</title>
<script>
const packed = ${expressionOf(modules)};
const workerText = ${expressionOf(inlined(here('../../page/worker.mjs')))};
</script>
<script>
${inlined(here('in-page.mjs')).replaceAll('</script', '<\\/script')}
</script>
`);
