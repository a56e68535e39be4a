// Makes the picture of the manual: node picture.mjs A2LAB OUT.png. It shows the film of examples/lores.s in Chromium, with a
// palette of 48 colours, which keeps it small.
import {execFileSync} from 'node:child_process';
import {mkdtempSync, rmSync, writeFileSync} from 'node:fs';
import {tmpdir} from 'node:os';
import {dirname, join} from 'node:path';
import {fileURLToPath} from 'node:url';
import {crc32, deflateSync} from 'node:zlib';
import {browser} from './chromium.mjs';

const [a2lab, out] = process.argv.slice(2), [width, height, colours] = [1280, 900, 48];
const room = mkdtempSync(join(tmpdir(), 'film-picture-')), file = join(room, 'film.html'), shot = join(room, 'film.png');
const top = join(dirname(fileURLToPath(import.meta.url)), '..', '..');
try { writeFileSync(file, execFileSync(a2lab, ['film', '--limit', '3000', 'examples/lores.s'], {cwd: top})); } catch (error) { writeFileSync(file, error.stdout); }
const chromium = await browser(), page = await chromium.open('file://' + file + '#step=2200&bp=19', {width, height});
await page.value('document.head.append(Object.assign(document.createElement("style"),{textContent:"::-webkit-scrollbar{display:none}"}))');
await page.value('onresize()');
await page.picture(shot);

// The most frequent colours, and each point as the nearest of them.
const {points, palette} = await page.value(`(async()=>{const image=new Image;image.src=${JSON.stringify('data:image/png;base64,')}+${JSON.stringify((await import('node:fs')).readFileSync(shot).toString('base64'))};
  await image.decode();const c=Object.assign(document.createElement("canvas"),{width:${width},height:${height}}).getContext("2d",{willReadFrequently:true});c.drawImage(image,0,0);
  const d=c.getImageData(0,0,${width},${height}).data,n=new Map;for(let i=0;i<d.length;i+=4){const k=d[i]<<16|d[i+1]<<8|d[i+2];n.set(k,(n.get(k)||0)+1)}
  const palette=[...n].sort((a,b)=>b[1]-a[1]).slice(0,${colours}).map(e=>e[0]),near=new Map;
  const far=(a,b)=>{const r=(a>>16)-(b>>16),g=(a>>8&255)-(b>>8&255),l=(a&255)-(b&255);return 2*r*r+4*g*g+3*l*l};
  for(const k of n.keys())near.set(k,palette.reduce((best,p,i)=>far(k,p)<far(k,palette[best])?i:best,0));
  let s="";for(let i=0;i<d.length;i+=4)s+=String.fromCharCode(near.get(d[i]<<16|d[i+1]<<8|d[i+2]));return{points:btoa(s),palette}})()`);
await chromium.close();
rmSync(room, {recursive: true});

const chunk = (name, data) => {
  const body = Buffer.concat([Buffer.from(name), data]), size = Buffer.alloc(4), sum = Buffer.alloc(4);
  size.writeUInt32BE(data.length);
  sum.writeUInt32BE(crc32(body));
  return Buffer.concat([size, body, sum]);
};
const head = Buffer.alloc(13), bytes = Buffer.from(points, 'base64');
head.writeUInt32BE(width, 0);
head.writeUInt32BE(height, 4);
head.set([8, 3, 0, 0, 0], 8);
const rows = Buffer.concat([...Array(height).keys()].flatMap(row => [Buffer.alloc(1), bytes.subarray(row * width, (row + 1) * width)]));
writeFileSync(out, Buffer.concat([Buffer.from('\x89PNG\r\n\x1a\n', 'latin1'), chunk('IHDR', head), chunk('PLTE', Buffer.from(palette.flatMap(k => [k >> 16, k >> 8 & 255, k & 255]))),
  chunk('IDAT', deflateSync(rows, {level: 9, memLevel: 9})), chunk('IEND', Buffer.alloc(0))]));
