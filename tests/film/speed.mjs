// Measures how fast Chromium shows films: node speed.mjs FILM.html.. For each it prints the milliseconds of loading; of 200 steps forwards and
// back, and of 60 jumps anywhere, each with all drawing: the median, and the time that nine tenths stay below.
import {resolve} from 'node:path';
import {browser} from './chromium.mjs';

const chromium = await browser();
for (const file of process.argv.slice(2)) {
  const page = await chromium.open('file://' + resolve(file));
  const [steps, step, jump] = await page.value(`(()=>{const times=(n,f)=>{const all=[];for(let i=0;i<n;i++){const t=performance.now();f(i);document.body.offsetHeight;all.push(performance.now()-t)}
      all.sort((a,b)=>a-b);return[all[n>>1],all[n*9/10|0]].map(t=>t.toFixed(1)).join(" and ")};
    go(N>>1);const step=times(200,i=>go(at+(i%3?1:-1))),jump=times(60,i=>go((i*7919*97)%(N+1)));return[N,step,jump]})()`);
  console.log(`${file.split('/').pop()}: ${steps} steps, load ${page.loaded.toFixed(0)} ms, a step ${step} ms, a jump ${jump} ms`);
  await page.close();
}
await chromium.close();
