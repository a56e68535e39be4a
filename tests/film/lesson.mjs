// Tests a part of a run, and the chapters of a lesson: node lesson.mjs A2LAB SOURCE ROOM. At each step that is compared, the film of a part
// shows what the film of the whole run shows. The test goes through its chapters by keys, buttons and list. Nothing is wider than a
// phone. The last line is 'N passed, M failed'.
import {spawnSync} from 'node:child_process';
import {mkdirSync, writeFileSync} from 'node:fs';
import {join} from 'node:path';
import {browser} from './chromium.mjs';

const [a2lab, source, room] = process.argv.slice(2), [FROM, STEPS, LAST] = [1200, 900, 3000];
let passed = 0, failed = 0;
const told = (what, is, wanted) => {
  if (String(is) === String(wanted)) passed++; else { failed++; console.log(`FAILED: ${what}: ${is}, and not ${wanted}`); }
};
mkdirSync(room, {recursive: true});
// (the status is that of the run's end)
const film = (name, ...words) => { const file = join(room, name); spawnSync(a2lab, ['film', '-o', file, ...words, source], {stdio: 'inherit'}); return 'file://' + file; };
const script = join(room, 'lesson');
writeFileSync(script, `${FROM + 400} Later on.\n${FROM} <b>Here</b> it begins & \\ goes on.\nline 24 A line.\n\n${LAST} Behind the end.\n${FROM + 400} And at once.\nline 1 A line that is never done.\n`);
const whole = film('whole.html', '--limit', String(LAST)), part = film('part.html', '--from', String(FROM), '--steps', String(STEPS), '--script', script);

// Returns everything that a page shows at a step of the run, by its own numbers.
const shown = `(()=>{let sum=0;for(let i=0;i<RAM;i++)sum=(sum*31+ram[i])%4294967291;
  return [$("no").textContent,$("cy").textContent,$("regs").textContent,$("flags").textContent,$("stk").textContent,$("scrt").textContent,SW[at],sum,
    at?words(at):"",nowr&&nowr.rowIndex].join("|")})()`;
const chromium = await browser(), all = await chromium.open(whole), page = await chromium.open(part);
const is = async (what, expression, wanted) => told(what, await page.value(expression), wanted);
await is('where the window begins', '$("no").textContent+" of "+$("of").textContent', `${FROM} of ${FROM + STEPS}`);
await is('that it says so', '$("say").textContent.includes("The film begins here, ' + FROM + ' steps into the run")', true);
for (const step of [FROM + 1, FROM + STEPS, FROM + 450, FROM + 2, FROM + 899, FROM + 17, FROM + 321]) {
  await all.value(`go(${step})`);
  await page.value(`location.hash="#step=${step}"`);
  await page.value('unhash()');
  told(`step ${step}`, await page.value(shown), await all.value(shown));
}
await page.value(`go(0)`);
await page.key('/');
await page.type(String(FROM + 55));
await page.key('Enter');
await is('a step by its number', '$("no").textContent', FROM + 55);
await is('the link', '$("link").href.endsWith("#step=' + (FROM + 55) + '")', true);

// ---- chapters
await page.value('go(0)');
await is('the list', 'CH.length', 6);
await is('what the film does not come to', '[...$("chs").options].filter(o=>o.disabled).map(o=>o.text.slice(3)).sort().join("|")', 'A line that is never done. (not in this film)|Behind the end. (not in this film)');
await is('the first chapter, as text', '$("say").querySelector(".chap").textContent', '1 of 6 <b>Here</b> it begins & \\ goes on.');
await is('its place in the list', '$("chs").selectedIndex', 0);
const line = await page.value('CH.findIndex(c=>c.t=="A line.")'), first = await page.value(`CH[${line}].k`);
await is('a chapter at a line begins where it comes next', `LINE[PC[${first}]]+" "+[...PC.slice(0,${first})].some(p=>LINE[p]==24)`, '24 false');
await page.value('go(0)');
await page.key('c');
await is('c', 'at>0&&CH.some(c=>c.k==at)', true);
await page.value('go(399)');
await page.key('c');
await is('c goes to the next', 'at', 400);
await is('two chapters at one step', '$("say").querySelector(".chap").innerText.includes("Later on.")&&$("say").querySelector(".chap").innerText.includes("And at once.")', true);
await page.key('c');
await is('c after the last', 'at', 400);
await page.key('ArrowRight');
await is('a step on is in the chapter', '$("say").querySelector(".chap").textContent.includes("Later on.")', true);
await page.key('C');
await is('C goes to its begin', 'at', 400);
await page.key('C');
await is('C goes to the one before', 'at<400&&CH.some(c=>c.k==at)', true);
await page.value('go(0);$("c1").focus()');
await page.key('Enter');
await is('the button', 'at>0', true);
await page.value('go(450);$("c0").focus()');
await page.key('Enter');
await is('the button back', 'at', 400);
await page.value('$("chs").selectedIndex=CH.findLastIndex(c=>c.k==400);$("chs").onchange({target:$("chs")})');
await is('the list goes there', 'at', 400);
await is('no chapters, no controls', 'getComputedStyle($("chap")).display!="none"', true);
told('none in another film', await all.value('getComputedStyle($("chap")).display'), 'none');
told('errors and requests', [...page.faults(), ...all.faults()], '');
const phone = await chromium.open(part + '#step=1600', {width: 390, height: 844});
told('wider than a phone', await phone.value('document.documentElement.scrollWidth-document.documentElement.clientWidth'), 0);
await chromium.close();
console.log(`${passed} passed, ${failed} failed`);
process.exit(failed ? 1 : 0);
