// Tests the controls of a film's page by keyboard: node controls.mjs FILM.html [PICTURES], where the film is that of
// examples/sieve.s, and PICTURES a folder for a picture of each width and colour scheme. Text with less contrast than
// WCAG requires for AA is a failure. So is anything wider than the window, and a small window or a printed page that
// does not show what a pupil needs. The last line is 'N passed, M failed'.
import {join, resolve} from 'node:path';
import {browser} from './chromium.mjs';

const [file, pictures] = process.argv.slice(2), url = 'file://' + resolve(file);
let passed = 0, failed = 0;
const told = (what, is, wanted) => {
  if (String(is) === String(wanted)) passed++; else { failed++; console.log(`FAILED: ${what}: ${is}, and not ${wanted}`); }
};
const sleep = time => new Promise(done => setTimeout(done, time));
const chromium = await browser();

// ---- each key, and each control by Tab and Enter
const page = await chromium.open(url + '#step=401&bp=24,34');
const is = async (what, expression, wanted) => told(what, await page.value(expression), wanted);
await is('the step of the link', 'at', 401);
await is('the breakpoints of the link', '[...bps].map(a=>LINE[a])', '24,34');
for (const [key, modifiers, wanted] of [['ArrowRight', 0, 402], ['ArrowLeft', 0, 401], ['ArrowRight', 8, 411], ['ArrowLeft', 8, 401], ['Home', 0, 0], ['ArrowLeft', 0, 0]]) {
  await page.key(key, modifiers);
  await is(`${modifiers ? 'Shift ' : ''}${key}`, 'at', wanted);
}
await page.key('End');
await is('End', 'at==N', true);
await page.key('ArrowRight');
await is('no step after the end', 'at==N', true);
await is('the cause in words', '$("say").textContent.includes(F.stop+": "+STOP[F.stop])', true);
await page.value('go(200)');
await page.key('b');
await is('b', 'bps.has(PC[at])&&at>200', true);
await page.key('B');
await is('B', 'at<200&&(at==0||bps.has(PC[at]))', true);
await page.value('bps.clear();at_=[...Array(N).keys()].find(k=>ram[0]+1&&LINE[PC[k]]&&F.source[LINE[PC[k]]-1].includes("JSR"));go(at_)');
await page.key('o');
await is('o goes over a call', 'at>at_+1&&REG.s[at]==REG.s[at_]', true);
await page.key('O');
await is('O goes back over it', 'at==at_', true);
await page.key('x');
await is('x sets a breakpoint', 'bps.size', 1);
await page.key('x');
await is('x takes it away', 'bps.size', 0);
await page.key('/');
await page.type('256');
await page.key('Enter');
await is('/ and a number', 'at', 256);
await page.key('/');
await page.type('abc');
await page.key('Enter');
await is('/ and no number', '[at,$("say").textContent]', `256,${await page.value('"Write the number of a step, from "+B+" to "+(B+N)+"."')}`);
for (const [key, wanted] of [['w', 'Nothing is chosen'], ['n', 'Nothing is chosen'], ['r', 'There is no step to return to']]) {
  await page.key(key);
  await is(`${key} with nothing chosen`, `[at,$("say").textContent.startsWith("${wanted}")]`, '256,true');
}
await page.value('a_=ADR[FIRST[500]-1],k_=stepOf(FIRST[500]-1);go(500);pick(a_)');
await page.key('w');
await is('w goes to the step that stored it', 'at==k_', true);
await page.key('r');
await is('r returns', 'at', 500);
await page.key('n');
await is('n goes to the next store', 'at>500?ADR.slice(FIRST[at],FIRST[at+1]).includes(a_):find(1,501)==0', true);
await page.value('location.hash="#step=77"');
await sleep(100);
await is('a link of the page', 'at', 77);
await page.value('$("speed").value=60');
await page.key(' ');
await sleep(700);
await page.key(' ');
await is('Space plays and stops', '[at>77,timer]', 'true,0');
await page.value('go(0);document.activeElement.blur()');
const reached = [];
for (let i = 0; i < 60; i++) {
  await page.key('Tab');
  const name = await page.value('(e=>e==document.body?"":e.id||(e.dataset.r?"register "+e.dataset.r:e.textContent))(document.activeElement)');
  if (name && reached.includes(name)) break;
  reached.push(name);
}
await is('Tab comes to each control', `[...document.querySelectorAll("button,input,select,a")].filter(e=>e.offsetParent&&!${JSON.stringify(reached)}.includes(e.id||(e.dataset.r?"register "+e.dataset.r:e.textContent))).map(e=>e.id||e.outerHTML)`, '');
for (const [name, start, wanted] of [['f1', 5, 'at==6'], ['b1', 5, 'at==4'], ['home', 5, 'at==0'], ['end', 5, 'at==N'], ['over', 5, 'at>5'], ['run', 5, 'bps.has(PC[at])||at==N'],
  ['back', 50, 'at<50'], ['dark', 5, 'document.documentElement.classList.contains("dark")'], ['pgm', 5, 'page==pg_-1'], ['pgp', 5, 'page==pg_+1']]) {
  await page.value(`go(${start});bps.clear();bps.add(PC[20]);pg_=page;$("${name}").focus()`);
  await page.key('Enter');
  await is(`Enter on ${name}`, wanted, true);
}
await page.value('bps.clear();$("play").focus()');
await page.key('Enter');
await sleep(100);
await is('Enter on play', 'timer>0', true);
await page.key('Enter');
await is('Enter on play again', 'timer', 0);
await page.value('go(5);$("goto").value="33";$("gob").focus()');
await page.key('Enter');
await is('Enter on Go', 'at', 33);
await page.value('$("at").focus()');
await page.key('ArrowRight');
await is('an arrow on the slider', '[at,$("at").value]', '34,34');
for (const name of ['speed', 'pg']) {
  await page.value(`v_=$("${name}").selectedIndex;$("${name}").focus()`);
  await page.key('ArrowDown');
  await is(`an arrow in the list ${name}`, `$("${name}").selectedIndex-v_`, 1);
}
await is('the page of the list', 'page', await page.value('+$("pg").value'));
await page.value('v_=$("fol").checked;$("fol").focus()');
await page.key(' ');
await is('Space on follow', '$("fol").checked!=v_&&!timer', true);
await page.value('go(500);T_.querySelector("[data-r=X]").focus()');
await page.key('Enter');
await is('Enter on a register', 'selr', 'X');
await page.value('pick(a_);k_=find(-1);$("whot").querySelector("button").focus()');
await page.key('Enter');
await is('Enter on the step that wrote it', 'at', await page.value('k_'));
await page.value('[...$("whot").querySelectorAll("button")].find(b=>b.textContent.startsWith("Return")).focus()');
await page.key('Enter');
await is('Enter on the way back', 'at', 500);
await page.value('go(123);$("link").focus()');
await page.key('Enter');
await is('Enter on the link', 'location.hash.startsWith("#step=123")&&at==123', true);
// (the page learns only a moment later that its link has changed, and goes there once more)
await new Promise(done => setTimeout(done, 100));
await page.value('bps.clear();go(9);$("src").focus()');
await page.key('ArrowDown');
await page.key('Enter');
await is('Enter on a line of the program', 'bps.size', 1);
await page.value('pick(0x405);tds[5].focus()');
await page.key('ArrowRight');
await is('an arrow in memory', '[sel,at]', '1030,9');
await page.value('$("adr").select()');
await page.type('$10');
await page.key('Enter');
await is('a byte by its address', 'sel', 16);
await page.value('document.activeElement.blur();go(N);cv.scrollIntoView()');
const box = JSON.parse(await page.value('JSON.stringify(cv.getBoundingClientRect())'));
await page.click(box.x + 3, box.y + 5);
await is('a click on the screen', 'sel', 1024);
await is('each control has a name', '[...document.querySelectorAll("button,input,select")].filter(e=>!(e.textContent.trim()||e.getAttribute("aria-label")||e.labels?.length)).length', 0);
told('errors and requests', page.faults(), '');

// ---- two widths and two colour schemes

// Texts whose contrast is too low: the colour of each against what lies below it.
const LOW = `(()=>{const part=t=>(t.match(/[\\d.]+/g)||[0,0,0,0]).map(Number),over=(c,b)=>{const a=c[3]??1;return[0,1,2].map(i=>c[i]*a+b[i]*(1-a))};
  const light=c=>{const q=c.map(v=>(v/=255)<=.03928?v/12.92:((v+.055)/1.055)**2.4);return .2126*q[0]+.7152*q[1]+.0722*q[2]};
  const ground=e=>{const c=part(getComputedStyle(e).backgroundColor);return(c[3]??1)==1||!e.parentElement?over(c,[255,255,255]):over(c,ground(e.parentElement))};
  const low=[];for(const e of document.querySelectorAll("body *")){if(![...e.childNodes].some(n=>n.nodeType==3&&n.data.trim())||!e.getClientRects().length||e.closest("script,option,#scrt"))continue;
    const s=getComputedStyle(e),b=ground(e),l=[light(over(part(s.color),b)),light(b)].sort((x,y)=>y-x),r=(l[0]+.05)/(l[1]+.05),big=parseFloat(s.fontSize)>=(s.fontWeight>=700?18.66:24);
    if(r<(big?3:4.5))low.push(e.tagName+(e.id?"#"+e.id:"")+" "+e.textContent.slice(0,20)+" "+r.toFixed(2))}return low})()`;
for (const [width, height] of [[1280, 900], [390, 844]]) for (const dark of [false, true]) {
  const name = `${width}-${dark ? 'dark' : 'light'}`, view = await chromium.open(url + '#step=401&bp=24', {width, height, dark});
  told(`${name}: wider than the window`, await view.value('document.documentElement.scrollWidth-document.documentElement.clientWidth'), 0);
  for (const step of [0, 401, 'N']) {
    await view.value(`go(${step});pick(ADR[0]);sel=ADR[0];show()`);
    told(`${name}, step ${step}: contrast`, await view.value(LOW), '');
  }
  await view.value('go(401)');
  if (pictures) await view.picture(join(pictures, name + '.png'), width < 500);
  told(`${name}: errors and requests`, view.faults(), '');
  await view.close();
}

// ---- what a pupil needs in small windows, and in the tooltips of registers

// Whether the middle of an element is visible without scrolling.
const SEEN = `(e=>{const b=e.getBoundingClientRect(),t=document.elementFromPoint(b.x+b.width/2,b.y+b.height/2);return !!b.height&&e.contains(t)})`;
const sized = (width, height) => chromium.open(url + '#step=401', {width, height});
const tablet = await sized(1024, 768);
told('1024: the source has nearly half of the width, enough for its comments',
  await tablet.value('$("src").offsetWidth>=.45*innerWidth'), true);
const small = await sized(800, 600);
told('800x600: the next line of the source is on the first page', await small.value(`${SEEN}(document.querySelector("#src .now td:last-child"))`), true);
const phone = await sized(360, 640);
told('360: registers and set flags are on the first page', await phone.value(`${SEEN}($("strip"))&&$("strip").textContent`), 'A 00 X 85 Y 00 N');
// (the program counts X up through all bytes)
const tip = async (value, wanted) => {
  const title = await tablet.value(`go(REG.x.indexOf(${value}));document.querySelector("[data-r=X]").title`);
  told(`a tooltip with ${wanted}`, wanted.filter(part => !title.split(/[^-\w]+/).includes(part)), '');
};
await tip(0xC1, ['11000001', '-63', 'A']);
await tip(0x25, ['00100101']);
for (const view of [tablet, small, phone]) { told('small windows: errors and requests', view.faults(), ''); await view.close(); }

// ---- on paper: no controls, the whole program, and dark colours become light
const paper = await chromium.open(url + '#step=401', {width: 794, height: 1123, dark: true, media: 'print'});
told('controls on paper', await paper.value('["nav","bar","memc","whot","link"].filter(i=>getComputedStyle($(i)).display!="none")'), '');
told('the program on paper', await paper.value('getComputedStyle($("src")).maxHeight+" "+($("src").scrollHeight-$("src").clientHeight)'), 'none 0');
told('wider than the paper', await paper.value('document.documentElement.scrollWidth-document.documentElement.clientWidth'), 0);
told('contrast on paper', await paper.value(LOW), '');
told('errors on paper', paper.faults(), '');
// (most of the screen is light in a picture of the page. The page itself decodes that picture, which counts as a request)
const clip = JSON.parse(await paper.value('(({x,y,width,height})=>JSON.stringify({x:x+scrollX,y:y+scrollY,width,height,scale:1}))(cv.getBoundingClientRect())'));
const {data} = await paper.call('Page.captureScreenshot', {format: 'png', clip, captureBeyondViewport: true});
told('text on paper is dark on light, which saves ink', await paper.value(`(async()=>{const p=new Image;p.src="data:image/png;base64,${data}";await p.decode();
  const c=document.createElement("canvas"),w=c.width=p.width,h=c.height=p.height,g=c.getContext("2d");g.drawImage(p,0,0);
  const all=g.getImageData(0,0,w,h).data;let light=0;for(let i=0;i<all.length;i+=4)if(all[i+1]>127)light++;return light>.6*w*h})()`), true);
told('each margin of the paper is at least 5 mm', await paper.value(`(()=>{const page=[...document.styleSheets].flatMap(s=>[...s.cssRules])
  .flatMap(r=>r.media?.mediaText=="print"?[...r.cssRules]:[r]).find(r=>r instanceof CSSPageRule),e=document.createElement("p");document.body.append(e);
  e.style.margin="0";const wide=["top","right","bottom","left"].every(side=>{e.style.width=page?.style["margin-"+side]||"0";return e.offsetWidth>=18});e.remove();return wide})()`), true);
await chromium.close();
console.log(`${passed} passed, ${failed} failed`);
process.exit(failed ? 1 : 0);
