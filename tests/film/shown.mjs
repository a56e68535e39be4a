// Compares what the pages of films show in a browser with other commands on the same runs: node shown.mjs A2 A2LAB ROOM [NAME..].
// The runs are those of the file `runs` and all examples; with names, only these. At some steps of each, in no order, it compares:
// registers, flags, steps and cycles, and the screen as it is drawn, cell by cell or block by block, with `A2 run --attr --limit STEP`;
// all of RAM with what the instructions of `A2LAB trace` store; RAM at the end with what the Monitor shows after the same run. An
// error, a line in the console or a request is a failure. The last line is 'N passed, M failed', with one for each step, and one for each
// page.
import {execFileSync} from 'node:child_process';
import {createHash} from 'node:crypto';
import {mkdirSync, readFileSync, readdirSync, writeFileSync} from 'node:fs';
import {dirname, join} from 'node:path';
import {fileURLToPath} from 'node:url';
import {browser} from './chromium.mjs';

// The sum of the glyphs that were compared, all 64.
const GLYPHS = '295b57c51bff47ebf4866293d2f0165f98c4a3d55591650245e3e3023a5e4791';
const COLOURS = ['0,0,0', '221,0,51', '0,0,153', '221,34,221', '0,119,34', '85,85,85', '34,34,255', '102,170,255',
  '136,85,0', '255,102,0', '170,170,170', '255,153,136', '17,221,0', '255,255,0', '68,255,153', '255,255,255'];
const STEPS = 9, LIMIT = 1500, END = 49152;
const here = dirname(fileURLToPath(import.meta.url));
const [a2, a2lab, room, ...chosen] = process.argv.slice(2);

const said = (program, ...words) => {
  try { return execFileSync(program, words, {encoding: 'latin1', stdio: ['ignore', 'pipe', 'pipe'], maxBuffer: 1 << 28}); } catch (error) { return error.stdout; }
};
const hex = (value, digits) => value.toString(16).toUpperCase().padStart(digits, '0');

// ---- the runs

const example_keys = Object.fromEntries(readFileSync(join(here, 'keys'), 'latin1').trim().split('\n').map(line => line.split(' ')));
const folder = join(here, '..', '..', 'examples');
const examples = readdirSync(folder).filter(name => name.endsWith('.s')).map(name => {
  const text = readFileSync(join(folder, name), 'latin1'), keys = example_keys[name.slice(0, -2)];
  return {name: name.slice(0, -2), text, words: [...keys ? ['--keys', keys] : [], ...text.includes('--free') ? ['--free'] : []]};
});
const written = readFileSync(join(here, 'runs'), 'latin1').split('\n=== ').slice(1).map(part => {
  const [head, ...lines] = part.trimEnd().split('\n'), [name, ...words] = head.split(' ');
  return {name, words, text: lines.join('\n').replace(/\\x(..)/g, (_, digits) => String.fromCharCode(parseInt(digits, 16))) + '\n'};
});

// ---- what other commands say

// The bytes that an instruction of the trace stores, in order: from the registers before and after it, and from RAM.
const MODES = {1: 'ix', 5: 'z', 6: 'z', 4: 'z', 13: 'a', 14: 'a', 12: 'a', 17: 'iy', 21: 'zx', 22: 'zx', 20: 'zx', 25: 'ay', 29: 'ax', 30: 'ax'};
function stores(ram, pc, was, is) {
  const op = ram[pc], low = ram[pc + 1], word = low | ram[pc + 2] << 8, push = (...bytes) => bytes.map((byte, i) => [256 + (was.S - i & 255), byte]);
  const pointer = at => ram[at & 255] | ram[at + 1 & 255] << 8;
  if (op == 0x48) return push(was.A);
  if (op == 0x08) return push(was.P);
  if (op == 0x20) return push(pc + 2 >> 8, pc + 2 & 255);
  const kind = op >> 5, columns = op & 31, mode = MODES[columns];
  const stored = (op & 3) == 1 && kind == 4 ? 'A' : (op & 3) == 2 && kind == 4 ? 'X' : (op & 3) == 0 && kind == 4 ? 'Y' : null;
  const changes = (op & 3) == 2 && kind != 4 && kind != 5;
  if (!mode || !stored && !changes) return [];
  const at = {z: low, a: word, zx: low + (stored == 'X' ? was.Y : was.X) & 255, ax: word + was.X & 65535, ay: word + was.Y & 65535,
    ix: pointer(low + was.X), iy: pointer(low) + was.Y & 65535}[mode];
  if (stored) return [[at, was[stored]]];
  const old = ram[at], carry = was.P & 1;
  return [[at, [old << 1, old << 1 | carry, old >> 1, old >> 1 | carry << 7, 0, 0, old - 1, old + 1][kind] & 255]];
}

const registers = line => Object.fromEntries([...line.matchAll(/\b([AXYPS]|PC)=([0-9A-F]+)/g)].map(part => [part[1], parseInt(part[2], 16)]));

// A film's data, as they are in the page: RAM at the start, and the rows.
function data_of(page) {
  const from = page.indexOf('id="film">') + 10, lines = page.slice(from, page.indexOf('</script>', from)).split('\n');
  const first = lines.findIndex(line => line.startsWith('R ')), ram = new Uint8Array(65536);
  const put = digits => { for (const [, at, bytes] of digits.matchAll(/m(.{4})((?:[0-9A-F]{2})*)/g)) Buffer.from(bytes, 'hex').copy(ram, parseInt(at, 16)); };
  put(lines[first - 1]);
  return {ram, put, rows: lines.slice(first + 1, -2), start: lines[first].split(' ')};
}

// RAM at each of these steps. A trace does not have the stores of a service: those are taken from the row.
function rams(page, trace, steps) {
  const {ram, put, rows, start} = data_of(page), at = new Map;
  let was = {A: parseInt(start[2], 16), X: parseInt(start[3], 16), Y: parseInt(start[4], 16), S: parseInt(start[5], 16), P: parseInt(start[6], 16)};
  for (let step = 0; step <= rows.length; step++) {
    if (step) {
      const line = trace[step - 1], is = registers(line);
      if (/^[0-9A-F]{4}- {14}/.test(line)) put(rows[step - 1]);
      else for (const [address, byte] of stores(ram, parseInt(line, 16), was, is)) if (address < END) ram[address] = byte;
      was = is;
    }
    if (steps.includes(step)) at.set(step, ram.slice(0, END));
  }
  return at;
}

// RAM after the Monitor has run the program from its start.
function monitor_ram(name, source, start) {
  const script = join(room, name + '.mon'), object = said(a2, 'asm', source);
  writeFileSync(script, object + start + 'G\n0.BFFF\n', 'latin1');
  const ram = new Uint8Array(END), told = said(a2, 'mon', script);
  for (const [, at, bytes] of told.slice(told.lastIndexOf('*0.BFFF')).matchAll(/^([0-9A-F]{4})-((?: [0-9A-F]{2})+)$/gm))
    Buffer.from(bytes.replaceAll(' ', ''), 'hex').copy(ram, parseInt(at, 16));
  return ram;
}

// ---- what the page shows

const seen = step => `(()=>{go(${step});flash=0;draw();
  const register=name=>$("regs").querySelector('[data-r="'+name+'"] b').textContent;
  copy.drawImage(cv,0,0);const image=copy.getImageData(0,0,560,384).data,dot=(x,y)=>4*(y*560+x),cells=[],ground=[],blocks=[];
  for(let r=0;r<24;r++)for(let c=0;c<40;c++){let glyph="";
    for(let i=0;i<5;i++){let column=0;for(let j=0;j<7;j++)if(image[dot(14*c+3+2*i,16*r+3+2*j)]>128)column|=1<<j;glyph+=h(column,2)}
    cells.push(glyph);ground.push(image[dot(14*c+1,16*r+1)]>128?"I":".")}
  for(let r=0;r<48;r++)for(let c=0;c<40;c++)blocks.push([...image.slice(dot(14*c+7,8*r+4),dot(14*c+7,8*r+4)+3)].join());
  let bytes="";for(let i=0;i<RAM;i+=8192)bytes+=String.fromCharCode(...ram.slice(i,i+8192));
  return {line:["A","X","Y","P","S","PC"].map(n=>n+"="+register(n)).join(" ")+" STEPS="+$("no").textContent+" CYCLES="+$("cy").textContent,
    flags:$("flags").textContent,screen:$("scrt").textContent.split("\\n"),mode:SW[at],say:$("say").textContent,ram:btoa(bytes),cells,ground,blocks,
    memory:[...$("mem").querySelectorAll("td")].map(d=>d.textContent).join(""),page,font:FONT}})()`;

// What differs between what the page shows and what the run's output and RAM say.
function differences(got, answer, ram) {
  const lines = answer.split('\n'), end = lines.findIndex(line => /^A=.. X=.. /.test(line)), wrong = [];
  const flags = parseInt(lines[end].match(/P=(..)/)[1], 16);
  const text = got.mode & 1 ? 24 : got.mode & 2 && !(got.mode & 8) ? 4 : 0, blocks = text == 24 || got.mode & 8 ? 0 : text ? 40 : 48;
  const picture = lines.slice(0, blocks + text), shown = lines.slice(blocks + text, end);
  const no = what => wrong.push(what);
  if (got.line != lines[end]) no(got.line + ' for ' + lines[end]);
  if (got.flags != [...'NVDIZC'].map(flag => flag + (flags >> 7 - 'NV..DIZC'.indexOf(flag) & 1)).join('')) no('flags ' + got.flags);
  if (shown.length != (got.mode & 8 && !(got.mode & 1) ? 1 : text)) no('the screen is of another kind');
  for (let row = 0; row < text; row++) for (let column = 0; column < 40; column++) {
    const letter = picture[blocks + row][column], at = 40 * (24 - text + row) + column, inverse = shown[row][column] == 'I';
    const glyph = got.font.substr(10 * (letter.charCodeAt(0) & 63), 10).match(/../g).map(digits => hex(parseInt(digits, 16) ^ (inverse ? 127 : 0), 2)).join('');
    if (got.screen[24 - text + row][column] != letter) no(`the text of row ${row}, column ${column}`);
    if (got.cells[at] != glyph || got.ground[at] != (inverse ? 'I' : '.')) no(`the cell in row ${row}, column ${column}`);
  }
  for (let row = 0; row < blocks; row++) for (let column = 0; column < 40; column++)
    if (got.blocks[40 * row + column] != COLOURS[parseInt(picture[row][column], 16)]) no(`the block in row ${row}, column ${column}`);
  const held = Buffer.from(got.ram, 'base64'), other = held.findIndex((byte, address) => byte != ram[address]);
  if (other >= 0) no(`$${hex(other, 4)} holds ${hex(held[other], 2)} for ${hex(ram[other], 2)}`);
  if (got.memory != held.subarray(256 * got.page, 256 * got.page + 256).toString('hex').toUpperCase()) no('the page of memory');
  if (createHash('sha256').update(got.font).digest('hex') != GLYPHS) no('other glyphs than were looked at');
  return wrong;
}

// ---- all runs

let passed = 0, failed = 0;
const told = (name, wrong) => { if (wrong.length) { failed++; console.log(`FAILED: ${name}: ${wrong.slice(0, 3).join('; ')}`); } else passed++; };

async function compare(chromium, {name, text, words}) {
  mkdirSync(room, {recursive: true});
  const source = join(room, name + '.s'), file = join(room, name + '.html');
  writeFileSync(source, text, 'latin1');
  const limited = words.includes('--limit') ? words : [...words, '--limit', String(LIMIT)];
  writeFileSync(file, said(a2lab, 'film', ...limited, source), 'latin1');
  const film = readFileSync(file, 'latin1'), trace = said(a2lab, 'trace', ...limited, source).split('\n'), cause = trace.at(-2);
  const last = trace.length - 2, steps = [0, last, Math.min(1, last)];
  for (let i = 1; i < STEPS - 2; i++) steps.push(Math.floor(last * ((i * 5) % (STEPS - 2)) / (STEPS - 2)));
  const ram = rams(film, trace, steps), page = await chromium.open('file://' + file), more = [];
  await page.value('copy=Object.assign(document.createElement("canvas"),{width:560,height:384}).getContext("2d",{willReadFrequently:true});0');
  for (const step of steps) {
    const got = await page.value(seen(step));
    told(`${name}, step ${step}`, differences(got, said(a2, 'run', ...words.filter((word, i) => word != '--limit' && words[i - 1] != '--limit'), '--attr', '--limit', String(step), source), ram.get(step)));
    if (step == last && !got.say.includes(cause.slice(5) + ':')) more.push('the cause is not told: ' + got.say);
  }
  if (+await page.value('$("of").textContent') != last) more.push('another number of steps');
  if (await page.value('typeof NASTY') != 'undefined') more.push('a text of the source was run');
  const shown = await page.value('rows.map(row=>row.lastChild.textContent)');
  const utf = line => { const bytes = Buffer.from(line, 'latin1'), text = bytes.toString('utf8'); return Buffer.from(text).equals(bytes) ? text : line; };
  const wanted = text.split(/\r\n|\r|\n/).slice(0, shown.length).map(utf);
  if (shown.join('\n') != wanted.join('\n')) more.push('the source: ' + shown.find((line, i) => line != wanted[i]));
  if (!words.length && cause == 'STOP RETURNED') {
    const end = monitor_ram(name, source, film.match(/^R (....) /m)[1]), here = ram.get(last), other = here.findIndex((byte, at) => byte != end[at] && (at < 0x1F0 || at > 0x1FF));
    if (other >= 0) more.push(`the Monitor shows ${hex(end[other], 2)} at $${hex(other, 4)}, the film ${hex(here[other], 2)}`);
  }
  told(name, [...more, ...page.faults()]);
  await page.close();
}

const chromium = await browser();
for (const run of [...written, ...examples]) if (!chosen.length || chosen.includes(run.name)) {
  try { await compare(chromium, run); } catch (error) { told(run.name, [String(error.stack)]); }
}
await chromium.close();
console.log(`${passed} passed, ${failed} failed`);
process.exit(failed ? 1 : 0);
