// Tests parts of the page that need no program and no browser: node units.mjs
import fs from 'node:fs';
import {fileURLToPath} from 'node:url';
import {casesIn, linesBefore} from '../../page/app/cases.mjs';
import {changeOf} from '../../page/app/fixes.mjs';
import {instructionsIn} from '../../page/app/instructions.mjs';
import {MOST_LINK, fragmentOf, programIn} from '../../page/app/link.mjs';
import {inlineOf, isProgram, textOf, treeOf} from '../../page/app/markdown.mjs';
import {sizeOf} from '../../page/app/record.mjs';
import {Cone, samplesOf, sourceOf} from '../../page/app/samples.mjs';
import {entriesOf} from '../../page/app/stack.mjs';
import {Voice, reportIn} from '../../page/app/voice.mjs';
import {Clock} from '../../page/host.mjs';
import {inlined} from '../../page/inline.mjs';
import {readerOf} from '../../page/reader.mjs';
import {equal, finish, test} from './count.mjs';

const at = name => fileURLToPath(new URL(name, import.meta.url)), folder = at('../../docs/manual/');
const pages = Object.fromEntries(fs.readdirSync(folder).filter(it => it.endsWith('.md')).map(it => [it, treeOf(fs.readFileSync(folder + it, 'utf8'))]));

// Returns all nodes with a tag.
const nodesOf = nodes => nodes.filter(it => typeof it !== 'string').flatMap(it => [it, ...nodesOf(it.slice(2))]);

await test('Markdown: parts of lines', () => {
  equal(inlineOf('a `b*c*` **d `e`** *f* \\* [g `h`](i.md#j) <k>'),
    ['a ', ['code', {}, 'b*c*'], ' ', ['strong', {}, 'd ', ['code', {}, 'e']], ' ', ['em', {}, 'f'], ' ', '*', ' ', ['a', {href: 'i.md#j'}, 'g ', ['code', {}, 'h']], ' <k>']);
  equal(inlineOf('5 * 3 * 2 and ``a`b``'), ['5 * 3 * 2 and ', ['code', {}, 'a`b']]);
});
await test('Markdown: blocks', () => {
  equal(treeOf('# A `b`, c\n\ntext\nmore\n\n- one\n  two\n- three\n\n```\n# code\n```\n| h | i |\n|---|---|\n| `a\\|b` | |\n# A b, c'), [
    ['h1', {id: 'a-b-c'}, 'A ', ['code', {}, 'b'], ', c'], ['p', {}, 'text\nmore'], ['ul', {}, ['li', {}, 'one\ntwo'], ['li', {}, 'three']],
    ['pre', {}, ['code', {}, '# code']],
    ['table', {}, ['thead', {}, ['tr', {}, ['th', {scope: 'col'}, 'h'], ['th', {scope: 'col'}, 'i']]],
      ['tbody', {}, ['tr', {}, ['td', {}, ['code', {}, 'a|b']], ['td', {}]]]],
    ['h1', {id: 'a-b-c-1'}, 'A b, c']]);
  equal(treeOf('1. a\n\n   b\n\n2. c\n\nd'), [['ol', {}, ['li', {}, 'a', ['p', {}, 'b']], ['li', {}, 'c']], ['p', {}, 'd']]);
});
await test('Markdown: HTML stays text', () => {
  equal(treeOf('<img src=x onerror=alert(1)>\n<b>'), [['p', {}, '<img src=x onerror=alert(1)>\n<b>']]);
});
await test('the manual: each link between pages leads to a heading', () => {
  const wrong = Object.entries(pages).flatMap(([page, nodes]) => nodesOf(nodes).filter(([tag]) => tag === 'a').map(([, {href}]) => href).filter(href => {
    const [file, anchor] = href.split('#'), there = pages[file || page];
    return (file === '' || /^[\w-]+\.md$/.test(file)) && !(there && (!anchor || there.some(it => it[1].id === anchor)));
  }).map(href => `${page}: ${href}`));
  equal(wrong, []);
});
await test('the manual: no mark is left in its text', () => {
  const left = Object.entries(pages).flatMap(([page, nodes]) => nodesOf(nodes).filter(([tag]) => ['p', 'li', 'td'].includes(tag)).map(it =>
    it.slice(2).filter(part => typeof part === 'string').join('')).filter(it => /\]\(|\*\*|^\|/.test(it)).map(it => `${page}: ${it}`));
  equal(left, []);
});
await test('the manual: programs are recognised, and outputs are not', () => {
  equal([' LDA #1\n RTS\n', '* A\nL INX ; x\n\n BNE L\n', 'N EQU 5\n LDA #N'].map(isProgram), [true, true, true]);
  equal(['HELLO\nA', 'A=C1 X=00', '300:A9 C1', './a2 run f.s', 'N EQU 5', '', '0300- A9 C1', 'case prints\nstop RETURNED'].map(isProgram), Array(8).fill(false));
});
await test('cases of tests: keys, limits and calls', () => {
  const [one, two, three] = casesIn('; all\nlimit 500\ncase one\nkeys  A\\r\nstop RETURNED\ncase two\r\nlimit 9\r\ncall DOUBLE A=15 RESULT=00 X=07\ncase  three  ');
  equal(one, {name: 'one', line: 3, keys: ' A\\r', limit: 500, call: null});
  equal([two.limit, three.name, three.limit], [9, 'three', 500]);
  equal(linesBefore(one), []);
  equal(linesBefore(two), [' ORG $BF00', ' LDA #$00', ' STA RESULT', ' LDA #$15', ' LDX #$07', ' JSR DOUBLE', ' RTS', ' ORG $300']);
  equal(casesIn('stop RETURNED\nkeys Q').map(it => it.keys), ['Q']);
});
await test('records of keys', () => {
  equal(sizeOf('402 48\n733 49\n951 0D\n2044 END\n'), {keys: 3, steps: 2044});
  equal(['0 END', '', 'END', '5 4\n9 END', '<b>'].map(it => sizeOf(it)?.keys ?? null), [0, null, null, null, null]);
});
await test('instructions of a trace: their addresses, bytes and words', () => {
  const rows = ['030C-   20 11 03   JSR   $0311    A=01 X=03 Y=00 P=30 S=F8 PC=0311 STEPS=5 CYCLES=19',
    '0311-   8A         TXA            A=03 X=03 Y=00 P=30 S=F8 PC=0312 STEPS=6 CYCLES=21', 'FDF0-              COUT1          A=C1 X=01 Y=00 P=B0 S=F7 PC=0318 STEPS=43 CYCLES=175',
    '0313-   0A         ASL   A        A=C1 X=03 Y=00 P=B0 S=F7 PC=0315 STEPS=8 CYCLES=26', 'STOP LIMIT', ''];
  equal([...instructionsIn(rows.join('\n'))], [[0x30c, {bytes: [0x20, 0x11, 3], words: 'JSR $0311'}], [0x311, {bytes: [0x8a], words: 'TXA'}], [0x313, {bytes: [10], words: 'ASL A'}]]);
});
await test('the stack: the bytes of a call belong together', () => {
  const ram = new Uint8Array(512), writers = {0x1fc: 7, 0x1fd: 7, 0x1fb: 9, 0x1fa: 9, 0x1f9: 10};
  ram.set([1, 2, 3, 4, 5], 0x1f9);
  const film = {first: 0, ram, REG: {s: [0xf8]}, find: address => writers[address] ?? 0};
  equal(entriesOf(film, 0), [{address: 0x1f9, bytes: [1], by: 10}, {address: 0x1fa, bytes: [2, 3], by: 9}, {address: 0x1fc, bytes: [4, 5], by: 7},
    {address: 0x1fe, bytes: [0], by: 0}, {address: 0x1ff, bytes: [0], by: 0}]);
});
await test('sound: a tone of 1,000 Hz has 1,000 waves a second, and silence is silent', () => {
  const touches = Array.from({length: 2000}, (_, at) => at * 1022727 / 2000), samples = samplesOf(touches, 44100, 1);
  const rises = samples.filter((it, at) => at > 0 && samples[at - 1] < 0 && it >= 0).length;
  equal([samples.length, Math.abs(rises - 1000) <= 2, Math.max(...samples) < 1], [44100, true, true]);
  equal(Math.max(...samplesOf([], 44100, 1).map(Math.abs)) < 1e-6, true);
});
await test('sound: a source plays its samples at the rate of where it leads', () => {
  class Context {
    sampleRate = 48000;
    createBuffer(channels, length, rate) { return {size: [channels, length, rate], copyToChannel(samples, channel) { this.copied = [[...samples], channel]; }}; }
    createBufferSource() { return {connect(to) { this.to = to; }}; }
  }
  const out = {context: new Context()}, {buffer, to} = sourceOf(new Float32Array([0.5, -0.25]), out);
  equal([buffer.size, buffer.copied, to === out], [[1, 2, 48000], [[0.5, -0.25], 0], true]);
});
// What is heard of reports, each a list of cycles and the second at which it comes.
function heard(reports, pace, rate) {
  const voice = new Voice(rate), sound = new Float32Array(5 * rate), starts = [];
  for (const {cycles, now} of reports) {
    const piece = voice.take({pace, cycles}, now);
    if (!piece) continue;
    starts.push(piece.start);
    equal(piece.start >= now * rate, true);
    for (const [at, samples] of [[piece.start, piece.samples], [piece.start + piece.samples.length, piece.tail]]) sound.fill(0, at).set(samples, at);
  }
  return {sound, starts};
}
// A speaker that moves each so many cycles for so many seconds, in reports that come so many seconds after their moves.
function reportsOf(between, seconds, pace, delays) {
  const reports = [];
  let cycle = 0;
  for (let at = 0; at * 0.034 < seconds; ++at) {
    const cycles = [];
    for (; cycle < (at + 1) * 0.034 * pace; cycle += between) cycles.push(Math.round(cycle));
    reports.push({cycles, now: 1 + (at + 1) * 0.034 + delays(at)});
  }
  return reports;
}
// How often the sound jumps, within one or two samples, as it does when the speaker moves; otherwise the cone only goes back slowly.
function jumps(sound) {
  const jumpsAt = at => Math.abs(sound[at] - sound[at - 1]) > 0.002;
  return sound.filter((_, at) => jumpsAt(at) && !jumpsAt(at - 1)).length;
}

await test('sound: the report of a live session is read, and other strings are not', () => {
  equal(['6502;1022727;5 9 4000000000', '6502;1000;7', '6502;1;', '0;title', '6502;1;2 x', ''].map(reportIn),
    [{pace: 1022727, cycles: [5, 9, 4000000000]}, {pace: 1000, cycles: [7]}, null, null, null, null]);
});
await test('sound: a live beep of 1,000 Hz is a steady tone, whenever its reports come', () => {
  const pace = 1022727, reports = reportsOf(pace / 2000, 3, pace, at => 0.04 * Math.abs(Math.sin(at))), {sound, starts} = heard(reports, pace, 48000);
  const all = reports.flatMap(it => it.cycles), origin = (reports[0].now + 0.1) * 48000 - reports[0].cycles.at(-1) * 48000 / pace;
  const wanted = new Cone(48000).samples(all.map(it => origin + it * 48000 / pace), starts[0], 3 * 48000);
  equal(wanted.every((it, at) => Math.abs(it - sound[starts[0] + at]) < 1e-6), true);
  equal([starts.length, sound.subarray(0, starts[0]).every(it => it === 0), sound.subarray(-100).every(it => it === 0)], [reports.length, true, true]);
});
await test('sound: each move is heard once, also after a wait, a late report, a step back and another pace', () => {
  const click = (cycle, now) => ({cycles: [cycle], now});
  for (const reports of [[click(1000, 1), click(1001, 3)], [click(90000, 1), click(100, 1.05), click(2000, 1.1)], [click(0, 1), click(30000, 1.3), click(60000, 1.31)]]) {
    equal(jumps(heard(reports, 1022727, 44100).sound), reports.length);
  }
  const late = reportsOf(5000, 1, 1022727, at => at === 9 ? 0.2 : at === 10 ? 0.17 : 0), {sound} = heard(late, 1022727, 44100);
  equal(jumps(sound), late.flatMap(it => it.cycles).length);
  const voice = new Voice(44100), pieces = [voice.take({pace: 1022727, cycles: [5000]}, 1), voice.take({pace: 2045454, cycles: [9000, 9500]}, 1.03)];
  equal(pieces[1].start, pieces[0].start + pieces[0].samples.length);
});
await test('sound: reports that come much too soon are left out until there is time for them', () => {
  const voice = new Voice(44100), taken = Array.from({length: 30}, (_, at) => voice.take({pace: 1022727, cycles: [at * 34000, at * 34000 + 17000]}, 1 + at / 1000));
  equal([taken[0] !== null, taken.includes(null), voice.take({pace: 1022727, cycles: [2000000]}, 2) !== null], [true, true, true]);
});
await test('the clock of a session goes ahead at a key, never further, and then is right again', async () => {
  const clock = new Clock(), isRight = () => { const [before, now, after] = [performance.now(), clock.now, performance.now()]; return before <= now && now <= after; };
  equal(isRight(), true);
  clock.goAhead(40);
  const ahead = clock.now;
  clock.goAhead(40);
  equal([ahead > performance.now(), clock.now >= ahead, clock.now <= performance.now() + 40], [true, true, true]);
  await new Promise(done => setTimeout(done, 80));
  equal(isRight(), true);
});
await test('links hold a program with all that belongs to it', async () => {
  const program = {name: 'ä', text: ' RTS\n', keys: 'A', free: true, want: 'case a', session: '1 END\n'}, fragment = await fragmentOf(program);
  equal(await programIn(fragment), program);
  const cut = await Promise.all([fragment.slice(0, -4), '#p=', '#p=%', `#p=${'A'.repeat(MOST_LINK)}`].map(it => programIn(it).then(() => 'opened', error => error.message.length > 20)));
  equal(cut, [true, true, true, true]);
});
await test('the reader of films and the script of the page are scripts', () => {
  for (const it of [readerOf(at('../../crates/a2_film/src/viewer.rt')), inlined(at('../../page/app/main.mjs'))]) new Function(it);
});
await test('a fix is written if its words are a new text', () => {
  // The line, the marked characters, the fix, and the line after it.
  const fixed = [
    [' BNE LOPO ; back', 5, 4, 'did you mean LOOP?', ' BNE LOOP ; back'],
    ['L1 BGE DONE  ; "x;y"', 3, 3, 'write  BCS DONE', 'L1 BCS DONE  ; "x;y"'],
    [' .TEXT "A;B" ; two', 1, 5, 'write  ASC "A;B"', ' ASC "A;B" ; two'],
    ['.org $300 ; one', 0, 4, 'write  ORG $300', ' ORG $300 ; one'],
    [' LDA #0x4F', 6, 4, 'write $4F', ' LDA #$4F'],
    ['DONE: RTS', 0, 5, 'write DONE', 'DONE RTS'],
    ['COUT = $FDED ; prints', 5, 1, 'write COUT EQU $FDED', 'COUT EQU $FDED ; prints'],
    [' STA [$10],Y', 5, 1, 'use ( and )', ' STA ($10),Y'],
    [' LDA /COUT', 5, 1, 'use > instead', ' LDA >COUT'],
  ];
  equal(fixed.map(([line, from, width, fix]) => { const {text, ...it} = changeOf({line: 1, from, width, fix}, [line]); return line.slice(0, it.from) + text + line.slice(it.from + it.width); }), fixed.map(it => it[4]));
  equal(changeOf({line: 3, from: 5, width: 4, fix: 'add the line COUT EQU $FDED'}, ['', '', ' JSR COUT']), {line: 1, from: 0, width: 0, text: 'COUT    EQU $FDED\n'});
  const words = ['write  CLC, then in the next line  ADC #5', 'write  RTS to end the program, or  BRK', 'write  PHA, which pushes A', 'use another name, such as ACC', 'write one character, as in #"A"'];
  equal(words.map(fix => changeOf({line: 1, from: 1, width: 3, fix}, [' ADD #5'])), words.map(() => undefined));
});
finish();
