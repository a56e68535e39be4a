// Compares the sentences of a film with those that are written here: node sentences.mjs A2LAB ROOM. The film is that of the source
// below, in which the comment of each instruction is the sentence of the first step that executes it. No browser is needed: the page's
// script runs by itself, with a document that shows nothing. The last line is 'N passed, M failed', with one for each sentence.
import {execFileSync} from 'node:child_process';
import {writeFileSync} from 'node:fs';
import {join} from 'node:path';

const SOURCE = `
COUNT EQU $06
 LDA #0      ; A stays $00; Z set
 LDX #2      ; X becomes $02; Z cleared
 STX COUNT   ; $0006 (COUNT) becomes $02 (was $00)
 STX COUNT   ; $0006 (COUNT) becomes $02 (was $02)
ADD CLC      ; C stays 0
 ADC COUNT   ; reads $0006 (COUNT), which holds $02; A becomes $02 = $00 + $02 + carry 0
 DEX         ; X becomes $01
 BNE ADD     ; Z is 0, so the branch is taken, to line 6 (ADD)
 CMP #5      ; A is compared: $04 < $05; N set, Z cleared
 CMP #4      ; A is compared: $04 = $04; N cleared, Z set, C set
 CMP #3      ; A is compared: $04 > $03; Z cleared
 SBC #1      ; A becomes $03 = $04 - $01 - borrow 0
 BCC ADD     ; C is 1, so the branch is not taken
 CLC         ; C cleared
 SBC #1      ; A becomes $01 = $03 - $01 - borrow 1; C set
 JSR ROUTINE ; calls line 22 (ROUTINE); pushes $031D, the address for the return
 NOP         ; only PC changes
 LDA #"A"    ; A becomes $C1; N set
 JSR $FDED   ; calls COUT; pushes $0323, the address for the return
 RTS         ; returns; this ends the run
ROUTINE RTS  ; returns to line 18
`.slice(1);

const [a2lab, room] = process.argv.slice(2), file = join(room, 'sentences.s');
writeFileSync(file, SOURCE);
const page = execFileSync(a2lab, ['film', file], {encoding: 'latin1'});
const tag = '<script type="text/plain" id="film">', from = page.indexOf(tag) + tag.length;
const data = page.slice(from, page.indexOf('</script>', from));
const script = page.slice(page.indexOf('"use strict";'), page.indexOf('// ---- the screen'));
// Whatever the script asks of it, it is there, and does nothing.
const nothing = new Proxy(() => nothing, {get: (_, name) => name === Symbol.toPrimitive ? () => '' : name === Symbol.iterator ? [][Symbol.iterator] : nothing, set: () => true});
const shown = new Proxy({}, {get: (_, name) => name === 'getElementById' ? id => id === 'film' ? {textContent: data} : nothing : nothing});
const film = new Function('document', 'window', 'location', script + '\nreturn {N,PC,LINE,words,seek};')(shown, nothing, nothing);

const plain = text => text.replace(/&#(\d+);/g, (_, code) => String.fromCharCode(code));
const lines = SOURCE.split('\n'), seen = new Set;
let passed = 0, failed = 0;
for (let k = 1; k <= film.N; k++) {
  const line = film.LINE[film.PC[k - 1]];
  if (!line || seen.has(line)) continue;
  seen.add(line);
  film.seek(k);
  const is = plain(film.words(k)), wanted = lines[line - 1].split(' ; ')[1];
  if (is === wanted) passed++; else { failed++; console.log(`FAILED: line ${line}: ${is}, and not ${wanted}`); }
}
console.log(`${passed} passed, ${failed} failed`);
process.exit(failed ? 1 : 0);
