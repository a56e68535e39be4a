// Opens and saves files. Bytes of other programs are opened as the source that a2lab makes of them.
import {byId, grouped, make} from './dom.mjs';
import {MOST_TEXT, Refused} from './link.mjs';
import {Runner} from './programs.mjs';

/** Saves bytes or a text as a file with this name. */
export function save(name, content, type = 'text/plain') {
  const url = URL.createObjectURL(new Blob([content], {type})), anchor = make('a', {href: url, download: name});
  anchor.click();
  setTimeout(() => URL.revokeObjectURL(url), 60000);
}

/** Returns bytes as a text, or null if they are none. */
function asText(bytes) {
  try {
    const text = new TextDecoder('utf-8', {fatal: true}).decode(bytes);
    return /[\0-\x08\x0e-\x1f]/.test(text) ? null : text.replace(/\r\n?/g, '\n');
  } catch {
    return null;
  }
}

// A line of bytes: of the Monitor, Intel HEX or S-records; and another line that can be among them.
const BYTES = /^\*?\s*[0-9A-F]{1,4}[-:]\s*[0-9A-F]{1,2}\b|^\*?\s*:\s*[0-9A-F]{1,2}\b|^:[0-9A-F]{10}|^S[0-9][0-9A-F]{6}/i,
  BESIDE = /^\s*$|^\s*[*;\]]|=|^[0-9A-F.]+[GLST]?\s*$/i;

function isDump(text) {
  const lines = text.split('\n');
  return lines.some(it => BYTES.test(it)) && lines.every(it => BYTES.test(it) || BESIDE.test(it));
}

// The address at the end of a file's name, as in `game-2000.bin`.
const addressIn = name => /[-#@$]([0-9A-F]{3,4})(\.\w+)?$/i.exec(name)?.[1];

/** Returns the source that `a2lab source` makes of bytes. If only their file's name says where they begin, its end is the address. */
async function sourceOf(name, bytes) {
  const runner = new Runner(), of = options => runner.run(['a2lab', 'source', ...options, 'bytes'], {bytes});
  const address = addressIn(name), answers = [await of([])];
  if (answers[0].status !== 0 && address) answers.unshift(await of(['--at', address]));
  const [{status, stdout, stderr}] = answers;
  if (status === 0) return stdout;
  throw new Refused(stderr.includes('--at') && !address
    ? `${name} has bytes, and nothing says at which address they begin. Put the address at the end of its name, as in game-2000.bin, and open it again.`
    : `${name} was not opened. ${stderr.trim()}`);
}

/** Returns the source in a file, or makes one of its bytes. @param {File} file @returns {Promise<string>} */
async function textOf(file) {
  if (file.size > MOST_TEXT) {
    throw new Refused(`${file.name} has ${grouped(file.size)} bytes, and this page opens at most ${grouped(MOST_TEXT)}. It was not opened.`);
  }
  let bytes;
  try {
    bytes = new Uint8Array(await file.arrayBuffer());
  } catch (error) {
    throw new Refused(`${file.name} cannot be read. (${error.message})`);
  }
  const text = asText(bytes);
  return text !== null && !isDump(text) ? text : sourceOf(file.name, bytes);
}

/**
 * Lets the user open files, by the picker and by dropping them on the page.
 * @param {(name: string, text: string) => void} opened
 * @param {(why: string) => void} refused
 */
export function listen(opened, refused) {
  const take = async files => {
    for (const file of files) {
      try { opened(file.name.replace(/\.(s|asm|txt|hex|s19|bin|dos|mon)$/i, ''), await textOf(file)); } catch (error) { refused(error.message); }
    }
  };
  const picker = byId('file'), shade = byId('drop');
  byId('open').onclick = () => picker.click();
  picker.onchange = () => { take([...picker.files]); picker.value = ''; };
  const hasFiles = event => event.dataTransfer?.types.includes('Files');
  addEventListener('dragover', event => { if (hasFiles(event)) { event.preventDefault(); shade.hidden = false; } });
  addEventListener('dragleave', event => { if (!event.relatedTarget) shade.hidden = true; });
  addEventListener('drop', event => {
    shade.hidden = true;
    if (!hasFiles(event)) return;
    event.preventDefault();
    take([...event.dataTransfer.files]);
  });
}
