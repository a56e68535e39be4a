// Links that hold a whole program, in the part after `#`, which no browser sends to a server. It is `p=` and base64url of raw DEFLATE of
// JSON. A link may come from anyone: its sizes are limited, and what is in it is only ever text.

const MARK = '#p=', MOST_NAME = 80, MOST_KEYS = 10000;

/** The longest fragment of a link. */
export const MOST_LINK = 400000;

/** The longest text that is opened, in bytes: four times what the assembler takes, and what a browser still edits without delay. */
export const MOST_TEXT = 1 << 18;

/** Why a link or a file cannot be opened, in words for the user. */
export class Refused extends Error {}

/** Whether an address holds a program. */
export function holdsProgram(hash) {
  return hash.startsWith(MARK);
}

async function through(bytes, stream, most) {
  const pieces = [], reader = new Blob([bytes]).stream().pipeThrough(stream).getReader();
  let length = 0;
  for (let piece; !(piece = await reader.read()).done;) {
    length += piece.value.length;
    if (length > most) {
      reader.cancel();
      throw new Refused('This link holds more than a program can have. It was not opened.');
    }
    pieces.push(piece.value);
  }
  return new Blob(pieces).arrayBuffer();
}

/** Returns the fragment of a link. @param {{name: string} & import('./store.mjs').Kept} program */
export async function fragmentOf({name, text, keys, free, want, session}) {
  const json = new TextEncoder().encode(JSON.stringify({name, text, keys, free, want, session}));
  const packed = new Uint8Array(await through(json, new CompressionStream('deflate-raw'), Infinity));
  const base64 = btoa(Array.from(packed, it => String.fromCharCode(it)).join(''));
  return MARK + base64.replaceAll('+', '-').replaceAll('/', '_').replace(/=+$/, '');
}

/** Returns the program that a value from elsewhere is, or throws an error. */
export function programFrom({name, text, keys = '', free = false, want = '', session = ''}) {
  const isText = it => typeof it === 'string' && it.length <= MOST_TEXT && !it.includes('\0');
  if (![name, text, keys, want, session].every(isText) || keys.length > MOST_KEYS) throw new Error('not a program');
  return {name: name.slice(0, MOST_NAME), text, keys, free: free === true, want, session};
}

/** Returns the program of a link. @param {string} hash */
export async function programIn(hash) {
  const broken = new Refused('This link is damaged: a part of it may be missing. Nothing was changed.');
  if (hash.length > MOST_LINK) throw new Refused('This link is too long to hold a program. It was not opened.');
  try {
    const packed = Uint8Array.from(atob(hash.slice(MARK.length).replaceAll('-', '+').replaceAll('_', '/')), it => it.charCodeAt(0));
    const json = new TextDecoder('utf-8', {fatal: true}).decode(await through(packed, new DecompressionStream('deflate-raw'), 2 * MOST_TEXT));
    return programFrom(JSON.parse(json));
  } catch (error) {
    throw error instanceof Refused ? error : broken;
  }
}
