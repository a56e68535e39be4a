// Keeps programs in the browser's storage. Where storage is forbidden or full, nothing is lost: the page says so, and the text stays.
const PROGRAM = 'a2.program.', CURRENT = 'a2.current';

/** What keeping a program came to: it is kept, or there is no room, or the browser keeps nothing for this page. */
export const KEPT = {YES: 'yes', FULL: 'full', FORBIDDEN: 'forbidden'};

// Calls a function that uses the storage. (Even naming it can throw.)
function attempt(call, otherwise) {
  try { return call(localStorage); } catch { return otherwise; }
}

/** The names of all programs, in order. @returns {string[]} */
export function names() {
  const keys = attempt(it => Object.keys(it), []).filter(it => it.startsWith(PROGRAM));
  return keys.map(it => it.slice(PROGRAM.length)).sort((a, b) => a.localeCompare(b, 'en'));
}

/**
 * What is kept of a program: its text, the options of its run, its tests, and the keys of its last live session.
 * @typedef {{text: string, keys: string, free: boolean, want: string, session: string}} Kept
 */

/** @returns {Kept | null} */
export function load(name) {
  const stored = attempt(it => it.getItem(PROGRAM + name), null);
  if (stored === null) return null;
  try {
    const {text, keys, free, want, session} = JSON.parse(stored);
    return {text: String(text ?? ''), keys: String(keys ?? ''), free: free === true, want: String(want ?? ''), session: String(session ?? '')};
  } catch {
    return {text: stored, keys: '', free: false, want: '', session: ''};
  }
}

/** Keeps a program. @param {Kept} kept  @returns {string} One of KEPT. */
export function keep(name, {text, keys, free, want, session}) {
  try {
    localStorage.setItem(PROGRAM + name, JSON.stringify({text, keys, free, want, session}));
    return KEPT.YES;
  } catch (error) {
    return error.name === 'QuotaExceededError' || error.name === 'NS_ERROR_DOM_QUOTA_REACHED' ? KEPT.FULL : KEPT.FORBIDDEN;
  }
}

export function forget(name) {
  attempt(it => it.removeItem(PROGRAM + name));
}

/** The program that was open last. */
export function current() {
  return attempt(it => it.getItem(CURRENT), null);
}

export function setCurrent(name) {
  attempt(it => it.setItem(CURRENT, name));
}

/** Whether the user turned a part of the page on. */
export function isOn(name) {
  return attempt(it => it.getItem(`a2.${name}`), null) === 'on';
}

export function setOn(name, isOn) {
  attempt(it => it.setItem(`a2.${name}`, isOn ? 'on' : 'off'));
}

/** Calls a function with the name of a program that another tab has kept. */
export function onOther(call) {
  addEventListener('storage', event => { if (event.key?.startsWith(PROGRAM)) call(event.key.slice(PROGRAM.length)); });
}
