// An exercise as a page of its own: a copy of this page, with a program and its tests in it. A teacher saves it, and pupils open it.
import {block, byId, make} from './dom.mjs';
import {programFrom} from './link.mjs';

const NAME = 'exercise';

// The page as it was loaded: nothing has been shown in it yet.
const loaded = document.documentElement.cloneNode(true);

/**
 * Returns the text of a page with an exercise in it.
 * @param {{name: string} & import('./store.mjs').Kept} program
 */
export function pageOf({name, text, keys, free, want}) {
  const page = loaded.cloneNode(true), id = `data-${NAME}`;
  // (No browser runs this block. A `<` in it would end it.)
  const data = make('script', {type: 'application/json', id}, JSON.stringify({name, text, keys, free, want}).replaceAll('<', '\\u003c'));
  page.querySelector(`#${id}`)?.remove();
  page.querySelector('#data-examples').before(data);
  page.querySelector('title').textContent = `${name} · a2`;
  return `<!DOCTYPE html>\n${page.outerHTML}\n`;
}

/** Returns the exercise that is in this page, if there is one. @returns {({name: string} & import('./store.mjs').Kept) | null} */
export function exerciseHere() {
  return byId(`data-${NAME}`) ? programFrom(JSON.parse(block(NAME))) : null;
}
