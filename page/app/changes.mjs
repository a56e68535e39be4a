// Says which step changed a register or a byte, with buttons that go there.
import {byId, grouped, make} from './dom.mjs';

const button = (text, onclick) => make('button', {type: 'button', onclick}, text);

/**
 * Shows the changes of something near a step of a film.
 * @param {object} film
 * @param {number} at
 * @param {string | number | null} what A register, an address, or nothing.
 * @param {(step: number) => void} go Goes to a step of the run.
 * @param {(what: string | number) => void} searchBack Searches in the steps before this film.
 */
export function showChanges(film, at, what, go, searchBack) {
  if (what === null) return byId('who').replaceChildren();
  const last = film.find(what, -1, at), next = film.find(what, 1, at + 1), isNow = at > 0 && last === at;
  const earlier = isNow ? film.find(what, -1, at - 1) : last;
  const to = (text, index) => button(`${text} (step ${grouped(film.first + index)})`, () => go(film.first + index));
  const says = isNow ? 'this step changed it.' : last > 0 ? `last changed by ${film.said(last)}.` :
    film.first > 0 ? 'not changed lately.' : 'no step before this one changed it.';
  const parts = [make('span', {}, make('b', {}, typeof what === 'string' ? what : film.nm(what)), `: ${says}`)];
  if (earlier > 0) parts.push(to(isNow ? 'The change before' : 'Go to that step', earlier));
  else if (film.first > 0) parts.push(button('Search further back', () => searchBack(what)));
  if (next > 0) parts.push(to('Next change', next));
  byId('who').replaceChildren(...parts);
}
