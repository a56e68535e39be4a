// Light or dark colours: those of the system, until the user chooses.
import {byId} from './dom.mjs';

const KEY = 'a2.theme';

function stored() {
  try { return localStorage.getItem(KEY); } catch { return null; }
}

function show(theme) {
  document.documentElement.dataset.theme = theme;
  byId('theme').setAttribute('aria-pressed', String(theme === 'dark'));
}

/** Shows the colours, and lets the button change them. */
export function begin() {
  const system = matchMedia('(prefers-color-scheme: dark)'), ofSystem = () => system.matches ? 'dark' : 'light';
  show(stored() ?? ofSystem());
  system.onchange = () => { if (!stored()) show(ofSystem()); };
  byId('theme').onclick = () => {
    const theme = document.documentElement.dataset.theme === 'dark' ? 'light' : 'dark';
    show(theme);
    try { localStorage.setItem(KEY, theme); } catch { /* The choice lasts as long as the page. */ }
  };
}
