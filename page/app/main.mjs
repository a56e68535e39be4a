// The page: puts its parts together.
import {Back} from './back.mjs';
import {Checker} from './check.mjs';
import {block, byId} from './dom.mjs';
import {Editor} from './editor.mjs';
import * as exports from './exports.mjs';
import * as help from './help.mjs';
import {Library} from './library.mjs';
import {filmIn} from './film.mjs';
import {Live} from './live.mjs';
import {Manual, holdsPlace} from './manual.mjs';
import {notify} from './notices.mjs';
import {moduleOf} from './programs.mjs';
import {Replay} from './replay.mjs';
import {RunPart} from './run.mjs';
import {Sound} from './sound.mjs';
import {Tabs} from './tabs.mjs';
import {Tests} from './tests.mjs';
import {Tools} from './tools.mjs';
import * as theme from './theme.mjs';

const parts = {};

// What the page cannot do without.
const NEEDED = ['WebAssembly', 'DecompressionStream', 'Worker', 'ResizeObserver'];

function textChanged() {
  parts.library?.changed();
  parts.checker?.textChanged();
  parts.runs?.textChanged();
}

// Runs the program where one sees it: what the page has, or what is asked for instead.
function run(asked) {
  parts.tabs.show('tab-run');
  return parts.runs.run(asked);
}

function showFilm(page) {
  parts.tabs.show('tab-run');
  parts.runs.showFilm(filmIn(page), 'This is the run in which a promise fails.');
}

// Nothing of another program is shown.
function opened() {
  for (const it of [parts.runs, parts.tests]) it.forget();
  parts.sound.stop();
  parts.replay.show();
}

// A program has come with a link or an exercise. Shows the part that is of use for it.
function arrived({want, session}) {
  if (session) parts.tabs.show('tab-live');
  else if (want) parts.tabs.show('tab-tests');
}

function makeParts(editor) {
  const programOf = () => ({name: parts.library.file, text: editor.text}), optionsOf = () => parts.runs.options;
  parts.tabs = new Tabs(document.querySelector('[role=tablist]'), id => { if (id === 'tab-learn') parts.manual.show(); });
  parts.back = new Back(editor);
  parts.runs = new RunPart(programOf, parts.back);
  parts.sound = new Sound(() => parts.back.run);
  parts.live = new Live(programOf, optionsOf);
  parts.replay = new Replay(programOf, parts.live, () => parts.library.changed(), run);
  parts.tests = new Tests(programOf, run);
  parts.tools = new Tools(editor, programOf, optionsOf, showFilm);
  parts.checker = new Checker(editor, () => parts.library.file);
  parts.library = new Library(editor, opened, arrived);
  parts.manual = new Manual((name, text) => show(() => parts.library.add({name, text})), name => show(() => parts.library.openExample(name)));
  help.listen(editor);
  exports.listen(programOf, optionsOf);
}

// Opens a program of the manual. (On a phone the editor is above the manual.)
function show(open) {
  open();
  byId('edit').scrollIntoView({block: 'nearest'});
}

function showPlace() {
  if (!holdsPlace(location.hash)) return;
  parts.tabs.show('tab-learn');
  parts.manual.show(location.hash);
}

function listen() {
  byId('runs').addEventListener('submit', event => { event.preventDefault(); run(); });
  addEventListener('hashchange', showPlace);
  document.addEventListener('keydown', event => {
    if (!(event.ctrlKey || event.metaKey) || event.altKey || event.target.closest('#terminal')) return;
    if (event.key === 'Enter') { event.preventDefault(); run(); }
    if (event.key.toLowerCase() === 's') { event.preventDefault(); parts.library.save(); }
  });
}

function begin() {
  theme.begin();
  parts.editor = new Editor(textChanged);
  makeParts(parts.editor);
  listen();
  byId('version').textContent = block('version');
}

// Begins, and runs the first program that it shows.
async function beginAll() {
  const missing = NEEDED.filter(it => !(it in globalThis));
  if (missing.length > 0) notify(`This browser is too old for this page: it has no ${missing.join(', ')}.`, {kind: 'error'});
  begin();
  await parts.library.begin();
  showPlace();
  await moduleOf('a2lab');
  await parts.runs.run();
  performance.mark('first screen');
}

addEventListener('unhandledrejection', event => notify(`Something in the page failed: ${event.reason?.message ?? event.reason}`, {kind: 'error'}));

/** When the first screen is there; for tests. */
window.ready = beginAll();
window.parts = parts;
