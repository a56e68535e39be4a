// The part of the page with the manual. Its pages are in a block of data, packed; the address of each is in the fragment after `#learn=`.
import {unpackBytes} from '../host.mjs';
import {block, byId, make} from './dom.mjs';
import {isProgram, textOf, treeOf} from './markdown.mjs';

const MARK = '#learn=', FIRST = 'page', MOST_FOUND = 30;

/** The pages in the order of the list, by groups. Others follow them. */
const GROUPS = {
  'Begin here': ['page', 'basics', 'examples', 'language', 'card'],
  'The machine': ['instructions', 'machine', 'services', 'stops', 'refusals', 'real-machine'],
  'Tools': ['tools', 'check', 'looking-into-a-run', 'film', 'profile', 'class', 'promises', 'proving', 'fmt', 'old-texts'],
  'At a terminal': ['terminal', 'debugger', 'monitor', 'command-line', 'object-lines'],
};

const addressOf = (page, anchor) => `${MARK}${page}${anchor ? `/${anchor}` : ''}`;

/** Whether an address holds a place of the manual. */
export function holdsPlace(hash) {
  return hash.startsWith(MARK);
}

export class Manual {
  #texts = null;
  #shown = '';

  /**
   * @param {(name: string, text: string) => void} openProgram
   * @param {(name: string) => void} openExample
   */
  constructor(openProgram, openExample) {
    Object.assign(this, {openProgram, openExample, article: byId('manual')});
    byId('manual-page').onchange = event => { location.hash = addressOf(event.target.value); };
    byId('manual-find').oninput = event => this.#find(event.target.value);
  }

  /** Shows the place of an address, or the first page if none is shown yet. */
  async show(hash = '') {
    const texts = await this.#load(), [page, anchor] = hash.slice(MARK.length).split('/');
    const name = Object.hasOwn(texts, page) ? page : this.#shown || FIRST;
    if (name !== this.#shown) this.#open(name);
    if (!holdsPlace(hash)) return;
    const place = anchor && byId(`in-${anchor}`);
    (place ?? this.article).scrollIntoView({block: 'start'});
    (place ?? this.article).focus({preventScroll: true});
  }

  async #load() {
    if (this.#texts) return this.#texts;
    const texts = JSON.parse(new TextDecoder().decode(await unpackBytes(block('manual')))), grouped = Object.values(GROUPS).flat();
    this.#texts = texts;
    const all = {...GROUPS, More: Object.keys(texts).filter(it => !grouped.includes(it))};
    byId('manual-page').append(...Object.entries(all).map(([label, names]) => make('optgroup', {label},
      ...names.filter(it => it in texts).map(it => make('option', {value: it}, this.#titleOf(it))))));
    return texts;
  }

  #titleOf(name) {
    return /^# (.*)$/m.exec(this.#texts[name])?.[1] ?? name;
  }

  #open(name) {
    this.#shown = name;
    byId('manual-page').value = name;
    byId('manual-find').value = '';
    this.article.replaceChildren(...treeOf(this.#texts[name]).map(it => this.#element(it)));
  }

  // The element of a node. (A program in code can be opened.)
  #element(node) {
    if (typeof node === 'string') return node;
    const [tag, {id, href, ...attributes}, ...nodes] = node;
    if (href !== undefined) return this.#link(href, nodes);
    const element = make(tag, {...attributes, ...(id ? {id: `in-${id}`, tabindex: -1} : {})}, ...nodes.map(it => this.#element(it)));
    if (tag === 'table') return make('div', {class: 'wide'}, element);
    return tag === 'pre' ? this.#code(element, textOf(node)) : element;
  }

  #link(target, nodes) {
    const [file, anchor] = target.split('#'), parts = nodes.map(it => this.#element(it));
    const page = file === '' ? this.#shown : /^([\w-]+)\.md$/.exec(file)?.[1], example = /examples\/([\w-]+)\.s$/.exec(file)?.[1];
    const isNamed = nodes.length === 1 && nodes[0] === file;
    if (page && page in this.#texts) return make('a', {href: addressOf(page, anchor)}, ...(isNamed ? [this.#titleOf(page)] : parts));
    if (example) return make('button', {type: 'button', title: 'Open this example in the editor', onclick: () => this.openExample(example)}, ...parts);
    // (The page may not use the network, and other files are not in it.)
    return make('span', {title: target}, ...parts);
  }

  #code(element, code) {
    const example = /^(?:\.\/)?a2(?:lab)? (?:run|film|play) .*\bexamples\/([\w-]+)\.s\b/m.exec(code)?.[1];
    const open = isProgram(code) ? () => this.openProgram(this.#shown, `${code}\n`) : example ? () => this.openExample(example) : null;
    if (!open) return element;
    const label = example ? `Open ${example}.s in the editor` : 'Open in the editor';
    return make('div', {class: 'program'}, element, make('button', {type: 'button', onclick: open}, label));
  }

  // Lists the headings under which all words are found.
  #find(text) {
    const words = text.toLowerCase().split(/\s+/).filter(Boolean);
    if (words.length === 0 || text.trim().length < 2) return this.#open(this.#shown);
    const found = Object.entries(this.#texts).flatMap(([page, whole]) => sectionsOf(whole).filter(it => words.every(word => it.text.includes(word)))
      .map(({id, title}) => make('li', {}, make('a', {href: addressOf(page, id), onclick: () => this.#open(page)}, title))));
    const more = found.length - MOST_FOUND;
    this.article.replaceChildren(make('p', {role: 'status'}, found.length === 0 ? 'Nothing in the manual has these words.' : 'These parts of the manual have it:'),
      make('ul', {}, ...found.slice(0, MOST_FOUND)), ...(more > 0 ? [make('p', {}, `and ${more} more`)] : []));
  }
}

// The parts of a page: the title of each, its `id`, and its text in small letters.
function sectionsOf(whole) {
  const sections = [];
  for (const node of treeOf(whole)) {
    if (/^h\d$/.test(node[0])) sections.push({id: node[1].id, title: [sections[0]?.title, textOf(node)].filter(Boolean).join(': '), text: ''});
    if (sections.length > 0) sections.at(-1).text += `${textOf(node).toLowerCase()}\n`;
  }
  return sections;
}
