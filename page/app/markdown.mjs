// Reads the manual's pages, which are Markdown: headings, paragraphs, lists, tables, code, links and emphasis. The result is a tree of
// nodes: a text, or a tag with attributes and nodes. Nothing of a page becomes HTML before it is in such a node.

const INLINE = new RegExp([
  /(`+)(.*?[^`])\1(?!`)/, /!\[([^\]]*)\]\([^)]*\)/, /\[((?:[^[\]`]|`[^`]*`)*)\]\(([^)\s]*)\)/, /\*\*(.+?)\*\*/, /\*([^*\s][^*]*)\*/,
  /<(https?:[^>]*)>/, /\\([!-/:-@[-`{-~])/,
].map(it => it.source).join('|'), 'gs');
const MARKER = /^(-|\d+\.) +/, FENCE = /^```/, HEADING = /^(#{1,6}) +(.*)$/, ROW = /^\|.*\|\s*$/, RULE = /^\|[\s:|-]+\|\s*$/;

/** A node: a text, or its tag, its attributes and its nodes. @typedef {string | [string, object, ...Node[]]} Node */

/** Returns the nodes of a text within a line or paragraph. @param {string} text  @returns {Node[]} */
export function inlineOf(text) {
  const nodes = [];
  let from = 0;
  for (const match of text.matchAll(INLINE)) {
    const [whole, , code, picture, label, target, strong, emphasis, address, escaped] = match;
    if (match.index > from) nodes.push(text.slice(from, match.index));
    from = match.index + whole.length;
    if (code !== undefined) nodes.push(['code', {}, code.replace(/^ (.*[^ ].*) $/s, '$1')]);
    else if (label !== undefined) nodes.push(['a', {href: target}, ...inlineOf(label)]);
    else if (strong !== undefined) nodes.push(['strong', {}, ...inlineOf(strong)]);
    else if (emphasis !== undefined) nodes.push(['em', {}, ...inlineOf(emphasis)]);
    // (The page has no pictures.)
    else if (picture !== undefined) nodes.push(['em', {}, `Picture: ${picture}`]);
    else nodes.push(address ?? escaped);
  }
  if (from < text.length) nodes.push(text.slice(from));
  return nodes;
}

/** Returns the text of a node, without its tags. @param {Node} node */
export function textOf(node) {
  return typeof node === 'string' ? node : node.slice(2).map(textOf).join('');
}

// The name of a heading in links, as code hosts make it.
function slugOf(text) {
  return text.toLowerCase().replace(/[^\p{L}\p{N}\s_-]/gu, '').trim().replace(/\s/g, '-');
}

function fenceAt(lines, at) {
  if (!FENCE.test(lines[at])) return null;
  const found = lines.findIndex((it, index) => index > at && FENCE.test(it)), end = found < 0 ? lines.length : found;
  return [['pre', {}, ['code', {}, lines.slice(at + 1, end).join('\n')]], end + 1];
}

function headingAt(lines, at) {
  const match = HEADING.exec(lines[at]);
  if (!match) return null;
  const nodes = inlineOf(match[2]);
  return [[`h${match[1].length}`, {id: slugOf(nodes.map(textOf).join(''))}, ...nodes], at + 1];
}

function cellsOf(line, tag) {
  const cells = line.trim().slice(1, -1).split(/(?<!\\)\|/);
  return ['tr', {}, ...cells.map(it => [tag, tag === 'th' ? {scope: 'col'} : {}, ...inlineOf(it.replaceAll('\\|', '|').trim())])];
}

function tableAt(lines, at) {
  if (!ROW.test(lines[at]) || !RULE.test(lines[at + 1] ?? '')) return null;
  let end = at + 2;
  while (end < lines.length && ROW.test(lines[end])) end += 1;
  const head = cellsOf(lines[at], 'th'), body = lines.slice(at + 2, end).map(it => cellsOf(it, 'td'));
  return [['table', {}, ...(textOf(head) ? [['thead', {}, head]] : []), ['tbody', {}, ...body]], end];
}

// The lines of a list's item: its own, those that are indented, and those that continue its last paragraph.
function itemEnd(lines, at, width) {
  const isInside = line => line.startsWith(' '.repeat(width));
  let end = at + 1;
  while (end < lines.length) {
    const line = lines[end], isBlank = !line.trim();
    const continues = isBlank ? isInside(lines[end + 1] ?? '') : isInside(line) || lines[end - 1].trim() && !beginsBlock(lines, end);
    if (!continues) break;
    end += 1;
  }
  return end;
}

function listAt(lines, at) {
  const first = MARKER.exec(lines[at]);
  if (!first) return null;
  const items = [];
  for (let marker; (marker = MARKER.exec(lines[at] ?? '')) && (marker[1] === '-') === (first[1] === '-');) {
    const width = marker[0].length, end = itemEnd(lines, at, width);
    const body = [lines[at].slice(width), ...lines.slice(at + 1, end).map(it => it.startsWith(' '.repeat(width)) ? it.slice(width) : it)];
    items.push(['li', {}, ...blocksOf(body).flatMap((it, index) => index === 0 && it[0] === 'p' ? it.slice(2) : [it])]);
    for (at = end; at + 1 < lines.length && !lines[at].trim() && MARKER.test(lines[at + 1]); ++at);
  }
  return [[first[1] === '-' ? 'ul' : 'ol', {}, ...items], at];
}

const BLOCKS = [fenceAt, headingAt, tableAt, listAt];

function beginsBlock(lines, at) {
  return FENCE.test(lines[at]) || HEADING.test(lines[at]) || MARKER.test(lines[at]) || ROW.test(lines[at]);
}

function paragraphAt(lines, at) {
  let end = at + 1;
  while (end < lines.length && lines[end].trim() && !beginsBlock(lines, end)) end += 1;
  return [['p', {}, ...inlineOf(lines.slice(at, end).map(it => it.trim()).join('\n'))], end];
}

function blocksOf(lines) {
  const nodes = [];
  for (let at = 0; at < lines.length;) {
    if (!lines[at].trim()) {
      at += 1;
      continue;
    }
    const [node, next] = BLOCKS.reduce((found, it) => found ?? it(lines, at), null) ?? paragraphAt(lines, at);
    nodes.push(node);
    at = next;
  }
  return nodes;
}

/** Returns the nodes of a page. Headings have an `id`, as in links to them. @param {string} text  @returns {Node[]} */
export function treeOf(text) {
  const nodes = blocksOf(text.split('\n')), seen = new Map();
  for (const [tag, attributes] of nodes) {
    if (!/^h\d$/.test(tag)) continue;
    const count = seen.get(attributes.id) ?? 0;
    seen.set(attributes.id, count + 1);
    if (count > 0) attributes.id += `-${count}`;
  }
  return nodes;
}

const OPERATIONS = new Set(`ADC AND ASL BCC BCS BEQ BIT BMI BNE BPL BRK BVC BVS CLC CLD CLI CLV CMP CPX CPY DEC DEX DEY EOR INC INX INY JMP JSR
  LDA LDX LDY LSR NOP ORA PHA PHP PLA PLP ROL ROR RTI RTS SBC SEC SED SEI STA STX STY TAX TAY TSX TXA TXS TYA ORG EQU DFB DW ASC DS`.split(/\s+/));

/** Whether a block of code is a program, which can be opened: all its lines have the form of a statement or a comment. */
export function isProgram(code) {
  const lines = code.split('\n').filter(it => it.trim() && !/^\s*[;*]/.test(it));
  const operations = lines.map(it => /^(?:[A-Za-z_.]\w*)?(?:\s+([A-Za-z]{2,3})(?=\s|$)|\s*$|\s*;)/.exec(it));
  return operations.every(it => it && (!it[1] || OPERATIONS.has(it[1].toUpperCase()))) && operations.some(it => it?.[1] && it[1] !== 'EQU');
}
