// Reads the files of crates/a2_picture/data: the shapes of the characters, and the colours.
import fs from 'node:fs';

/** Returns the 64 shapes, each a list of 8 rows of 7 dots. @param {string} file */
export function shapesOf(file) {
  const shapes = fs.readFileSync(file, 'utf8').split(/^= .*\n/m).slice(1).map(it => it.trim().split('\n'));
  const isWhole = shapes.length === 64 && shapes.every(it => it.length === 8 && it.every(row => /^[.#]{7}$/.test(row)));
  if (!isWhole) throw new Error(`${file}: a font has 64 shapes of 8 rows of 7 dots`);
  return shapes;
}

/** Returns the colours in the order of their numbers, such as `#FF6600`. @param {string} file */
export function coloursOf(file) {
  const rows = [...fs.readFileSync(file, 'utf8').matchAll(/^(\d+) ([0-9A-F]{6}) .+$/gm)];
  if (!rows.length || rows.some(([, number], at) => +number !== at)) throw new Error(`${file}: the colours are not numbered from 0`);
  return rows.map(([, , value]) => `#${value}`);
}
