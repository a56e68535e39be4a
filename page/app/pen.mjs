// Draws characters and blocks on a canvas as the machine shows them. A cell has 7 by 8 dots, each drawn as 2 by 2.
import {block} from './dom.mjs';

export const ROWS = 24;
export const COLUMNS = 40;
export const DOT = 2;
export const WIDTH = 7 * DOT;
export const HEIGHT = 8 * DOT;

/** The colours by their numbers in colours.txt: 0 to 15 are those of lo-res. */
export const COLOURS = JSON.parse(block('colours'));

const LIGHT = COLOURS[16], DARK = COLOURS[0];

/** The shapes of 64 characters; each is 8 rows of 7 dots, `#` or `.`. (font.txt) */
const SHAPES = JSON.parse(block('font'));

// Draws all characters beside each other, and below them all inverse characters.
function drawnShapes() {
  const canvas = new OffscreenCanvas(SHAPES.length * WIDTH, 2 * HEIGHT), context = canvas.getContext('2d');
  for (const [row, paper, ink] of [[0, DARK, LIGHT], [1, LIGHT, DARK]]) {
    context.fillStyle = paper;
    context.fillRect(0, row * HEIGHT, canvas.width, HEIGHT);
    context.fillStyle = ink;
    SHAPES.forEach((dots, at) => dots.forEach((line, down) => [...line].forEach((dot, across) => {
      if (dot === '#') context.fillRect(at * WIDTH + DOT * across, row * HEIGHT + DOT * down, DOT, DOT);
    })));
  }
  return canvas;
}

let shapes = null;

export class Pen {
  /** @param {HTMLCanvasElement} canvas */
  constructor(canvas) {
    [canvas.width, canvas.height] = [COLUMNS * WIDTH, ROWS * HEIGHT];
    this.context = canvas.getContext('2d', {alpha: false});
  }

  /** Makes all dark. */
  clear() {
    this.fill(DARK, 0, 0, COLUMNS * WIDTH, ROWS * HEIGHT);
  }

  fill(colour, x, y, width, height) {
    this.context.fillStyle = colour;
    this.context.fillRect(x, y, width, height);
  }

  /** Draws the character of these six bits. */
  character(row, column, bits, isInverse) {
    shapes ??= drawnShapes();
    this.context.drawImage(shapes, bits * WIDTH, isInverse ? HEIGHT : 0, WIDTH, HEIGHT, column * WIDTH, row * HEIGHT, WIDTH, HEIGHT);
  }

  /** Draws two blocks, one above the other. */
  blocks(row, column, above, below) {
    this.fill(above, column * WIDTH, row * HEIGHT, WIDTH, HEIGHT / 2);
    this.fill(below, column * WIDTH, row * HEIGHT + HEIGHT / 2, WIDTH, HEIGHT / 2);
  }

  /** Draws a frame around a cell. */
  frame(row, column, colour) {
    this.context.strokeStyle = colour;
    this.context.lineWidth = 1;
    this.context.strokeRect(column * WIDTH + .5, row * HEIGHT + .5, WIDTH - 1, HEIGHT - 1);
  }
}
