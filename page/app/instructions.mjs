// The instructions of a run, with their addresses and bytes, as `a2lab trace` prints them.
import {hex} from './dom.mjs';

// A row of a trace begins with the address, one to three bytes, and the instruction; the registers follow.
const ROW = /^([0-9A-F]{4})- +((?:[0-9A-F]{2} ?){1,3}) +(\S.*?) +A=/gm;
// So many steps are traced around the one that is asked for.
const BEFORE = 200, STEPS = 1200;

/** Returns the instructions in a trace: their bytes and words by their addresses. @returns {Map<number, {bytes: number[], words: string}>} */
export function instructionsIn(trace) {
  return new Map([...trace.matchAll(ROW)].map(([, address, digits, words]) =>
    [parseInt(address, 16), {bytes: digits.trim().split(' ').map(it => parseInt(it, 16)), words: words.replace(/ +/g, ' ')}]));
}

const digitsOf = bytes => bytes.map(it => hex(it)).join(' ');

export class Instructions {
  #known = new Map();
  #traced = [];

  /** @param {import('./runs.mjs').Run | import('./runs.mjs').FilmedRun} run */
  constructor(run) {
    this.run = run;
  }

  /**
   * Returns the address, the bytes and the instruction at an address, at the present step of a film. The instruction is left out if it is not
   * known yet, and all is left out if there is no instruction.
   */
  at(film, address) {
    const {ram} = film, known = this.#known.get(address), isThere = known?.bytes.every((byte, index) => ram[address + index] === byte);
    if (isThere) return `${hex(address, 4)}- ${digitsOf(known.bytes)} ${known.words}`;
    const statement = film.head.list.find(it => it[1] === address && it[2]);
    return statement ? `${hex(address, 4)}- ${digitsOf([...ram.subarray(address, address + statement[2].length / 2)])}` : '';
  }

  /** Makes known the instructions of the steps around this one. Returns whether it had to ask for them. @param {number} step */
  async reach(step) {
    if (!this.run.trace || this.#traced.some(([from, to]) => step >= from && step < to)) return false;
    const from = Math.max(0, step - BEFORE), trace = await this.run.trace(from, STEPS);
    this.#traced.push([from, from + STEPS]);
    for (const [address, it] of instructionsIn(trace)) this.#known.set(address, it);
    return true;
  }
}
