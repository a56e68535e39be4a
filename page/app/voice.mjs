// Decides which samples of a live session are played at which time. Times are counted in samples of the sound's own clock.
import {Cone} from './samples.mjs';

// A move of the speaker is heard so many seconds after it was reported, so that the next report comes before the samples end.
const DELAY = 0.1;
// Samples are played no sooner than so many seconds from now, and none are added after so many.
const SOONEST = 0.01, FARTHEST = 0.3;
// After the last move that is known, the cone goes back to its middle for so many seconds.
const TAIL = 0.15;

/**
 * What is played: from `start` on these samples, in place of all that was to be played from there on; then the tail, until other samples
 * take its place.
 * @typedef {{start: number, samples: Float32Array, tail: Float32Array}} Piece
 */

/** Returns the report in a control string of `play --speaker`, or null if it is another string. @returns {{pace: number, cycles: number[]} | null} */
export function reportIn(text) {
  const found = /^6502;(\d+);(\d+(?: \d+)*)$/.exec(text);
  return found && {pace: Number(found[1]), cycles: found[2].split(' ').map(Number)};
}

export class Voice {
  #cone;
  // The next sample after those that are played already, without the tail, and the moves from there on.
  #end = 0;
  #moves = [];
  // The last report: its pace, its last cycle, and the time of cycle 0.
  #pace = 0;
  #cycle = 0;
  #origin = 0;

  /** @param {number} rate Samples in a second. */
  constructor(rate) {
    this.rate = rate;
    this.#cone = new Cone(rate);
  }

  /**
   * Takes a report that comes now. Returns what is to be played, or null if more than enough is played already.
   * @param {{pace: number, cycles: number[]}} report
   * @param {number} now In seconds.
   * @returns {Piece | null}
   */
  take({pace, cycles}, now) {
    const soonest = Math.ceil((now + SOONEST) * this.rate), start = Math.max(this.#end, soonest), width = this.rate / pace;
    if (start > soonest + FARTHEST * this.rate) {
      this.#pace = 0;
      return null;
    }
    this.#place(pace, cycles, start, now);
    this.#skip(start);
    const times = cycles.map(it => this.#origin + it * width), end = Math.max(start, Math.floor(times.at(-1)));
    const moves = this.#moves.concat(times), samples = this.#cone.samples(moves, start, end - start);
    this.#end = end;
    this.#moves = moves.filter(it => it >= end);
    return {start, samples, tail: this.#cone.copy().samples(this.#moves, end, Math.ceil(TAIL * this.rate))};
  }

  // Says when these cycles are heard: as long after the last report as they came after its cycles, if that is possible. It is not after the
  // session went back, waited, or changed its pace, nor if it is late: then as soon as they should be.
  #place(pace, cycles, start, now) {
    const width = this.rate / pace, [first, last] = [cycles[0], cycles.at(-1)].map(it => it * width), isNext = pace === this.#pace && cycles[0] > this.#cycle;
    const farthest = start + FARTHEST * this.rate;
    if (!isNext || this.#origin + first < start || this.#origin + last > farthest) this.#origin = Math.max((now + DELAY) * this.rate - last, start - first);
    [this.#pace, this.#cycle] = [pace, cycles.at(-1)];
  }

  // Goes over the samples up to a time: the tail, and then silence.
  #skip(start) {
    const count = Math.min(start - this.#end, Math.ceil(TAIL * this.rate));
    this.#cone.samples(this.#moves, this.#end, count);
    if (count > 0) this.#moves = [];
  }
}
