// Makes samples of the sound of a speaker that has two sides.

/** The cycles of a second. */
export const CLOCK = 1022727;

const LOUDNESS = 0.25;
// The speaker's cone goes back to its middle: in each second, so many times the way that is left.
const RETURN = 60;

/** The cone of the speaker. Times are counted in samples. */
export class Cone {
  #side = -1;
  #before = -1;
  #sample = 0;

  /** @param {number} rate Samples in a second. */
  constructor(rate) {
    this.keeps = 1 - RETURN / rate;
  }

  /** Returns a cone that is where this one is. */
  copy() {
    const copy = new Cone(1);
    [copy.keeps, copy.#side, copy.#before, copy.#sample] = [this.keeps, this.#side, this.#before, this.#sample];
    return copy;
  }

  /**
   * Returns the next samples.
   * @param {number[]} moves The times at which the cone goes to its other side, in order. Those after the samples do not count.
   * @param {number} start The time of the first sample.
   * @param {number} count
   */
  samples(moves, start, count) {
    const samples = new Float32Array(count);
    let next = 0;
    for (let at = 0; at < count; ++at) {
      // A sample has the mean of the two sides during its time.
      const end = start + at + 1;
      let from = end - 1, mean = 0;
      for (; next < moves.length && moves[next] < end; ++next) {
        const time = Math.max(moves[next], from);
        mean += this.#side * (time - from);
        [from, this.#side] = [time, -this.#side];
      }
      mean += this.#side * (end - from);
      this.#sample = this.keeps * (this.#sample + mean - this.#before);
      this.#before = mean;
      samples[at] = LOUDNESS * this.#sample;
    }
    return samples;
  }
}

/**
 * Returns the samples of a sound.
 * @param {number[]} touches The cycles at which the speaker moves, in order.
 * @param {number} rate Samples in a second.
 * @param {number} seconds
 */
export function samplesOf(touches, rate, seconds) {
  return new Cone(rate).samples(touches.map(it => it * rate / CLOCK), 0, Math.ceil(seconds * rate));
}

/**
 * Returns a source that plays these samples. It is connected to `out`, and its caller starts it.
 * @param {Float32Array} samples At least one, at the rate of the context of `out`.
 * @param {AudioNode} out
 * @returns {AudioBufferSourceNode}
 */
export function sourceOf(samples, out) {
  const {context} = out, buffer = context.createBuffer(1, samples.length, context.sampleRate), source = context.createBufferSource();
  buffer.copyToChannel(samples, 0);
  source.buffer = buffer;
  source.connect(out);
  return source;
}
