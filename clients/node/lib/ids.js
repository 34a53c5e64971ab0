"use strict";

const { randomBytes } = require("node:crypto");

const RANDOM_BITS = 80n;
const RANDOM_MAX = 2n ** RANDOM_BITS - 1n;

/** The number of some bytes, the low one first. */
function numberOf(bytes) {
  return BigInt(`0x${Buffer.from(bytes).reverse().toString("hex")}`);
}

/**
 * Makes ids. `now` returns milliseconds since 1970, and `draw` ten random bytes: those of the
 * system if nothing is given.
 */
class Ids {
  #now;
  #draw;
  #millisecond = 0;
  #last = 0n;
  #greatest = RANDOM_MAX; // the last id of this millisecond

  constructor(now = Date.now, draw = () => randomBytes(10)) {
    this.#now = now;
    this.#draw = draw;
  }

  next() {
    const now = this.#now();
    if (now > this.#millisecond) this.#begin(now, numberOf(this.#draw()));
    else if (this.#last < this.#greatest) this.#last += 1n;
    // The random part went past its end: the ids rise into the next millisecond.
    else this.#begin(this.#millisecond + 1, 0n);
    return this.#last;
  }

  #begin(millisecond, random) {
    const first = BigInt(millisecond) << RANDOM_BITS;
    this.#millisecond = millisecond;
    this.#last = first | random;
    this.#greatest = first | RANDOM_MAX;
  }
}

const ids = new Ids();

/**
 * A new id of 128 bits: 48 bits of milliseconds since 1970, and 80 random ones. It is above each
 * earlier one of this thread, also if the clock is set back.
 */
function id() {
  return ids.next();
}

module.exports = { Ids, id };
