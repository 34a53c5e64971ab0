"use strict";

// The moments of requests, by a clock that may be set.

const os = require("node:os");
const { hrtime } = require("node:process");

const SECOND = 1_000_000_000n; // nanoseconds

/** Nanoseconds since 1970, by the system's clock. */
function wallClock() {
  return BigInt(Date.now()) * 1_000_000n;
}

/**
 * A clock in nanoseconds that nobody sets. It counts while the computer sleeps too: once a second
 * the time that a sleep took is taken from the system's uptime.
 */
function runningClock(steady = hrtime.bigint, uptime = os.uptime) {
  const awake = () => BigInt(Math.floor(uptime())) * SECOND - steady();
  const first = awake();
  let slept = 0n;
  let at = steady();
  return () => {
    const now = steady();
    if (now - at >= SECOND) {
      at = now;
      const more = awake() - first;
      if (more > slept + 2n * SECOND) slept = more - SECOND; // an uptime has whole seconds
    }
    return now + slept;
  };
}

/**
 * Moments in nanoseconds since 1970, which begin with the clock, or with the ledger's last time if
 * that is later. They never fall, and grow by no more than the time that goes by and a thousandth
 * of it, by a clock that nobody sets: so a clock that is set far ahead does not take the ledger
 * along.
 */
class Moments {
  #wall;
  #running;
  #last;
  #at;

  constructor(wall = wallClock, running = runningClock()) {
    this.#wall = wall;
    this.#running = running;
    this.#last = wall();
    this.#at = running();
  }

  /** The moment of the next request. */
  next() {
    const wall = this.#wall();
    if (wall > this.#last) {
      const running = this.#running();
      const gone = running > this.#at ? running - this.#at : 0n;
      const most = this.#last + gone + gone / 1000n;
      this.#last = wall < most ? wall : most;
      this.#at = running;
    }
    return this.#last;
  }

  /** Goes on at this moment, if that is later. */
  goOn(last) {
    if (last > this.#last) {
      this.#last = last;
      this.#at = this.#running();
    }
  }
}

module.exports = { Moments, SECOND, runningClock, wallClock };
