"use strict";

// The caller's own limits of a call, and calls that go one after another.

const { setMaxListeners } = require("node:events");

const { Cancelled, InvalidType } = require("./errors.js");
const { kindOf, milliseconds, optionsOf } = require("./values.js");

/**
 * The name of a transport's call that ends its connecting, now and later. An exchange in flight
 * goes on.
 */
const endConnecting = Symbol("endConnecting");

function signalOf(value) {
  if (value === undefined) return undefined;
  if (typeof value?.aborted !== "boolean" || typeof value.addEventListener !== "function") {
    throw new InvalidType("signal", `must be an AbortSignal, not ${kindOf(value)}`);
  }
  // any number of calls may wait for one: Node would warn of a leak from the eleventh on
  if (value instanceof EventTarget) setMaxListeners(0, value);
  return value;
}

/**
 * The signal that ends a call with these options: their `signal`, or `within` milliseconds, or
 * what comes first of both. `done` lets go of it.
 */
function limited(options) {
  const given = optionsOf("options", options);
  const outer = signalOf(given.signal);
  if (given.within === undefined) return { signal: outer, done: () => {} };
  const within = milliseconds("within", given.within, 0);
  const controller = new AbortController();
  const off = onAbort(outer, () => controller.abort(outer.reason));
  const late = () => controller.abort(new Error(`${within} ms went by`));
  const timer = setTimeout(late, within);
  return {
    signal: controller.signal,
    done: () => {
      off();
      clearTimeout(timer);
    },
  };
}

/** Calls this once if the signal comes, or has come. Returns a call that releases it. */
function onAbort(signal, call) {
  if (signal === undefined) return () => {};
  if (signal.aborted) {
    call();
    return () => {};
  }
  signal.addEventListener("abort", call, { once: true });
  return () => signal.removeEventListener("abort", call);
}

/** Throws Cancelled if the signal has come. */
function testLimit(signal, sent) {
  if (signal?.aborted) throw new Cancelled(sent, signal.reason);
}

/** Waits for a number of milliseconds, or until the signal comes. */
function paused(ms, signal, sent) {
  return new Promise((resolve, reject) => {
    let off = () => {};
    const timer = setTimeout(() => {
      off();
      resolve();
    }, ms);
    off = onAbort(signal, () => {
      clearTimeout(timer);
      reject(new Cancelled(sent, signal.reason));
    });
  });
}

/** A turn is one call's at a time; the others wait in the order in which they came. */
class Turns {
  #isTaken = false;
  #waiting = [];

  async take(signal) {
    testLimit(signal, false);
    if (!this.#isTaken) {
      this.#isTaken = true;
      return;
    }
    await new Promise((resolve, reject) => {
      const entry = {};
      const off = onAbort(signal, () => {
        this.#waiting.splice(this.#waiting.indexOf(entry), 1);
        reject(new Cancelled(false, signal.reason));
      });
      entry.begin = () => {
        off();
        resolve();
      };
      this.#waiting.push(entry);
    });
  }

  give() {
    const next = this.#waiting.shift();
    if (next === undefined) this.#isTaken = false;
    else next.begin();
  }
}

module.exports = { Turns, endConnecting, limited, onAbort, paused, testLimit };
