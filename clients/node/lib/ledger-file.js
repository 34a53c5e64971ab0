"use strict";

const { accessSync, constants, statSync } = require("node:fs");
const path = require("node:path");
const { performance } = require("node:perf_hooks");

const { Child, READY } = require("./child.js");
const errors = require("./errors.js");
const { CannotStart, ClockJumped, Closed } = errors;
const { Locked, ProgramEnded, ReplyLost } = errors;
const { bytesOf, pathOf } = require("./values.js");
const { testRequest } = require("./frames.js");
const { endConnecting, onAbort, paused, testLimit } = require("./limits.js");
const { Moments, SECOND, wallClock } = require("./moments.js");
const { ownerOf } = require("./owners.js");

const NAME = "tbd";
const MISSING = `${NAME} was not found: install the package telovamish, or give its path as the ` +
  "option program or in the variable TBD";
const STARTS = 5; // of a child that is killed before it serves
const PAUSE = 50; // milliseconds before a locked file is opened again
const PATIENCE = 5000; // milliseconds that a child may take to end
const READING = /^tbd: reading .*, (\d+) of (\d+) MB$/;
const CLOSED = "the ledger was closed";

/** The first program of this name in these folders. */
function firstIn(folders, name) {
  return folders.map((it) => path.resolve(it, name)).find((it) => {
    try {
      accessSync(it, constants.X_OK);
      return statSync(it).isFile();
    } catch {
      return false;
    }
  });
}

/** A program by its path, or on PATH if it has no slash. */
function found(name) {
  const folders = (process.env.PATH ?? "").split(path.delimiter).filter((it) => it !== "");
  return firstIn(name.includes("/") ? ["."] : folders, name);
}

/**
 * The path of tbd: what was given, the variable TBD, on PATH, in the folder of this package or of
 * Node.
 */
function programOf(option) {
  const given = option ?? (process.env.TBD || undefined);
  if (given !== undefined) {
    const name = pathOf(option === undefined ? "TBD" : "program", given);
    const program = found(name);
    if (program === undefined) {
      throw new CannotStart(`${name} is no program that can be run; ${MISSING}`);
    }
    return program;
  }
  const near = [path.dirname(__dirname), path.dirname(process.execPath)];
  const program = found(NAME) ?? firstIn(near, NAME);
  if (program === undefined) throw new CannotStart(MISSING);
  return program;
}

/**
 * A transport over tbd, which serves a file as a child of this process, and is started again if it
 * was killed. One worker uses it.
 */
class LedgerFile {
  #path;
  #options;
  #words;
  #moments = new Moments();
  #child;
  #isServed = false; // the file is there: a restart never makes another one
  #isEnding = false;
  #lastTime = 0n;
  #size = 0; // MB of a file that is being read

  constructor(file, options) {
    this.#path = path.resolve(file); // of no folder that this process may leave before a restart
    this.#options = options;
    const { program, clientsMax, profile } = options;
    const rules = [String(clientsMax), String(profile), "--progress"];
    this.#words = [programOf(program), "run", this.#path, ...rules];
    if (options.dropTorn) this.#words.push("--drop-torn");
  }

  /** Waits until the file was read. */
  async open(signal) {
    for (let left = STARTS;; left -= 1) {
      try {
        await this.#serving(signal, false);
        this.#child.hold(false);
        this.#testTime();
        return;
      } catch (why) {
        if (!(why instanceof ReplyLost)) throw why;
        const text = `${why.message}, each of ${STARTS} times`;
        if (left === 1) throw new CannotStart(text, { cause: why });
      }
    }
  }

  /** Refuses a ledger whose time is far ahead: what is pending would expire at once. */
  #testTime() {
    const { aheadMax } = this.#options;
    const ahead = Number(this.#lastTime - wallClock()) / Number(SECOND);
    if (aheadMax === null || 1000 * ahead <= aheadMax) return;
    throw new ClockJumped(
      `the ledger's last time is ${ahead.toFixed(3)} s ahead of this computer's clock, and ` +
      `aheadMax is ${aheadMax} ms: set the clock right, or give aheadMax`,
    );
  }

  /** Sends a request with its moment, and returns its reply. */
  async exchange(frame) {
    const request = bytesOf("frame", frame);
    testRequest(request);
    await this.#serving(undefined, true);
    const it = this.#child;
    it.hold(true);
    let reply;
    try {
      reply = await it.exchange(this.#moments.next(), request);
    } catch (fault) {
      it.kill();
      await this.#lose(it, true);
      throw fault;
    }
    if (reply === undefined) throw await this.#lose(it, true);
    it.hold(false);
    return reply;
  }

  /**
   * Waits for a child that serves, which is started if there is none. One that finds the file
   * locked is started again for some time: the child of a program that was killed ends a moment
   * after it. `isAsked` says that it is for a request, which may have been sent before.
   */
  async #serving(signal, isAsked) {
    const deadline = performance.now() + this.#options.lockTimeout;
    for (;;) {
      this.#testOpen(signal);
      this.#child ??= this.#start();
      const it = this.#child;
      const off = onAbort(signal, () => it.kill());
      const isReady = await it.ready;
      off();
      if (isReady && !this.#isEnding && !signal?.aborted) return;
      if (isReady) it.kill();
      const why = await this.#lose(it, isAsked);
      this.#testOpen(signal);
      if (!(why instanceof Locked) || performance.now() >= deadline) throw why;
      await paused(PAUSE, signal, false);
    }
  }

  #testOpen(signal) {
    if (this.#isEnding) throw new Closed(CLOSED);
    testLimit(signal, false);
  }

  #start() {
    const isExisting = this.#isServed || this.#options.existing;
    const words = isExisting ? [...this.#words, "--existing"] : this.#words;
    return new Child(words, (line) => this.#hear(line));
  }

  /** Takes a line of the child. */
  #hear(line) {
    const read = READING.exec(line);
    if (read !== null) {
      this.#advance(Number(read[1]), Number(read[2]));
      return;
    }
    this.#advance(this.#size, this.#size);
    const ready = READY.exec(line);
    if (ready === null) {
      this.#options.report(line);
      return;
    }
    this.#lastTime = BigInt(ready[1]);
    this.#moments.goOn(this.#lastTime);
    this.#isServed = true;
  }

  /** Reports how much was read. That all was is reported once, if anything was. */
  #advance(done, size) {
    const isAmid = done < size;
    if (isAmid || this.#size > 0) this.#options.progress?.(done, size);
    this.#size = isAmid ? size : 0;
  }

  /** Drops a child that ended, and returns why it did. */
  async #lose(it, isAsked) {
    const { status, signal, fault } = await it.ended;
    if (this.#child === it) this.#child = undefined;
    if (fault !== undefined) {
      const text = `${this.#words[0]} does not start: ${fault.message}`;
      return new CannotStart(text, { cause: fault });
    }
    if (signal !== null) return new ReplyLost(`the program was killed by ${signal}`);
    if (it.fault === "NoMemory") {
      return new ReplyLost("the program had no memory, and ended", "NoMemory");
    }
    if (!/^Locked\b/.test(it.fault)) return new ProgramEnded(it.fault, status, isAsked);
    return new Locked(it.fault, status, isAsked, ownerOf(this.#path));
  }

  /**
   * Lets no child be started. One that reads its file, and was sent nothing, is killed at once, and
   * one that replies to a request in its time.
   */
  [endConnecting]() {
    this.#isEnding = true;
    const it = this.#child;
    if (it === undefined) return;
    if (!it.isReady) it.kill();
    else it.ended.then(clearTimeout.bind(undefined, setTimeout(() => it.kill(), PATIENCE)));
  }

  /** Ends the child's input, and waits for its end. */
  async close() {
    this[endConnecting]();
    const it = this.#child;
    this.#child = undefined;
    await it?.close(PATIENCE);
  }
}

module.exports = { LedgerFile };
