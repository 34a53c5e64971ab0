"use strict";

const { spawn } = require("node:child_process");

const { CannotStart } = require("./errors.js");
const { Incoming } = require("./incoming.js");

const LINE_MAX = 1 << 20; // characters that are kept of a line
const LAST_WORDS = 1000; // milliseconds in which what a program said before its end is read
const READY = /^tbd: ready: commit \d+, time (\d+)$/;
const NEWS = /^tbd: (?:made |reading |copied |cut )/;

/** A program as a process of its own session: Ctrl-C at a terminal goes to all of a session. */
function spawned(words) {
  try {
    return spawn(words[0], words.slice(1), { detached: true, stdio: "pipe" });
  } catch (why) {
    throw new CannotStart(`${words[0]} does not start: ${why.message}`, { cause: why });
  }
}

/** tbd as a child process, which serves one request at a time. */
class Child {
  #process;
  #hear;
  #line = "";
  #came = new Incoming();
  #asked; // the request that is in flight
  #started; // resolves `ready`
  #end; // resolves `ended`
  #isOver = false;
  isReady = false;
  fault = ""; // the line of its fault
  ready; // whether it serves, once it does or has ended
  ended; // once it has: its exit status, the signal that killed it, or why it did not start

  /** `hear` gets its lines on standard error, except faults. */
  constructor(words, hear) {
    this.#hear = hear;
    this.ready = new Promise((resolve) => (this.#started = resolve));
    this.ended = new Promise((resolve) => (this.#end = resolve));
    const it = spawned(words);
    this.#process = it;
    for (const pipe of it.stdio) pipe.on("error", () => {}); // its end says more
    it.stderr.setEncoding("utf8").on("data", (text) => this.#listen(text));
    it.stdout.on("data", (data) => {
      this.#came.add(data);
      this.#look();
    });
    it.on("error", (fault) => it.pid === undefined && this.#over({ fault }));
    it.on("close", (status, signal) => this.#over({ status, signal }));
    // what it started may hold the pipes open beyond its end
    it.on("exit", (status, signal) => {
      const last = () => this.#over({ status, signal });
      this.ended.then(clearTimeout.bind(undefined, setTimeout(last, LAST_WORDS)));
    });
  }

  /** Sends a moment and a request. Resolves to its reply, or to undefined if the child ended. */
  exchange(moment, frame) {
    return new Promise((resolve, reject) => {
      if (this.#isOver) {
        resolve(undefined);
        return;
      }
      this.#asked = { frame, resolve, reject };
      const head = Buffer.alloc(8);
      head.writeBigUInt64LE(moment);
      const { stdin } = this.#process;
      stdin.cork();
      stdin.write(head);
      stdin.write(frame);
      stdin.uncork();
      this.#look(); // what came while nothing was asked is no reply
    });
  }

  /** Whether the program that has this child is kept from its end by it. */
  hold(isHeld) {
    const word = isHeld ? "ref" : "unref";
    for (const it of [this.#process, ...this.#process.stdio]) it[word]();
  }

  kill() {
    this.#process.kill("SIGKILL");
  }

  /** Ends its input, and waits for its end; it is killed if that takes too long. */
  async close(patience) {
    this.hold(true);
    const timer = setTimeout(() => this.kill(), patience);
    this.#process.stdin.end();
    await this.ended;
    clearTimeout(timer);
  }

  #listen(text) {
    const lines = (this.#line + text).split("\n");
    this.#line = lines.pop().slice(-LINE_MAX);
    for (const it of lines) this.#take(it);
  }

  #take(line) {
    if (NEWS.test(line) || READY.test(line)) this.#hear(line);
    else if (line.trim() !== "") this.fault = line.replace(/^tbd: /, "");
    if (READY.test(line)) {
      this.isReady = true;
      this.#started(true);
    }
  }

  #look() {
    if (this.#asked === undefined) return;
    const { frame, resolve, reject } = this.#asked;
    try {
      const reply = this.#came.replyTo(frame);
      if (reply === undefined) return;
      this.#asked = undefined;
      resolve(reply);
    } catch (fault) {
      this.#asked = undefined;
      reject(fault);
    }
  }

  #over(how) {
    if (this.#isOver) return;
    this.#isOver = true;
    this.#take(this.#line);
    this.#line = "";
    for (const pipe of this.#process.stdio) pipe.destroy();
    this.#asked?.resolve(undefined);
    this.#asked = undefined;
    this.#started(false);
    this.#end(how);
  }
}

module.exports = { Child, READY };
