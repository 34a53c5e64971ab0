"use strict";

// Sessions that callers share. What they ask for while a session waits for its reply goes out as
// its next request, in one.

const { HEADER_SIZE, ITEMS_MAX, NUMBER_MAX } = require("../names.js");
const { Operation, RECORD_SIZE, REQUEST_ITEM_SIZES } = require("../names.js");
const errors = require("./errors.js");
const { Busy, Cancelled, CannotConnect, Closed } = errors;
const { Evicted, NotSent, NotYet, ReplyLost } = errors;
const { framed, isCreate } = require("./frames.js");
const { isLinked, jointFrame, settled, split } = require("./joint.js");
const { endConnecting, onAbort, testLimit } = require("./limits.js");
const { PAUSE, Session, askFrame, pauses } = require("./session.js");

const FORBIDDEN = ["NotAllowed", "ClientNotAllowed"]; // told those who may not come
const NOT_SENT = "the client was closed, and nothing of this call was sent";

/** Whether a list ends in a chain that a next event would be joined to. */
function isOpen({ operation, frame, count }) {
  return isCreate(operation) && count > 0 && isLinked(frame, frame.length - RECORD_SIZE);
}

function mayJoin(last, count, next) {
  const fits = count + next.count <= ITEMS_MAX;
  return fits && next.operation === last.operation && !isOpen(last);
}

/** Whether the server was not there, and may be later. */
function mayCome(why) {
  return why instanceof CannotConnect && !why.isFinal;
}

/** The milliseconds before each next sending, which follows a first lost reply at once. */
class Patience {
  #pauses = pauses(PAUSE);
  #isBegun = false;

  next(why) {
    const isAtOnce = !this.#isBegun && !(why instanceof Busy || why instanceof NotYet);
    this.#isBegun = true;
    return isAtOnce ? 0 : this.#pauses.next().value;
  }
}

/** Up to a number of sessions, each with a transport of its own. They register when they are
 * needed. */
class Pool {
  #connect;
  #newId;
  #sessions;
  #calls = [];
  #workers = [];
  #ends = new Set(); // calls that end a pause
  isClosed = false;
  trouble; // why no reply came of late

  constructor(connect, sessions, newId) {
    this.#connect = connect;
    this.#sessions = sessions;
    this.#newId = newId;
  }

  /** What the reply says of these items. They are tested and encoded here. */
  async ask(operation, items, signal) {
    const frame = framed(operation, items);
    if (this.isClosed) throw new Closed("the client was closed");
    testLimit(signal, false);
    const count = (frame.length - HEADER_SIZE) / REQUEST_ITEM_SIZES[operation];
    const call = { operation, frame, count, isSent: false, isLeft: false };
    const off = onAbort(signal, () => this.#leave(call, signal.reason));
    try {
      return await new Promise((resolve, reject) => {
        Object.assign(call, { resolve, reject });
        this.#calls.push(call);
        this.#wake();
      });
    } finally {
      off();
    }
  }

  #wake() {
    const idle = this.#workers.find((it) => !it.isBusy);
    if (idle !== undefined) idle.begin();
    else if (this.#workers.length < this.#sessions) this.#grow().begin();
  }

  #grow() {
    const made = new Worker(this, this.#connect(), this.#newId);
    this.#workers.push(made);
    return made;
  }

  /** Makes the first transport now, and not with the first call. */
  begin() {
    this.#grow();
  }

  #leave(call, reason) {
    call.isLeft = true;
    const at = this.#calls.indexOf(call);
    if (at >= 0) this.#calls.splice(at, 1);
    call.reject(new Cancelled(call.isSent, reason, this.trouble));
  }

  // What workers call

  get isEmpty() {
    return this.#calls.length === 0;
  }

  /**
   * The next calls that one request can hold. A list is never cut, and no call is joined to one
   * that ends in an open chain.
   */
  take() {
    let count = 0;
    let size = 0;
    for (const next of this.#calls) {
      if (size > 0 && !mayJoin(this.#calls[size - 1], count, next)) break;
      next.isSent = true; // before it is: who leaves later is told so
      count += next.count;
      size += 1;
    }
    return this.#calls.splice(0, size);
  }

  /** Puts calls back of which nothing was sent. */
  giveBack(batch) {
    const left = batch.filter((it) => !it.isLeft);
    for (const it of left) it.isSent = false;
    this.#calls.unshift(...left);
    if (this.isClosed) this.#drop();
  }

  #drop() {
    for (const it of this.#calls.splice(0)) it.reject(new Closed(NOT_SENT));
  }

  /** Waits before a next sending. Whether the client goes on. */
  async rest(ms, why) {
    this.trouble = why;
    if (this.isClosed) return false;
    await new Promise((resolve) => {
      const end = () => {
        clearTimeout(timer);
        this.#ends.delete(end);
        resolve();
      };
      const timer = setTimeout(end, ms);
      this.#ends.add(end);
    });
    return !this.isClosed;
  }

  async close() {
    if (!this.isClosed) {
      this.isClosed = true;
      this.#drop();
      for (const it of this.#ends) it();
      for (const it of this.#workers) it.transport[endConnecting]?.();
    }
    await Promise.all(this.#workers.map((it) => it.end()));
  }
}

/** Serves calls over a session, which it registers when it needs one. */
class Worker {
  #pool;
  #newId;
  #session;
  #absence = new Patience(); // with a server that is not there
  #running = Promise.resolve();
  isBusy = false;

  constructor(pool, transport, newId) {
    this.#pool = pool;
    this.transport = transport;
    this.#newId = newId;
  }

  begin() {
    this.isBusy = true;
    this.#running = this.#run();
  }

  async end() {
    await this.#running;
    await this.transport.close();
  }

  async #run() {
    await undefined; // calls that are made together are joined
    while (!this.#pool.isEmpty) {
      try {
        await this.#registered();
      } catch (why) {
        if (mayCome(why)) await this.#pool.rest(this.#absence.next(why), why);
        else {
          this.#session = undefined;
          for (const it of this.#pool.take()) it.reject(why);
        }
        continue;
      }
      const batch = this.#pool.take();
      if (batch.length > 0) await this.#serve(batch);
    }
    this.isBusy = false;
  }

  async #serve(batch) {
    const [{ operation }] = batch;
    const frames = batch.map((it) => it.frame);
    try {
      const frame = jointFrame(operation, frames);
      let { said, isDoubtful } = await this.#ask(operation, frame, false);
      if (isDoubtful && isCreate(operation)) {
        said = await settled(operation, frame, said, (...it) => this.#lookUp(...it));
      }
      this.#absence = new Patience();
      this.#pool.trouble = undefined;
      const found = split(operation, frames, said);
      batch.forEach((it, at) => it.resolve(found[at]));
    } catch (why) {
      // or its request would be sent in place of the next one
      if (this.#session?.session > 0n && this.#session.inDoubt !== null) this.#session = undefined;
      if (mayCome(why)) {
        this.#pool.giveBack(batch);
        await this.#pool.rest(this.#absence.next(why), why);
      } else
        for (const it of batch) it.reject(why);
    }
  }

  async #lookUp(operation, ids) {
    return (await this.#ask(operation, framed(operation, ids), true)).said;
  }

  /**
   * What the reply to a request says, and whether the request may have been executed before, in a
   * session that has ended. Rejects by a NotSent if it was never executed.
   */
  async #ask(operation, frame, wasDoubtful) {
    let isDoubtful = wasDoubtful;
    let isGone = false; // whether a sending in this session may have been executed
    const patience = new Patience();
    for (;;) {
      try {
        const session = await this.#registered();
        return { said: await askFrame(session, operation, frame), isDoubtful };
      } catch (why) {
        const isOpen = isGone || isDoubtful;
        let waits = patience;
        if (!(why instanceof errors.ClientError) || FORBIDDEN.includes(why.told)) throw why;
        if (why instanceof NotSent) {
          if (!isOpen) throw why;
          if (!mayCome(why)) throw lostAgain(why);
          waits = this.#absence;
        } else if (why instanceof Evicted) {
          isDoubtful = isOpen;
          isGone = false;
          this.#session = undefined;
        } else if (why instanceof ReplyLost) isGone = isGone || !(why instanceof Busy);
        else if (!(why instanceof NotYet)) throw why;
        if (!(await this.#pool.rest(waits.next(why), why))) throw lostAgain(why);
      }
    }
  }

  /** The session, registered. */
  async #registered() {
    const it = this.#session;
    if (it?.number === NUMBER_MAX && it.inDoubt === null) this.#session = undefined;
    if (this.#session === undefined) {
      this.#session = new Session(this.transport, { client: this.#newId(), attempts: 1 });
      this.#session.prepare(Operation.register);
    }
    const patience = new Patience();
    while (this.#session.session === 0n) {
      try {
        await this.#session.retry();
      } catch (why) {
        const isLater = why instanceof ReplyLost || why instanceof NotYet;
        if (!isLater || FORBIDDEN.includes(why.told)) throw why;
        if (!(await this.#pool.rest(patience.next(why), why))) throw new Closed(NOT_SENT);
      }
    }
    return this.#session;
  }
}

function lostAgain(cause) {
  return new ReplyLost(`no reply came, and it was not sent again: ${cause.message}`, "", { cause });
}

module.exports = { Pool };
