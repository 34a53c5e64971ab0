"use strict";

// Sessions: a client that is registered, its requests by number, and the one that is in doubt.

const { NUMBER_MAX, Operation, Status } = require("../names.js");
const {
  BadReply,
  Busy,
  Cancelled,
  ClientError,
  EventsFailed,
  Evicted,
  InDoubt,
  InvalidType,
  InvalidValue,
  NotYet,
  NothingInDoubt,
  REFUSALS,
  ReplyLost,
} = require("./errors.js");
const { decodeSaved, readText, savedText, writeWhole } = require("./files.js");
const frames = require("./frames.js");
const { id } = require("./ids.js");
const { Turns, limited, paused, testLimit } = require("./limits.js");
const {
  U32,
  U64,
  U128,
  bytesOf,
  kindOf,
  listed,
  milliseconds,
  narrow,
  optionsOf,
  pathOf,
  wide,
} = require("./values.js");

const ATTEMPTS = 5;
// milliseconds, before a request is sent again if the server said to come later; doubled each
// time
const PAUSE = 50;
const PAUSE_MAX = 1000; // milliseconds, beyond which it is doubled no more
const HEX = /^(?:[0-9a-fA-F]{2})*$/;

function transportOf(transport) {
  if (typeof transport?.exchange !== "function") {
    const kind = kindOf(transport);
    throw new InvalidType("transport", `must have a call exchange, as Socket has; it is ${kind}`);
  }
  return transport;
}

/** The milliseconds that go by before each sending if the server said to come later. */
function* pauses(first) {
  const most = Math.max(first, PAUSE_MAX);
  for (let pause = first;; pause = Math.min(2 * pause, most)) yield pause;
}

/** The bytes in doubt of what was saved, or no bytes. */
function pendingOf(text) {
  const field = "saved.pending";
  if (typeof text !== "string") {
    throw new InvalidType(field, `must be a string, not ${kindOf(text)}`);
  }
  if (!HEX.test(text)) throw new InvalidValue(field, "is no hex");
  return text === "" ? undefined : Buffer.from(text, "hex");
}

/**
 * Refuses bytes in doubt that are not the next request of this very session: a register if
 * session and number are 0, and no register if the session is not 0.
 */
function testPending(frame, { client, session, number }) {
  if (frame === undefined) return;
  try {
    frames.testRequest(frame);
  } catch (fault) {
    throw new InvalidValue("saved.pending", `is no request: ${fault.message}`);
  }
  const asked = frames.headerOf(frame);
  const isRegister = asked.operation === Operation.register;
  const next = isRegister ? number : number + 1;
  const isSame = asked.client === client && asked.session === session && asked.request === next;
  if (!isSame || isRegister !== (session === 0n)) {
    throw new InvalidValue("saved.pending", "is not the next request of this session");
  }
}

/** What was saved, each value tested. */
function savedOf(saved) {
  if (typeof saved !== "object" || saved === null) {
    throw new InvalidType("saved", `must be an object, not ${kindOf(saved)}`);
  }
  const state = {
    client: wide("saved.client", saved.client, U128, 1n),
    session: wide("saved.session", saved.session, U64),
    number: narrow("saved.number", saved.number, U32),
    pending: pendingOf(saved.pending),
  };
  testPending(state.pending, state);
  return state;
}

/** What was saved, as the JSON of a file, each value tested. */
function encodeSaved(saved) {
  savedOf(saved);
  return savedText(saved);
}

const RESUMED = Symbol("resumed");

/**
 * Sends a request of this frame, whose numbers are still 0, or the one that is in doubt again.
 * If nothing was sent, it is as if it had not been asked for.
 */
let askFrame;

/**
 * The session of a client.
 *
 * `saved` is what outlives the client. Whoever keeps it between `prepare` and `retry` can go on
 * after a crash, by `Session.resumed`, and knows after `retry` what the last request did. `save`
 * and `load` keep it in a file.
 *
 * A request is sent `attempts` times at most in a call, and then stays in doubt. If the server
 * said to come later (Busy, NotYet), `pause` milliseconds go by before it is sent again, each time
 * twice as many, up to a second or `pause`, whichever is longer. Calls at once go one after
 * another.
 */
class Session {
  #transport;
  #client;
  #session = 0n;
  #number = 0;
  #pending;
  #attempts;
  #pause;
  #refused; // how the request in doubt was refused
  #mayBeSent = false;
  #turns = new Turns();
  #saving = Promise.resolve();

  static {
    askFrame = (session, operation, frame) =>
      session.#inTurn(undefined, () =>
        session.#pending === undefined
        ? session.#askOnce(operation, frame)
        : session.#send(undefined),
      );
  }

  /** A session that is not registered: `Session.register` makes one that is. */
  constructor(transport, options) {
    const given = optionsOf("options", options);
    const { client, attempts = ATTEMPTS, pause = PAUSE } = given;
    const state = given[RESUMED];
    this.#transport = transportOf(transport);
    this.#attempts = narrow("attempts", attempts, U32, 1);
    this.#pause = milliseconds("pause", pause, 0);
    if (state !== undefined) {
      this.#client = state.client;
      this.#session = state.session;
      this.#number = state.number;
      this.#pending = state.pending;
      this.#mayBeSent = state.pending !== undefined;
    } else {
      this.#client = client === undefined ? id() : wide("client", client, U128, 1n);
    }
  }

  /** Registers a client, and returns its new session. */
  static async register(transport, options) {
    const session = new Session(transport, options);
    await session.#ask(Operation.register, [], options);
    return session;
  }

  /** The session as it was when `saved` was taken. If a request was in doubt, `retry` it. */
  static resumed(transport, saved, options) {
    const given = optionsOf("options", options);
    return new Session(transport, { ...given, [RESUMED]: savedOf(saved) });
  }

  /** The session that `save` kept in a file. If a request was in doubt, `retry` it first. */
  static async load(transport, path, options) {
    const text = await readText(pathOf("path", path));
    return Session.resumed(transport, decodeSaved(text), options);
  }

  /** The client's id. */
  get client() {
    return this.#client;
  }

  /** The session, 0 before it is registered. */
  get session() {
    return this.#session;
  }

  /** The number of the last request that was answered. */
  get number() {
    return this.#number;
  }

  /** What outlives the client. */
  get saved() {
    return {
      client: this.#client,
      session: this.#session,
      number: this.#number,
      pending: this.#pending === undefined ? "" : this.#pending.toString("hex"),
    };
  }

  /**
   * Keeps `saved` in a file, whole: after a crash the file has it as it is now or as it was
   * before.
   */
  async save(path) {
    const name = pathOf("path", path);
    const saving = this.#saving.then(() => writeWhole(name, savedText(this.saved)));
    this.#saving = saving.catch(() => {});
    await saving;
  }

  /**
   * The request that has no reply yet, with its records or ids, or null. It is kept over refusals,
   * because it may have been executed before: after an eviction create its records again, with the
   * same ids, in a new session.
   */
  get inDoubt() {
    return this.#pending === undefined ? null : frames.requestOf(this.#pending);
  }

  /** Creates accounts. Returns the results of those that were not created, by index. */
  createAccounts(accounts, options) {
    return this.#ask(Operation.create_accounts, accounts, options);
  }

  /** Makes transfers. Returns the results of those that were not made, by index. */
  createTransfers(transfers, options) {
    return this.#ask(Operation.create_transfers, transfers, options);
  }

  /** The accounts that are there, in the order of the ids. */
  lookupAccounts(ids, options) {
    return this.#ask(Operation.lookup_accounts, ids, options);
  }

  /** The transfers that are there, in the order of the ids. */
  lookupTransfers(ids, options) {
    return this.#ask(Operation.lookup_transfers, ids, options);
  }

  /** Makes the next request, which is in doubt from then on: keep `saved`, then `retry`. */
  prepare(operation, items) {
    this.#testNotInDoubt();
    const kind = frames.operationOf(operation);
    const frame = frames.framed(kind, items);
    this.#testNotInDoubt(); // again, because what gives the items may have used the session
    this.#begin(kind, frame);
  }

  /**
   * Sends the request in doubt, the same bytes each time, until its reply has come. Returns what
   * it says: results of a create, records of a lookup, undefined of a register.
   */
  async retry(options) {
    const limit = limited(options);
    try {
      return await this.#inTurn(limit.signal, () => this.#send(limit.signal));
    } finally {
      limit.done();
    }
  }

  /** Closes the transport. */
  close() {
    this.#transport.close?.();
  }

  async #ask(operation, items, options) {
    const limit = limited(options);
    try {
      const frame = frames.framed(operation, items); // as the items are now
      return await this.#inTurn(limit.signal, () => this.#askOnce(operation, frame, limit.signal));
    } finally {
      limit.done();
    }
  }

  async #askOnce(operation, frame, signal) {
    this.#testNotInDoubt();
    this.#begin(operation, frame);
    try {
      return await this.#send(signal);
    } catch (why) {
      // it is as if it had not been asked for
      if (why instanceof ClientError && !why.sent && !this.#mayBeSent) this.#pending = undefined;
      throw why;
    }
  }

  async #inTurn(signal, call) {
    await this.#turns.take(signal);
    try {
      return await call();
    } finally {
      this.#turns.give();
    }
  }

  #testNotInDoubt() {
    if (this.#pending === undefined) return;
    const refusal = this.#refused;
    if (refusal === undefined) throw new InDoubt("the last request has no reply yet: retry it");
    if (refusal instanceof Evicted) {
      throw new InDoubt(`the session has ended (${refusal.name}): register anew, and see inDoubt`);
    }
    throw new InDoubt(`the last request was refused (${refusal.name}), and is in doubt`);
  }

  #begin(operation, frame) {
    const isRegister = operation === Operation.register;
    if (isRegister && this.#session !== 0n) {
      throw new InvalidValue("session", `is ${this.#session}: it is registered already`);
    }
    if (!isRegister && this.#session === 0n) {
      throw new InvalidValue("session", "is 0: register first");
    }
    if (!isRegister && this.#number >= NUMBER_MAX) {
      throw new InvalidValue("number", `is ${NUMBER_MAX}, the last one: register anew`);
    }
    frames.number(frame, this.#client, this.#session, isRegister ? 0 : this.#number + 1);
    this.#pending = frame;
    this.#refused = undefined;
    this.#mayBeSent = false;
  }

  /** Sends the request in doubt until its reply has come. */
  async #send(signal) {
    if (this.#pending === undefined) throw new NothingInDoubt("no request is in doubt");
    const later = pauses(this.#pause);
    let last; // what became of the last sending of this call
    for (let left = this.#attempts;; left -= 1) {
      try {
        return await this.#once(signal, last !== undefined);
      } catch (why) {
        if (why instanceof Cancelled) throw why;
        if (why instanceof ClientError && !why.sent) {
          if (last === undefined) throw why;
          const text = `${last.message}; it was not sent again: ${why.message}`;
          throw new ReplyLost(text, "", { cause: why });
        }
        if (left <= 1 || !(why instanceof ReplyLost || why instanceof NotYet)) throw why;
        last = why;
        if (why instanceof Busy || why instanceof NotYet) {
          await paused(later.next().value, signal, true);
        }
      }
    }
  }

  /** Sends the request in doubt once. */
  async #once(signal, wasSent) {
    testLimit(signal, wasSent);
    const frame = this.#pending;
    let reply;
    try {
      reply = await this.#transport.exchange(frame, { signal });
    } catch (why) {
      if (!(why instanceof ClientError) || why.sent) this.#mayBeSent = true;
      if (why instanceof Cancelled && wasSent) throw new Cancelled(true, why.cause);
      throw why;
    }
    this.#mayBeSent = true;
    return this.#take(frame, reply);
  }

  /**
   * Takes the reply to the request in doubt, which is in doubt no longer: the session goes on
   * after it. A refusal leaves it in doubt, because it may have been executed before.
   */
  #take(frame, data) {
    if (!(data instanceof Uint8Array)) throw new BadReply("what came are no bytes");
    const reply = bytesOf("reply", data);
    frames.testReply(reply);
    frames.testAsked(frame, reply);
    if (reply.length !== frames.replyLength(reply)) throw new BadReply("the reply is cut");
    const asked = frames.headerOf(frame);
    const { session, status } = frames.answerOf(reply);
    if (status !== Status.Reply) {
      const Refusal = REFUSALS.get(status);
      this.#refused = new Refusal(status, asked.request, asked.session);
      throw this.#refused;
    }
    const said = frames.saidBy(frame, reply);
    this.#session = session;
    this.#number = asked.request;
    this.#pending = undefined;
    return said;
  }
}

/**
 * Throws EventsFailed if an event was not accepted. What else a reply says, as the records of a
 * lookup, is passed over.
 */
function requireOk(results) {
  if (results === undefined) return;
  const failed = listed("results", results).filter((it) => typeof it?.result === "string");
  if (failed.length > 0) throw new EventsFailed(failed);
}

module.exports = { PAUSE, Session, askFrame, encodeSaved, pauses, requireOk };
