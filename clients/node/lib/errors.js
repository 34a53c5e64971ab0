"use strict";

const { Status } = require("../names.js");

const SHOWN = 10; // failed events in an error's text

/** The base of all errors of this package. */
class ClientError extends Error {
  constructor(message, options) {
    super(message, options);
    Object.defineProperty(this, "name", {
      value: new.target.name,
      configurable: true,
      writable: true,
    });
  }

  /** Whether the call may have sent its request. */
  get sent() {
    return true;
  }
}

// Nothing was sent

/** Nothing was sent by this call. */
class NotSent extends ClientError {
  get sent() {
    return false;
  }
}

/** A field or an argument, `field`, may not hold what was given. */
class Invalid extends NotSent {
  constructor(field, problem) {
    super(`${field} ${problem}`);
    this.field = field;
  }
}

/** It has the wrong type. */
class InvalidType extends Invalid {}

/** It is out of its range. */
class InvalidValue extends Invalid {}

/** The last request has no reply yet: `retry` it before another one is made. */
class InDoubt extends NotSent {}

/** There is no request to be sent again. */
class NothingInDoubt extends NotSent {}

/** The server has no such call. `instead` is what to use. */
class NotSupported extends NotSent {
  constructor(call, instead) {
    super(`the server has no ${call}: use ${instead}`);
    this.instead = instead;
  }
}

/** The transport was closed. */
class Closed extends NotSent {}

/**
 * No connection to the server can be made. It is final if one side does not trust the other, at
 * each address.
 */
class CannotConnect extends NotSent {
  constructor(message, options) {
    super(message, options);
    this.isFinal = options?.isFinal === true;
  }
}

/** The program tbd is not found, or does not start. */
class CannotStart extends NotSent {}

/** The last time of a ledger is too far ahead of this computer's clock. */
class ClockJumped extends NotSent {}

/** The system refused a file: `code` is its error, as ENOENT. */
class FileError extends NotSent {
  constructor(path, cause) {
    super(`${path}: ${cause.message}`, { cause });
    this.path = path;
    this.code = cause.code;
  }
}

// Something may have been sent

/** The caller's own limit ended the call: its AbortSignal, or `within`. The cause is its reason. */
class Cancelled extends ClientError {
  #sent;

  constructor(sent, reason, trouble) {
    const what = sent ? ": the request may have been sent" : " before a byte was sent";
    const after = trouble === undefined ? "" : `, after ${trouble.name}: ${trouble.message}`;
    super(`cancelled${what}${after}`, { cause: reason });
    this.#sent = sent;
  }

  get sent() {
    return this.#sent;
  }
}

/**
 * No reply came. The request may have been executed or not: send the same bytes again. `told` is
 * the name that the server gave before it closed the connection, or "".
 */
class ReplyLost extends ClientError {
  constructor(message, told = "", options = undefined) {
    super(message, options);
    this.told = told;
  }
}

/**
 * The server has too many connections, or this peer has its share, and the server did not take the
 * request: come later.
 */
class Busy extends ReplyLost {}

/**
 * The program tbd ended by a fault: `fault` is its line, `told` the name that the line begins with,
 * `status` the exit status.
 */
class ProgramEnded extends ClientError {
  #sent;

  constructor(fault, status, sent, more = "") {
    super(`${fault || "the program ended"} (status ${status})${more}`);
    this.fault = fault;
    this.told = fault.split(":")[0];
    this.status = status;
    this.#sent = sent;
  }

  get sent() {
    return this.#sent;
  }
}

/** The file is open in the process `owner`, or undefined if the system does not say in which. */
class Locked extends ProgramEnded {
  constructor(fault, status, sent, owner) {
    super(fault, status, sent, owner === undefined ? "" : `: ${owner.text}`);
    this.owner = owner?.process;
  }
}

/** What came is no reply to the request that was sent. */
class BadReply extends ClientError {}

/** The server refused the request, and changed nothing. `status` is the reason's number. */
class Refused extends ClientError {
  constructor(status, number, session) {
    super(`request ${number} of session ${session} is refused: ${new.target.reason}`);
    this.status = status;
  }
}

/** The session has ended. The last request may have been executed before that. */
class Evicted extends Refused {}

class NoSession extends Evicted {
  static reason = "the client has no session, register anew";
}

class SessionTooLow extends Evicted {
  static reason = "the client has a later session";
}

class NewerSession extends Refused {
  static reason = "the server knows no such session";
}

class Older extends Refused {
  static reason = "a later request of the session was executed";
}

class Collision extends Refused {
  static reason = "its number was used for another request";
}

class NewerRequest extends Refused {
  static reason = "a request before it is missing";
}

class NotYet extends Refused {
  static reason = "it is not shown yet";
}

/** The refusal of each status. */
const REFUSALS = new Map([
  [Status.NoSession, NoSession],
  [Status.SessionTooLow, SessionTooLow],
  [Status.NewerSession, NewerSession],
  [Status.Older, Older],
  [Status.Collision, Collision],
  [Status.NewerRequest, NewerRequest],
  [Status.NotYet, NotYet],
]);

/** Events of a batch were not accepted; `results` says which, and why by name. */
class EventsFailed extends ClientError {
  constructor(results) {
    const said = results.slice(0, SHOWN).map((it) => `event ${it.index}: ${it.result}`);
    const more = results.length - SHOWN;
    super(said.join(", ") + (more > 0 ? `, and ${more} more` : ""));
    this.results = results;
  }
}

module.exports = {
  BadReply,
  Busy,
  Cancelled,
  CannotConnect,
  CannotStart,
  ClientError,
  ClockJumped,
  Closed,
  NotSupported,
  Collision,
  EventsFailed,
  Evicted,
  FileError,
  InDoubt,
  Invalid,
  InvalidType,
  InvalidValue,
  Locked,
  NewerRequest,
  NewerSession,
  NoSession,
  NotSent,
  NotYet,
  NothingInDoubt,
  Older,
  ProgramEnded,
  REFUSALS,
  Refused,
  ReplyLost,
  SessionTooLow,
};
