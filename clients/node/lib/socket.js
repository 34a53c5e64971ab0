"use strict";

const dns = require("node:dns");
const net = require("node:net");
const tls = require("node:tls");
const { performance } = require("node:perf_hooks");

const {
  Busy,
  Cancelled,
  CannotConnect,
  Closed,
  InvalidType,
  InvalidValue,
  ReplyLost,
} = require("./errors.js");
const { testRequest } = require("./frames.js");
const { Incoming } = require("./incoming.js");
const { Turns, endConnecting, onAbort, paused, testLimit } = require("./limits.js");
const { bytesOf, kindOf, milliseconds, narrow, optionsOf, pathOf } = require("./values.js");

const TIMEOUT = 5000; // milliseconds
const FIRST_PAUSE = 20; // milliseconds, before the server is called again; doubled each time
const LAST_PAUSE = 500;
const FIRST_WORD = 2; // milliseconds in which a server that takes no more says so
const TICKET_MAX = 100; // milliseconds: not all servers send one
const TICKET_PART = 4; // of the time that is left a ticket is waited for a fourth at most
const PATHS_MAX = { linux: 107, win32: 255 };
const PATH_MAX = PATHS_MAX[process.platform] ?? 103; // bytes of a socket's path
const CLOSED = "this Socket was closed";
// begins what a server says before it closes a connection: fewer bytes than a frame has
const TOLD = "tb_listen: ";
const STARTING = "Starting";
// say to come later: there are too many connections, or the peer has its share
const LATER = new Set(["Busy", "TooManyConnections", "TooManySessions", "TooManyRequests"]);
// alerts of TLS by which a server refuses this client, whose request it does not read. The last
// one says so in TLS 1.2, if the server requires a certificate
const REFUSAL = /_ALERT_(?:\w*CERTIFICATE\w*|UNKNOWN_CA|ACCESS_DENIED|HANDSHAKE_FAILURE)$/;

function isRefusal(fault) {
  return REFUSAL.test(fault?.code ?? "");
}

/** Lets the system's news of connections come in: all that was there when this was called. */
function news() {
  return new Promise((resolve) => {
    setImmediate(() => setImmediate(resolve));
  });
}

/**
 * Calls this after a number of milliseconds, and not before what came until then is taken: a
 * program that was busy or stopped meanwhile finds its reply there.
 */
function after(ms, call) {
  return setTimeout(() => news().then(call), Math.max(Math.ceil(ms), 1));
}

/**
 * What to throw if a connection ended after these bytes: with the name that the server sent, if
 * it sent one.
 */
function lost(said, how) {
  const text = said.toString("latin1");
  if (!text.startsWith(TOLD)) return new ReplyLost(how);
  const told = text.slice(TOLD.length).trim().replace(/[^ -~]/g, "?"); // it may go to a terminal
  const Kind = LATER.has(told) ? Busy : ReplyLost;
  return new Kind(`the server closed the connection: ${told}`, told);
}

/** One connection, over which one request goes at a time. */
class Connection {
  #socket;
  #came = new Incoming();
  #end = ""; // how it ended
  #fault; // the system's, if one ended it
  #asked; // the request that is in flight
  #isUsed = false;
  #isAnswered = false;

  constructor(socket) {
    this.#socket = socket;
    socket.unref(); // until a request is in flight
    socket.on("data", (data) => this.#take(data));
    socket.on("end", () => this.#ended("the server closed the connection"));
    socket.on("error", (fault) => {
      this.#fault = fault;
      this.#ended(`the connection broke: ${fault.message}`);
    });
    socket.on("close", () => this.#ended("the connection was closed"));
  }

  /** Whether it ended, or something came while nothing was asked. */
  get isLeft() {
    return this.#end !== "" || this.#came.size > 0;
  }

  /**
   * Lets the server's first word come: that it takes no more, or over TLS 1.3 whether it takes this
   * client, whose ticket it then sends. Node gives up a connection on which a write fails, and with
   * it what came over it. So many milliseconds are left for the request.
   */
  async welcome(left, signal) {
    const most = Math.min(TICKET_MAX, left / TICKET_PART);
    const ticket = this.#ticket(most, signal); // it may come at once
    await news();
    if (!this.isLeft) await ticket;
  }

  async #ticket(ms, signal) {
    const it = this.#socket;
    if (it.getProtocol?.() !== "TLSv1.3") {
      await new Promise((resolve) => setTimeout(resolve, Math.min(FIRST_WORD, ms)));
      return;
    }
    await new Promise((resolve) => {
      let off = () => {};
      const end = () => {
        clearTimeout(timer);
        off();
        resolve();
      };
      const timer = after(ms, end);
      off = onAbort(signal, end);
      // nothing is written amid the reading of a ticket
      for (const word of ["session", "close"]) it.once(word, () => news().then(end));
    });
  }

  /** Sends a request, and waits for the reply to it. `late` says that no reply came in time. */
  ask(frame, ms, signal, late) {
    this.#socket.ref();
    this.#isUsed = true;
    return new Promise((resolve, reject) => {
      const asked = { frame, resolve, reject, off: () => {} };
      asked.timer = after(ms, () => {
        if (this.#asked === asked) this.#finish(new ReplyLost(late));
      });
      this.#asked = asked;
      if (this.#end === "") this.#socket.write(frame);
      this.#look();
      if (this.#asked !== asked) return;
      asked.off = onAbort(signal, () => this.#finish(new Cancelled(true, signal.reason)));
    });
  }

  close() {
    this.#socket.destroy();
    this.#ended("this side closed the connection");
  }

  #take(data) {
    this.#came.add(data);
    if (this.#asked !== undefined) this.#look();
    else if (this.#isUsed) this.#socket.destroy();
  }

  #ended(how) {
    if (this.#end === "") this.#end = how;
    this.#look();
  }

  /** Takes the reply if it is there, or the end. */
  #look() {
    if (this.#asked === undefined) return;
    try {
      const reply = this.#came.replyTo(this.#asked.frame);
      if (reply !== undefined) {
        this.#isAnswered = true;
        this.#finish(undefined, reply);
      } else if (this.#end !== "") this.#finish(this.#lost());
    } catch (fault) {
      this.#finish(fault);
    }
  }

  #lost() {
    // in TLS 1.3 the server says so when the client has agreed
    if (this.#isAnswered || !isRefusal(this.#fault)) return lost(this.#came.whole(), this.#end);
    const { reason, message } = this.#fault;
    const refused = new ReplyLost(`the server refuses this client: ${reason ?? message}`);
    return Object.assign(refused, { isDistrust: true });
  }

  #finish(fault, reply) {
    const { timer, off, resolve, reject } = this.#asked;
    this.#asked = undefined;
    clearTimeout(timer);
    off();
    this.#socket.unref(); // a connection at rest does not keep the program from its end
    if (fault === undefined) resolve(reply);
    else reject(fault);
  }
}

const lookups = new Map(); // the callbacks that wait for a host, by host and options

/**
 * Looks up a host. The system's lookup has no limit, and holds a thread of Node's few: all that ask
 * for the same host meanwhile share one.
 */
function lookUp(host, options, call) {
  const key = JSON.stringify([host, options]);
  const waiting = lookups.get(key);
  if (waiting !== undefined) {
    waiting.push(call);
    return;
  }
  const calls = [call];
  lookups.set(key, calls);
  dns.lookup(host, options, (...said) => {
    lookups.delete(key);
    for (const it of calls) it(...said);
  });
}

/** Begins to connect: over TLS if there are options for it. */
function begun(address, secure) {
  if (typeof address === "string") {
    // Node would cut it, to the path of another socket
    if (Buffer.byteLength(address) > PATH_MAX) throw new Error("the path is too long for a socket");
    return net.connect({ path: address });
  }
  const place = { ...address, lookup: lookUp, noDelay: true, autoSelectFamily: true };
  if (secure === undefined) return net.connect(place);
  const name = net.isIP(address.host) ? {} : { servername: address.host };
  return tls.connect({ rejectUnauthorized: true, ...name, ...secure, ...place });
}

/**
 * A new connection to an address, within a number of milliseconds. `hold` is given what ends the
 * call before that.
 */
function call(address, secure, ms, signal, hold) {
  return new Promise((resolve, reject) => {
    const it = begun(address, secure);
    let off = () => {};
    let isOver = false;
    const end = (fault) => {
      if (isOver) return;
      isOver = true;
      clearTimeout(timer);
      off();
      if (fault === undefined) {
        resolve(new Connection(it));
        return;
      }
      it.destroy();
      reject(fault);
    };
    const late = () => Object.assign(new Error("no connection came in time"), { isLate: true });
    const timer = after(ms, () => end(late()));
    it.once(it instanceof tls.TLSSocket ? "secureConnect" : "connect", () => end(undefined));
    it.on("error", (fault) => {
      fault.isDistrust = Boolean(it.authorizationError) || isRefusal(fault);
      end(fault);
    });
    off = onAbort(signal, () => end(new Cancelled(false, signal.reason)));
    hold(end);
  });
}

function addressOf(field, address) {
  if (typeof address === "string") return pathOf(field, address);
  if (typeof address !== "object" || address === null) {
    throw new InvalidType(field, `must be a path, or { host, port }, not ${kindOf(address)}`);
  }
  const { host, port } = address;
  if (typeof host !== "string") {
    throw new InvalidType(`${field}.host`, `must be a string, not ${kindOf(host)}`);
  }
  if (!/^[^\s\0]+$/.test(host)) throw new InvalidValue(`${field}.host`, "is no name of a host");
  return { host, port: narrow(`${field}.port`, port, 65535, 1) };
}

function addressesOf(address) {
  if (!Array.isArray(address)) return [addressOf("address", address)];
  if (address.length === 0) throw new InvalidValue("address", "has no address");
  return address.map((it, at) => addressOf(`address[${at}]`, it));
}

function secureOf(secure, addresses) {
  if (secure === undefined) return undefined;
  if (addresses.some((it) => typeof it === "string")) {
    throw new InvalidValue("tls", "is for a host and a port, not for a path");
  }
  return { ...optionsOf("tls", secure) };
}

function shownAddress(address) {
  if (typeof address === "string") return address;
  const { host, port } = address;
  return host.includes(":") ? `[${host}]:${port}` : `${host}:${port}`;
}

/**
 * A connection to a server at a Unix socket's path, or at a host and a port; or to one of several,
 * in an array.
 *
 * It is made when a request is to be sent. One that broke, that the server closed, or on which no
 * reply came in time is closed, and the next exchange makes a new one, to the next address if there
 * are several. If no connection can be made within `timeout`, nothing is sent, and it is
 * CannotConnect. Sessions may share a Socket: their exchanges go one after another.
 */
class Socket {
  #addresses;
  #at = 0;
  #gone; // the address that was given up last
  #cause; // the fault that is reported if no reply comes to this exchange, or undefined
  #timeout;
  #secure;
  #connection;
  #endCall; // ends the connecting
  #isClosed = false;
  #isEnding = false; // nothing is connected to any more
  #turns = new Turns();

  constructor(address, options) {
    const given = optionsOf("options", options);
    this.#addresses = addressesOf(address);
    const { timeout = TIMEOUT, tls: secure } = given;
    this.#timeout = milliseconds("timeout", timeout, 1);
    this.#secure = secureOf(secure, this.#addresses);
  }

  /** The address of the connection, or of the next one. */
  get address() {
    const it = this.#addresses[this.#at];
    return typeof it === "string" ? it : { ...it };
  }

  /** Sends the frame of a request, and returns the frame of the reply to it. */
  async exchange(frame, options) {
    const request = bytesOf("frame", frame);
    testRequest(request);
    const signal = options?.signal;
    await this.#turns.take(signal);
    try {
      this.#testOpen();
      const deadline = performance.now() + this.#timeout;
      const refusing = new Set();
      this.#cause = undefined;
      for (let pause = FIRST_PAUSE;; pause = Math.min(2 * pause, LAST_PAUSE)) {
        const connection = await this.#connected(deadline, signal);
        this.#testOpen(); // a close may have come after the connection was made
        try {
          const left = deadline - performance.now();
          return await connection.ask(request, left, signal, this.#late());
        } catch (fault) {
          this.#lose();
          if (fault.isDistrust) refusing.add(shownAddress(this.#gone));
          // a server that still reads its ledger takes no request
          else if (fault.told !== STARTING) throw fault;
          this.#keep(fault);
          const isRefused = this.#addresses.every((it) => refusing.has(shownAddress(it)));
          if (isRefused || deadline - performance.now() <= pause) {
            throw this.#notConnected(isRefused);
          }
        }
        await paused(pause, signal, false);
        this.#testOpen();
      }
    } finally {
      this.#turns.give();
    }
  }

  /** Connects no more. An exchange in flight goes on. */
  [endConnecting]() {
    this.#isEnding = true;
    this.#endCall?.(new Closed(CLOSED));
  }

  /** Closes the connection, at once: an exchange in flight is ReplyLost. Later ones are Closed. */
  close() {
    this.#isClosed = true;
    this.#endCall?.(new Closed(CLOSED));
    this.#connection?.close();
    this.#connection = undefined;
  }

  #testOpen() {
    if (this.#isClosed || this.#isEnding) throw new Closed(CLOSED);
  }

  /** The connection, made again if it is missing, or if the server closed it. */
  async #connected(deadline, signal) {
    if (this.#connection !== undefined) await news();
    this.#testOpen();
    testLimit(signal, false);
    if (this.#connection?.isLeft) this.#lose();
    for (let pause = FIRST_PAUSE; this.#connection === undefined;) {
      const faults = await this.#callEach(deadline, signal);
      if (faults.length === 0) break;
      const left = deadline - performance.now();
      const isFinal = faults.every((it) => it.isDistrust);
      if (left <= 0 || isFinal) throw this.#notConnected(isFinal);
      await paused(Math.min(pause, left), signal, false);
      this.#testOpen();
      pause = Math.min(2 * pause, LAST_PAUSE);
    }
    testLimit(signal, false); // which may have ended while the server's first word was waited for
    return this.#connection;
  }

  /** Keeps why no reply came. The end of the time says less than a fault before it. */
  #keep(fault) {
    if (this.#cause !== undefined && fault.isLate) return;
    this.#cause = { fault, place: shownAddress(this.#gone) };
  }

  #late() {
    if (this.#cause === undefined) return "no reply came in time";
    return `no reply came in time, after ${this.#notConnected().message}`;
  }

  #notConnected(isFinal) {
    const { fault, place } = this.#cause;
    return new CannotConnect(`${place}: ${fault.message || fault.code}`, { cause: fault, isFinal });
  }

  /**
   * Calls the addresses in turn, from the present one on, until one replies. Returns their faults
   * if none does.
   */
  async #callEach(deadline, signal) {
    const faults = [];
    for (let left = this.#addresses.length; left > 0; left -= 1) {
      try {
        // of the time, so that one that does not answer leaves some
        const share = (deadline - performance.now()) / left;
        const hold = (end) => {
          this.#endCall = end;
        };
        const connection = await call(this.address, this.#secure, share, signal, hold);
        await connection.welcome(deadline - performance.now(), signal);
        if (this.#isClosed || this.#isEnding) connection.close();
        this.#testOpen();
        this.#connection = connection;
        return [];
      } catch (why) {
        if (why instanceof Cancelled || why instanceof Closed) throw why;
        faults.push(why);
        this.#next();
        this.#keep(why);
      }
    }
    return faults;
  }

  #next() {
    this.#gone = this.address;
    this.#at = (this.#at + 1) % this.#addresses.length;
  }

  /** Closes the connection. The next one goes to the next address. */
  #lose() {
    this.#connection?.close();
    this.#connection = undefined;
    this.#next();
  }
}

module.exports = { Socket };
