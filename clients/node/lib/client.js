"use strict";

// A client with the face of TigerBeetle's own for Node, over a pool of sessions.

const { CLIENTS_MAX, Operation } = require("../names.js");
const { addressesOf } = require("./addresses.js");
const { NotSupported } = require("./errors.js");
const { id } = require("./ids.js");
const { limited } = require("./limits.js");
const { Pool } = require("./pool.js");
const { Socket } = require("./socket.js");
const { U64, U128, narrow, optionsOf, wide } = require("./values.js");

const LOOKUP_ACCOUNTS = "lookupAccounts by ids, or tb-sql over the ledger's history";
const LOOKUP_TRANSFERS = "lookupTransfers by ids, or tb-sql over the ledger's history";

/** Makes ids whose upper 64 bits are this number. */
function idsOf(range) {
  if (range === undefined) return id;
  const upper = wide("client_range", range, U64);
  return () => (upper << 64n) | (id() & U64) || 1n;
}

/**
 * A client that callers share, with the calls of TigerBeetle's own. Lists of calls that wait while
 * a request is in flight go out as the next request, and each call gets its own results.
 *
 * A call waits until its reply is there, whatever is lost and whoever ends meanwhile, or until its
 * `signal` or `within` ends it. One that ends does not disturb the others. A session that was
 * evicted is replaced, and what was in doubt then is settled.
 *
 * Nothing outlives the process: for requests that have to survive it, use a Session and `save`.
 */
class Client {
  #pool;

  constructor(pool) {
    this.#pool = pool;
  }

  /** Creates accounts. Returns the results of those that were not created, by index. */
  createAccounts(accounts, options) {
    return this.#ask(Operation.create_accounts, accounts, options);
  }

  /** Makes transfers. Returns the results of those that were not made, by index. */
  createTransfers(transfers, options) {
    return this.#ask(Operation.create_transfers, transfers, options);
  }

  /** The accounts that are there, in the order of the ids. */
  lookupAccounts(ids, options) {
    return this.#ask(Operation.lookup_accounts, ids, options);
  }

  /** The transfers that are there, in the order of the ids. */
  lookupTransfers(ids, options) {
    return this.#ask(Operation.lookup_transfers, ids, options);
  }

  /** TigerBeetle's queries, which the server does not answer: each is NotSupported. */
  async queryAccounts() {
    throw new NotSupported("queryAccounts", LOOKUP_ACCOUNTS);
  }

  async queryTransfers() {
    throw new NotSupported("queryTransfers", LOOKUP_TRANSFERS);
  }

  async getAccountTransfers() {
    throw new NotSupported("getAccountTransfers", LOOKUP_TRANSFERS);
  }

  async getAccountBalances() {
    throw new NotSupported("getAccountBalances", LOOKUP_ACCOUNTS);
  }

  /**
   * Closes the client. A request in flight is waited for, as long as one sending may take; calls
   * of which nothing was sent are Closed.
   */
  close() {
    return this.#pool.close();
  }

  /** Begins to close the client, as TigerBeetle's does. */
  destroy() {
    this.close().catch(() => {});
  }

  async #ask(operation, items, options) {
    const limit = limited(options);
    try {
      return await this.#pool.ask(operation, items, limit.signal);
    } finally {
      limit.done();
    }
  }
}

// Node 18.0 has no such symbol
if (Symbol.asyncDispose !== undefined) {
  Object.defineProperty(Client.prototype, Symbol.asyncDispose, {
    value() {
      return this.close();
    },
    configurable: true,
    writable: true,
  });
}

/** A client of the server at these addresses. It connects nothing yet. */
function createClient(options) {
  const given = optionsOf("options", options);
  const { cluster_id, replica_addresses, sessions = 1, client_range, ...socket } = given;
  wide("cluster_id", cluster_id, U128);
  const addresses = addressesOf(replica_addresses);
  const connect = () => new Socket(addresses, socket);
  connect().close(); // which refuses what it cannot take
  const most = narrow("sessions", sessions, CLIENTS_MAX, 1);
  return new Client(new Pool(connect, most, idsOf(client_range)));
}

module.exports = { Client, createClient };
