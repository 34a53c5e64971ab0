#!/usr/bin/env node

"use strict";

// The runner of this client for the conformance kit: a JSON line in, a JSON line out.
//
//     clients/conformance/kit.py -- node clients/node/conformance-runner.js

const { AsyncLocalStorage } = require("node:async_hooks");
const { readFileSync } = require("node:fs");

const tb = require("./index.js");
const { LAYOUTS } = require("./names.js");
const { Ids } = require("./lib/ids.js");

const FEATURES = ["unix", "tcp", "addresses", "tls", "parallel", "cancel", "shared"];
const CALLS = {
  create_accounts: "createAccounts",
  create_transfers: "createTransfers",
  lookup_accounts: "lookupAccounts",
  lookup_transfers: "lookupTransfers",
};
const CREATES = new Set([tb.Operation.create_accounts, tb.Operation.create_transfers]);
const OPERATION_AT = LAYOUTS.request_header.find((it) => it.name === "operation").at;
const FLAGS = { account: tb.AccountFlags, transfer: tb.TransferFlags };
const WIDE = new Set(
  [...LAYOUTS.account, ...LAYOUTS.transfer].filter((it) => it.bytes >= 8).map((it) => it.name),
);

/** The kit asks for what this runner does not know. */
class Unsupported extends Error {}

/** The answer of a call that was begun is that of `end`. */
class Ended extends Error {
  constructor(answer) {
    super("ended");
    this.answer = answer;
  }
}

/** JavaScript has no such value. */
class Unrepresentable extends Error {}

// Values

function doubleOf(text, isWide) {
  const number = Number(text);
  if (!isWide && Number.isInteger(number)) {
    throw new Unrepresentable("a double that is whole is an integer");
  }
  return number;
}

/** What a JSON value stands for: a text is an integer, and other kinds are marked. */
function valueOf(given, isWide) {
  if (typeof given === "string") return isWide ? BigInt(given) : Number(given);
  if (typeof given !== "object" || given === null) return given;
  const [[kind, inside]] = Object.entries(given);
  return kind === "float" ? doubleOf(inside, isWide) : inside;
}

function fieldOf(kind, name, given) {
  if (name === "flags" && Array.isArray(given)) {
    return given.reduce((flags, it) => flags | FLAGS[kind][it], 0);
  }
  return valueOf(given, WIDE.has(name));
}

function itemOf(operation, given) {
  if (typeof given !== "object" || given === null || !("kind" in given || "id" in given)) {
    return valueOf(given, true);
  }
  const { kind, ...fields } = given;
  const of = kind ?? (operation === "create_accounts" ? "account" : "transfer");
  const pairs = Object.entries(fields).map(([name, it]) => [name, fieldOf(of, name, it)]);
  const record = Object.fromEntries(pairs);
  return kind === undefined ? record : tb[kind](record);
}

function itemsOf(operation, given) {
  if (Array.isArray(given)) return given.map((it) => itemOf(operation, it));
  if (typeof given !== "object" || given === null || !("count" in given)) {
    return valueOf(given, true);
  }
  const { count, first } = given;
  const isId = typeof first === "string";
  const start = BigInt(isId ? first : first.id);
  return Array.from({ length: count }, (_, at) => {
    const id = String(start + BigInt(at));
    return itemOf(operation, isId ? id : { ...first, id });
  });
}

/** Changes a caller's items after a call. */
function change(items) {
  for (const it of items) {
    if (typeof it === "object" && !Object.isFrozen(it)) it.id = 0n;
  }
  items.fill(0n);
}

function operationOf(given) {
  return typeof given === "string" && given in tb.Operation
    ? tb.Operation[given]
    : valueOf(given, false);
}

function shownFlags(kind, flags) {
  const names = tb.flagNames(FLAGS[kind], flags);
  const sum = names.reduce((all, it) => all + FLAGS[kind][it], 0);
  return sum === flags ? names : String(flags);
}

function shownRecord(record) {
  const kind = "amount" in record ? "transfer" : "account";
  const fields = Object.entries(record).map(([name, it]) => [name, String(it)]);
  return { ...Object.fromEntries(fields), flags: shownFlags(kind, record.flags) };
}

function shownResults(results) {
  return results.map(({ index, result }) => ({ index, result }));
}

function shownSaved({ saved }) {
  return { ...saved, ...shownNumbers(saved) };
}

function shownNumbers({ client, session, number }) {
  return { client: String(client), session: String(session), number: String(number) };
}

function shownError(error) {
  if (error instanceof Unsupported) return { unsupported: error.message };
  if (error instanceof Unrepresentable) return { unrepresentable: error.message };
  if (!(error instanceof tb.ClientError)) throw error;
  const { field, told, sent } = error;
  const results = error.results && shownResults(error.results);
  const name = error instanceof tb.FileError ? "File" : error.name;
  return { error: { name, sent, field, told, results } };
}

/** An option in seconds, as milliseconds, or a marked value. */
function optionOf(name, given) {
  if (typeof given === "object") return valueOf(given, true);
  return name === "attempts" ? given : given * 1000;
}

function optionsOf(line) {
  const names = ["attempts", "pause", "within"].filter((name) => name in line);
  return Object.fromEntries(names.map((name) => [name, optionOf(name, line[name])]));
}

function clientOf(line) {
  return "client" in line ? { client: valueOf(line.client, true) } : {};
}

function secureOf({ ca, cert, key }) {
  const files = Object.entries({ ca, cert, key }).filter(([, path]) => path !== undefined);
  return Object.fromEntries(files.map(([name, path]) => [name, readFileSync(path)]));
}

// Calls

const sending = new AsyncLocalStorage();

/** Keeps the operation that a call sent last: `retry` sends what is in doubt at its turn. */
class KeepingSocket extends tb.Socket {
  exchange(frame, options) {
    const call = sending.getStore();
    if (call !== undefined) call.operation = frame[OPERATION_AT];
    return super.exchange(frame, options);
  }
}

class Runner {
  #transports = new Map();
  #sessions = new Map();
  #shared = new Map();
  #begun = new Map();

  async answer(line) {
    const call = typeof line.do === "string" && this[`do_${line.do}`];
    if (!call) return { unsupported: `no call ${line.do}` };
    try {
      return { ok: (await call.call(this, line)) ?? null };
    } catch (error) {
      return error instanceof Ended ? error.answer : shownError(error);
    }
  }

  #session(line) {
    const found = this.#sessions.get(line.session);
    if (found === undefined) throw new Unsupported(`no session ${line.session}`);
    return found;
  }

  #transport(line) {
    const found = this.#transports.get(line.transport);
    if (found === undefined) throw new Unsupported(`no transport ${line.transport}`);
    return found;
  }

  #client(line) {
    const found = this.#shared.get(line.shared);
    if (found === undefined) throw new Unsupported(`no shared client ${line.shared}`);
    return found;
  }

  #call(line) {
    const found = this.#begun.get(line.call);
    if (found === undefined) throw new Unsupported(`no call ${line.call}`);
    return found;
  }

  #kept(line, session) {
    this.#sessions.set(line.session, session);
    return session;
  }

  do_hello() {
    const language = `Node ${process.versions.node}`;
    return { protocol: 1, client: "tb-client", language, features: FEATURES };
  }

  do_reset() {
    for (const it of this.#transports.values()) it.close();
    for (const { controller } of this.#begun.values()) controller.abort();
    for (const it of this.#shared.values()) it.destroy();
    for (const it of [this.#transports, this.#sessions, this.#shared, this.#begun]) it.clear();
  }

  do_connect(line) {
    const addresses = line.addresses.map((it) => it.unix ?? { host: it.host, port: it.port });
    const options = {};
    if ("timeout" in line) options.timeout = optionOf("timeout", line.timeout);
    if ("tls" in line) options.tls = secureOf(line.tls);
    const place = addresses.length === 1 ? addresses[0] : addresses;
    this.#transports.set(line.transport, new KeepingSocket(place, options));
  }

  do_open(line) {
    const options = { ...clientOf(line), ...optionsOf(line) };
    const session = this.#kept(line, new tb.Session(this.#transport(line), options));
    return { client: String(session.client) };
  }

  async do_register(line) {
    const options = { ...clientOf(line), ...optionsOf(line) };
    const session = await tb.Session.register(this.#transport(line), options);
    this.#kept(line, session);
    return { client: String(session.client), session: String(session.session) };
  }

  async do_load(line) {
    const session = await tb.Session.load(this.#transport(line), line.path, optionsOf(line));
    return shownSaved(this.#kept(line, session));
  }

  do_resume(line) {
    const saved = {};
    for (const [name, it] of Object.entries(line.saved)) {
      saved[name] = name === "pending" ? it : valueOf(it, name !== "number");
    }
    const session = tb.Session.resumed(this.#transport(line), saved, optionsOf(line));
    return shownSaved(this.#kept(line, session));
  }

  do_prepare(line) {
    const { operation, items = [] } = line;
    const given = itemsOf(operation, items);
    this.#session(line).prepare(operationOf(operation), given);
    if (line.changes) change(given);
  }

  async do_retry(line) {
    const session = this.#session(line);
    const call = {};
    const said = await sending.run(call, () => session.retry(optionsOf(line)));
    return this.#said(session, said, line, call.operation);
  }

  do_share(line) {
    const replica_addresses = line.addresses.map((it) => it.unix ?? `${it.host}:${it.port}`);
    const options = { cluster_id: 0n, replica_addresses };
    if ("timeout" in line) options.timeout = optionOf("timeout", line.timeout);
    if ("sessions" in line) options.sessions = line.sessions;
    if ("tls" in line) options.tls = secureOf(line.tls);
    this.#shared.set(line.shared, tb.createClient(options));
  }

  do_begin(line) {
    this.#client(line);
    const controller = new AbortController();
    const answer = this.answer({ ...line, do: "ask", signal: controller.signal });
    this.#begun.set(line.call, { controller, answer });
  }

  do_end(line) {
    throw new Ended(this.#call(line).answer);
  }

  do_leave(line) {
    this.#call(line).controller.abort();
  }

  async #askShared(line) {
    const { operation, items = [], signal } = line;
    const options = signal === undefined ? optionsOf(line) : { ...optionsOf(line), signal };
    const said = await this.#client(line)[CALLS[operation]](itemsOf(operation, items), options);
    return this.#said(undefined, said, line, operationOf(operation));
  }

  async do_ask(line) {
    if ("shared" in line) return this.#askShared(line);
    const { operation, items = [] } = line;
    const session = this.#session(line);
    if (operation in CALLS) {
      const call = session[CALLS[operation]](itemsOf(operation, items), optionsOf(line));
      return this.#said(session, await call, line, operationOf(operation));
    }
    session.prepare(operationOf(operation), itemsOf(operation, items));
    return this.do_retry(line);
  }

  #said(session, said, line, operation) {
    if (line.require_ok) tb.requireOk(said);
    if (said === undefined) return { session: String(session.session) };
    if (CREATES.has(operation)) return { results: shownResults(said) };
    return { records: said.map(shownRecord) };
  }

  do_saved(line) {
    return shownSaved(this.#session(line));
  }

  do_save(line) {
    return this.#session(line).save(line.path);
  }

  do_in_doubt(line) {
    const asked = this.#session(line).inDoubt;
    if (asked === null) return null;
    const items = asked.items.map((it) => (typeof it === "bigint" ? String(it) : shownRecord(it)));
    return { ...shownNumbers(asked), operation: asked.operation, items };
  }

  do_close(line) {
    if ("shared" in line) return this.#client(line).close();
    return ("session" in line ? this.#session(line) : this.#transport(line)).close();
  }

  do_drop(line) {
    this.#session(line);
    this.#sessions.delete(line.session);
  }

  async do_ids(line) {
    if ("times" in line) {
      const times = line.times[Symbol.iterator]();
      const drawn = line.random[Symbol.iterator]();
      const draw = () => Buffer.from(drawn.next().value, "hex");
      const ids = new Ids(() => times.next().value, draw);
      return line.times.map(() => String(ids.next()));
    }
    const { count = 1, threads = 1 } = line;
    const some = async () => Array.from({ length: count / threads }, () => String(tb.id()));
    return (await Promise.all(Array.from({ length: threads }, some))).flat();
  }

  do_parallel(line) {
    return Promise.all(line.calls.map((it) => this.answer(it)));
  }
}

// Lines

async function main() {
  const runner = new Runner();
  let rest = "";
  process.stdin.setEncoding("utf8");
  for await (const text of process.stdin) {
    const lines = (rest + text).split("\n");
    rest = lines.pop();
    for (const line of lines) {
      process.stdout.write(`${JSON.stringify(await runner.answer(JSON.parse(line)))}\n`);
    }
  }
}

main();
