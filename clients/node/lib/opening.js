"use strict";

// A ledger by its file, or by its addresses: the same client.

const { CLIENTS_MAX } = require("../names.js");
const { Client, createClient } = require("./client.js");
const { InvalidType, InvalidValue } = require("./errors.js");
const { id } = require("./ids.js");
const { LedgerFile } = require("./ledger-file.js");
const { limited } = require("./limits.js");
const { Pool } = require("./pool.js");
const { kindOf, milliseconds, narrow, optionsOf, pathOf } = require("./values.js");

const PROFILES = 2;
const LOCK_TIMEOUT = 5000; // milliseconds that the child of a killed program may take to end
const AHEAD_MAX = 60_000; // milliseconds

function truthOf(field, value) {
  if (typeof value === "boolean") return value;
  throw new InvalidType(field, `must be true or false, not ${kindOf(value)}`);
}

function callOf(field, value) {
  if (typeof value === "function") return value;
  throw new InvalidType(field, `must be a function, not ${kindOf(value)}`);
}

function toStandardError(line) {
  process.stderr.write(`${line}\n`);
}

/** Shows on a terminal how much of a file was read, in a line that is gone at the end. */
function progressLine(file, stream) {
  if (!stream.isTTY) return undefined;
  return (done, size) => {
    const text = done === size ? "" : `reading ${file}: ${done} of ${size} MB`;
    stream.write(`\r\x1b[K${text}`);
  };
}

/** The options of `open`, each tested. One that it does not have is refused. */
function openOptions(file, given) {
  const {
    program,
    existing = false,
    clientsMax = CLIENTS_MAX,
    profile = 1,
    lockTimeout = LOCK_TIMEOUT,
    aheadMax = AHEAD_MAX,
    report = toStandardError,
    progress,
    dropTorn = false,
    ...others
  } = given;
  const [wrong] = Object.keys(others);
  if (wrong !== undefined) throw new InvalidValue(wrong, "is no option of open");
  return {
    program: program === undefined ? undefined : pathOf("program", program),
    existing: truthOf("existing", existing),
    clientsMax: narrow("clientsMax", clientsMax, CLIENTS_MAX, 1),
    profile: narrow("profile", profile, PROFILES, 1),
    lockTimeout: milliseconds("lockTimeout", lockTimeout, 0),
    aheadMax: aheadMax === null ? null : milliseconds("aheadMax", aheadMax, 0),
    report: callOf("report", report),
    progress: progress === undefined ? progressLine(file, process.stderr) : callOf("progress",
      progress),
    dropTorn: truthOf("dropTorn", dropTorn),
  };
}

/**
 * Opens the ledger in a file, which is made if it is not there (with `existing` that is a fault),
 * and resolves to its client once the file was read.
 *
 * tbd serves the file as a child of this process. If it is killed, it is started again, and calls
 * go on: a call that waits gets its first reply. It ends with this process. One process has a file
 * open: Locked names another. A fault of tbd is ProgramEnded, here or of a call, and the next call
 * starts tbd again.
 */
async function open(file, options) {
  const { signal, within, ...given } = optionsOf("options", options);
  const ledger = new LedgerFile(pathOf("file", file), openOptions(file, given));
  const limit = limited({ signal, within });
  try {
    await ledger.open(limit.signal);
  } catch (why) {
    await ledger.close();
    throw why;
  } finally {
    limit.done();
  }
  const pool = new Pool(() => ledger, 1, id);
  pool.begin();
  return new Client(pool);
}

/**
 * The client of a ledger that listens: on a port ("3001"), on a Unix socket, whose path has a
 * slash ("./ledger.sock"), or on several machines ("10.0.0.1:3001,10.0.0.2:3001"). It connects
 * when it is first asked. The options are those of `createClient`.
 */
function connect(addresses, options) {
  const given = optionsOf("options", options);
  return createClient({ ...given, cluster_id: 0n, replica_addresses: addresses });
}

module.exports = { connect, open };
