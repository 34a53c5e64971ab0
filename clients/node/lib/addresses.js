"use strict";

// Addresses as TigerBeetle's clients take them.

const { InvalidType, InvalidValue } = require("./errors.js");
const { kindOf, listed, narrow } = require("./values.js");

const HOST = "127.0.0.1"; // if only a port is given
const PORT = 3001; // if only a host is given
// a number in brackets with or without a port, only a port, a name with or without a port
const FORMS = [/^\[([^\]]+)\](?::(\d+))?$/, /^()(\d+)$/, /^([^:]*)(?::(\d+))?$/];

function addressOf(text) {
  if (text.includes("/")) return text;
  const [, host, port] = FORMS.map((it) => it.exec(text)).find((it) => it !== null) ?? [];
  if (text === "" || host === undefined || (host === "" && port === undefined)) {
    const problem = "write a port, HOST, HOST:PORT, or a path with a slash";
    throw new InvalidValue("replica_addresses", `has "${text.slice(0, 60)}": ${problem}`);
  }
  return { host: host || HOST, port: port === undefined ? PORT : Number(port) };
}

/**
 * Addresses as Socket takes them, of an array or one of them: ports, hosts with or without a port,
 * or paths of Unix sockets, which have a slash. A text may be several with commas between.
 */
function addressesOf(given) {
  const all = Array.isArray(given) ? listed("replica_addresses", given) : [given];
  for (const it of all) {
    if (typeof it === "number") narrow("replica_addresses", it, 65535, 1);
    else if (typeof it !== "string") {
      throw new InvalidType("replica_addresses", `must be text or ports, not ${kindOf(it)}`);
    }
  }
  return all.flatMap((it) => String(it).split(",")).map((it) => addressOf(it.trim()));
}

module.exports = { addressesOf };
