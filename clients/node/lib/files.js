"use strict";

// The file that keeps a session: written whole or not at all, and read if it is one.

const { randomBytes } = require("node:crypto");
const { constants, promises: fs } = require("node:fs");
const path = require("node:path");

const { FileError, InvalidType, InvalidValue } = require("./errors.js");
const { parsed } = require("./json.js");
const { U32, kindOf, shown } = require("./values.js");

const FILE_MAX = 1 << 22; // bytes: the largest request takes half of that, in hex
const FIELDS = ["client", "session", "number", "pending"];
const LEFT = /^\.\d+-[0-9a-f]{16}\.new$/; // the rest of a name of what a crash left
const LEFT_MAX = 60_000; // milliseconds: no writing takes so long
const LINKS_MAX = 40; // that the system follows
const swept = new Set();

// As text

/** What was saved, as the JSON of a file. */
function savedText({ client, session, number, pending }) {
  return (
    `{"client": ${client}, "session": ${session}, "number": ${number}, ` +
    `"pending": "${pending}"}`
  );
}

/** What the JSON of a file says was saved. Its numbers are exact. */
function decodeSaved(text) {
  if (typeof text !== "string") {
    throw new InvalidType("saved", `must be a string, not ${kindOf(text)}`);
  }
  let found;
  try {
    found = parsed(text);
  } catch (fault) {
    throw new InvalidValue("saved", `is no JSON of a session: ${fault.message}`);
  }
  if (!(found instanceof Map)) throw new InvalidType("saved", "is no object");
  const saved = {};
  for (const field of FIELDS) {
    if (!found.has(field)) throw new InvalidValue(`saved.${field}`, "is missing");
    saved[field] = found.get(field);
  }
  return { ...saved, number: numberOf(saved.number) };
}

function numberOf(value) {
  if (typeof value !== "bigint") {
    throw new InvalidType("saved.number", `must be an integer, not ${kindOf(value)}`);
  }
  if (value < 0n || value > BigInt(U32)) {
    throw new InvalidValue("saved.number", `must be 0 to ${U32}, not ${shown(value)}`);
  }
  return Number(value);
}

// In a file

async function system(name, call) {
  try {
    return await call();
  } catch (fault) {
    if (fault instanceof InvalidValue || typeof fault?.code !== "string") throw fault;
    throw new FileError(name, fault);
  }
}

/** Refuses what gives no end or waits for others: a folder, a pipe, a device. */
function testIsFile(status) {
  if (!status.isFile()) throw new InvalidValue("path", "is no file, but a folder, pipe or device");
}

/** The text of a file that may be a session's. */
function readText(name) {
  return system(name, async () => {
    const it = await fs.open(name, constants.O_RDONLY | constants.O_NONBLOCK);
    try {
      const status = await it.stat();
      testIsFile(status);
      if (status.size > FILE_MAX) {
        throw new InvalidValue("saved", `is no session: the file has more than ${FILE_MAX} bytes`);
      }
      return (await it.readFile()).toString("latin1");
    } finally {
      await it.close();
    }
  });
}

/**
 * Puts a file at this path, or at the target of a link there, with this text, and with the old
 * one's permissions. If that fails, the old file is left, and nothing next to it.
 */
function writeWhole(given, text) {
  return system(given, async () => {
    const name = await linked(given);
    const mode = await modeOf(name);
    await sweep(name);
    const beside = `${name}.${process.pid}-${randomBytes(8).toString("hex")}.new`;
    try {
      await writeSynced(beside, text, mode);
      await fs.rename(beside, name);
    } catch (fault) {
      await fs.rm(beside, { force: true });
      throw fault;
    }
    await syncFolder(path.dirname(name));
  });
}

/** The path that the symbolic links at a path lead to, whether a file is there or not. */
async function linked(name) {
  let found = name;
  for (let left = LINKS_MAX; left > 0; left -= 1) {
    const to = await fs.readlink(found).catch(() => undefined);
    if (to === undefined) break; // it is no link
    found = path.isAbsolute(to) ? to : `${path.dirname(found)}/${to}`;
  }
  return found;
}

/** The permissions of the file that is to be replaced, or 0600 if there is no file. */
async function modeOf(name) {
  try {
    const status = await fs.stat(name);
    testIsFile(status);
    return status.mode & 0o777;
  } catch (fault) {
    if (fault.code !== "ENOENT") throw fault;
    return 0o600;
  }
}

async function writeSynced(name, text, mode) {
  const it = await fs.open(name, "wx", 0o600);
  try {
    await it.chmod(mode).catch(() => {}); // a file system without
    await it.writeFile(text, "latin1");
    await it.sync();
  } finally {
    await it.close();
  }
}

async function syncFolder(name) {
  if (process.platform === "win32") return; // there it fails with EPERM
  const it = await fs.open(name, "r");
  try {
    await it.sync();
  } finally {
    await it.close();
  }
}

/** Removes what a crash in a writing before left next to a file: once in a process. */
async function sweep(name) {
  const place = path.resolve(name);
  if (swept.has(place)) return;
  const folder = path.dirname(place);
  const base = path.basename(place);
  for (const it of await fs.readdir(folder)) {
    if (!it.startsWith(base) || !LEFT.test(it.slice(base.length))) continue;
    const left = path.join(folder, it);
    try {
      if (Date.now() - (await fs.stat(left)).mtimeMs > LEFT_MAX) await fs.rm(left);
    } catch {
      // another one has removed it
    }
  }
  swept.add(place);
}

module.exports = { decodeSaved, readText, savedText, writeWhole };
