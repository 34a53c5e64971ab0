"use strict";

// Which process has a file locked.

const { readFileSync, statSync } = require("node:fs");

const LOCKS = "/proc/locks";
const SHOWN = 200; // characters of a command

/** The device of a file, as the system's list of locks has it. */
function deviceOf(dev) {
  const major = ((dev >> 8n) & 0xfffn) | ((dev >> 32n) & ~0xfffn);
  const minor = (dev & 0xffn) | ((dev >> 12n) & ~0xffn);
  return [major, minor].map((it) => it.toString(16).padStart(2, "0")).join(":");
}

function textOf(path) {
  try {
    return readFileSync(path, "utf8");
  } catch {
    return "";
  }
}

function commandOf(process) {
  return textOf(`/proc/${process}/cmdline`).replaceAll("\0", " ").trim().slice(0, SHOWN);
}

function parentOf(process) {
  const [, parent = "0"] = / \S (\d+)/.exec(textOf(`/proc/${process}/stat`).split(")").pop()) ?? [];
  return Number(parent);
}

/**
 * The process that holds the lock of a file, and a text on it with its parent: as far as the
 * system says.
 */
function ownerOf(path) {
  let found;
  try {
    found = statSync(path, { bigint: true });
  } catch {
    return undefined;
  }
  const place = `${deviceOf(found.dev)}:${found.ino}`;
  // 1: FLOCK ADVISORY WRITE 4711 fe:00:10952783 0 EOF; one that waits has an arrow
  const lines = textOf(LOCKS).split("\n").map((it) => it.trim().split(/\s+/));
  const locks = lines.filter((it) => it[1] === "FLOCK" && it[5]?.endsWith(`:${found.ino}`));
  const lock = locks.find((it) => it[5] === place) ?? locks[0]; // some have another device there
  const process = Number(lock?.[4] ?? 0);
  if (process <= 0) return undefined; // it is none that this process may see
  const parent = parentOf(process);
  const started = parent ? `, started by process ${parent} (${commandOf(parent)})` : "";
  return { process, text: `process ${process} (${commandOf(process)})${started}` };
}

module.exports = { ownerOf };
