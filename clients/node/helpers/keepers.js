"use strict";

// Programs and files for the tests of `open`.

const { readFileSync, readdirSync, mkdtempSync, rmSync, writeFileSync } = require("node:fs");
const { tmpdir } = require("node:os");
const path = require("node:path");
const { setTimeout: sleep } = require("node:timers/promises");

const STAND_IN = path.join(__dirname, "..", "..", "python", "tests", "stand_in_tbd.py");
const SECONDS = 120; // that something may take on a busy computer

/** A folder of a test, which is removed after it. */
function folderOf(t) {
  const folder = mkdtempSync(path.join(tmpdir(), "tb-open-"));
  t.after(() => rmSync(folder, { recursive: true }));
  return folder;
}

/** A program of the shell. */
function script(folder, name, ...lines) {
  const place = path.join(folder, name);
  writeFileSync(place, ["#!/bin/sh", ...lines, ""].join("\n"), { mode: 0o755 });
  return place;
}

/** tbd of the variable TBD, or its stand-in, which fails as it is told. */
function keeper(folder, fail = "") {
  if (process.env.TBD && fail === "") return process.env.TBD;
  return script(folder, "tbd", `FAIL='${fail}' exec python3 -SE '${STAND_IN}' "$@"`);
}

/** The processes that serve a file. */
function serving(file) {
  return readdirSync("/proc").filter((it) => {
    try {
      return readFileSync(`/proc/${it}/cmdline`, "latin1").includes(`\0run\0${file}\0`);
    } catch {
      return false;
    }
  }).map(Number);
}

/** Kills processes, of which some may have ended. */
function killAll(processes) {
  for (const it of processes) {
    try {
      process.kill(it, "SIGKILL");
    } catch (why) {
      if (why.code !== "ESRCH") throw why;
    }
  }
}

/** Waits until this holds. */
async function until(holds) {
  for (const end = Date.now() + 1000 * SECONDS; !holds();) {
    if (Date.now() > end) throw new Error(`not within ${SECONDS} seconds: ${holds}`);
    await sleep(2);
  }
}

module.exports = { SECONDS, STAND_IN, folderOf, keeper, killAll, script, serving, until };
