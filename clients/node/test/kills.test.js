"use strict";

// A program that opens a file, and its child, are killed amid transfers. KILLS says how often each.

const assert = require("node:assert/strict");
const { spawn } = require("node:child_process");
const { once } = require("node:events");
const path = require("node:path");
const { test } = require("node:test");
const { setTimeout: sleep } = require("node:timers/promises");

const tb = require("../index.js");
const { folderOf, keeper, killAll, serving, until } = require("../helpers/keepers.js");
const { madeBy } = require("../helpers/transferring.js");

const KILLS = Number(process.env.KILLS ?? 5);
const COUNT = 50 * KILLS;
const PAUSE_MAX = 20; // milliseconds before a kill
const PROGRAM = path.join(__dirname, "..", "helpers", "transferring.js");

function started(words) {
  return spawn(process.execPath, words, { stdio: ["pipe", "inherit", "inherit"] });
}

test("each call that returned is there once, nothing is twice, no child is left", async (t) => {
  const folder = folderOf(t);
  const [file, made] = ["books.tbk", "made"].map((it) => path.join(folder, it));
  const program = keeper(folder);
  const words = [PROGRAM, file, program, String(COUNT), made];
  let it = started(words);
  t.after(() => it.kill("SIGKILL"));
  for (let at = 0; at < 2 * KILLS; at += 1) {
    const least = (at * COUNT) / (2 * KILLS + 1);
    await until(() => madeBy(made).size > least || it.exitCode !== null);
    assert.equal(it.exitCode, null);
    await sleep(Math.random() * PAUSE_MAX);
    if (at % 2 === 0) killAll(serving(file));
    else {
      const ended = once(it, "exit");
      it.kill("SIGKILL");
      assert.deepEqual(await ended, [null, "SIGKILL"]);
      it = started(words);
    }
  }
  it.stdin.end();
  if (it.exitCode === null) await once(it, "exit");
  assert.equal(it.exitCode, 0);
  await until(() => serving(file).length === 0);
  assert.equal(madeBy(made).size, COUNT);
  const ledger = await tb.open(file, { program, existing: true });
  t.after(() => ledger.close());
  const ids = Array.from({ length: COUNT }, (_, at) => BigInt(at + 1));
  const found = [];
  for (let at = 0; at < COUNT; at += tb.ITEMS_MAX) {
    found.push(...(await ledger.lookupTransfers(ids.slice(at, at + tb.ITEMS_MAX))));
  }
  assert.deepEqual(found.map((it) => it.id), ids);
  assert.equal((await ledger.lookupAccounts([2n]))[0].credits_posted, BigInt(COUNT));
});
