"use strict";

// The package as it is installed: its files, its types, and the README's program as printed, over
// a listener and a server. What is not installed is passed over.

const assert = require("node:assert/strict");
const { spawn, spawnSync } = require("node:child_process");
const { mkdtempSync, readFileSync, rmSync, writeFileSync } = require("node:fs");
const net = require("node:net");
const { tmpdir } = require("node:os");
const path = require("node:path");
const { after, before, test } = require("node:test");

const tb = require("../index.js");
const { keeper } = require("../helpers/keepers.js");

const TOP = path.dirname(__dirname);
const SESSIONS = 64; // that the server keeps
const STAND_IN = path.join(TOP, "..", "python", "tests", "stand_in_tbd.py");
const LISTENER = path.join(TOP, "..", "..", "server", "out", "tb-listen");

const folder = mkdtempSync(path.join(tmpdir(), "tb-client-"));
after(() => rmSync(folder, { recursive: true }));

function isThere(program) {
  return spawnSync(program, ["--version"]).error === undefined;
}

function run(program, words, cwd) {
  const ran = spawnSync(program, words, { cwd, encoding: "utf8" });
  assert.equal(ran.status, 0, `${program} ${words.join(" ")}: ${ran.stdout}${ran.stderr}`);
  return ran.stdout;
}

const skip = isThere("npm") ? false : "npm is not there";

before(() => {
  if (skip) return;
  const [{ filename, files }] = JSON.parse(run("npm", ["pack", "--json", TOP], folder));
  const kept = files.map((it) => it.path).sort();
  assert.deepEqual(
    kept.filter((it) => !it.startsWith("lib/")),
    ["README.md", "index.d.ts", "index.js", "names.d.ts", "names.js", "package.json"],
  );
  assert.deepEqual(kept.filter((it) => !/\.(js|d\.ts|md|json)$/.test(it)), []);
  writeFileSync(path.join(folder, "package.json"), "{}");
  run("npm", ["install", "--offline", "--no-audit", "--no-fund", `./${filename}`], folder);
});

test("its names, by require and by import", { skip }, () => {
  const required = run("node", ["-p", 'Object.keys(require("tb-client")).join()'], folder).trim();
  const code = 'import * as it from "tb-client"; console.log(Object.keys(it).join())';
  const imported = run("node", ["--input-type=module", "-e", code], folder).trim();
  const names = imported.split(",").filter((it) => it !== "default" && it !== "module.exports");
  assert.deepEqual(names.sort(), required.split(",").sort());
  const types = readFileSync(path.join(TOP, "index.d.ts"), "utf8");
  for (const name of names) assert.match(types, new RegExp(`\\b${name}\\b`), name);
});

test("the types, by tsc", { skip: isThere("tsc") ? false : "tsc is not there" }, () => {
  run("tsc", ["-p", "."], TOP);
});

/** A listener with a server behind it, that keeps its ledger in a file. */
async function listener() {
  const server = ["python3", "-SE", STAND_IN];
  const words = ["--unix", "real.sock", "--", ...server];
  words.push("run", "ledger.journal", String(SESSIONS));
  const it = spawn(LISTENER, words, { cwd: folder });
  await new Promise((resolve, reject) => {
    it.stderr.on("data", (said) => String(said).includes("listens on") && resolve());
    it.on("exit", () => reject(new Error("the listener ended")));
  });
  return it;
}

/** Ends a listener, and waits until it has gone: the next one has its socket and its ledger. */
async function ended(it) {
  it.removeAllListeners("exit");
  if (it.exitCode !== null || it.signalCode !== null) return;
  await new Promise((resolve) => {
    it.on("exit", resolve);
    it.kill();
  });
}

/**
 * Passes bytes on to the listener and back. If `kill` is set, it is called once the listener
 * has answered a request of create_transfers, and the answer is kept back.
 */
function between(place, hooks) {
  const server = net.createServer((client) => {
    const to = net.connect(path.join(folder, "real.sock"));
    let isSale = false;
    client.on("data", (frame) => {
      isSale = frame.length > 48 && frame[28] === 130;
      to.write(frame);
    });
    to.on("data", (reply) => (isSale && hooks.kill ? hooks.kill() : client.write(reply)));
    for (const it of [client, to]) it.on("error", () => {});
    client.on("close", () => to.destroy());
    to.on("close", () => client.destroy());
  });
  return new Promise((resolve) => server.listen(place, () => resolve(server)));
}

/** Leaves a transfer in doubt in the file of the README's program, as a kill before its sending. */
async function leaveInDoubt(transfer) {
  const file = path.join(folder, "session.json");
  const session = await tb.Session.load({ exchange() {} }, file);
  session.prepare("create_transfers", [transfer]);
  await session.save(file);
}

/** Evicts the program's session: as many others register as the server keeps. */
async function evict() {
  const socket = new tb.Socket(path.join(folder, "real.sock"));
  for (let at = 0; at < SESSIONS; at++) await tb.Session.register(socket);
  socket.close();
}

/** The README's program, once. */
function once(hooks) {
  return new Promise((resolve) => {
    const it = spawn("node", ["money.mjs"], { cwd: folder, timeout: 60_000 });
    if (hooks.kills) hooks.kill = () => it.kill("SIGKILL");
    let said = "";
    it.stdout.on("data", (text) => (said += text));
    it.stderr.on("data", (text) => (said += text));
    it.on("close", (status, signal) => resolve({ said, status, signal }));
  });
}

const needs = skip || (isThere("python3") ? false : "python3 is not there");

test("the README's program, a kill amid a sale, and one in doubt that is refused", {
  skip: needs,
}, async () => {
  const readme = readFileSync(path.join(TOP, "README.md"), "utf8");
  const [, money] = /```js\n(import { existsSync[^]*?)```/.exec(readme);
  writeFileSync(path.join(folder, "money.mjs"), money);
  const process = await listener();
  const hooks = { kills: true };
  const server = await between(path.join(folder, "ledger.sock"), hooks);
  const moved = (said) => ({ said: `${said}\n`, status: 0, signal: null });
  try {
    assert.deepEqual(await once(hooks), { said: "", status: null, signal: "SIGKILL" });
    hooks.kill = hooks.kills = undefined;
    assert.deepEqual(await once(hooks), moved("100n"));
    assert.deepEqual(await once(hooks), moved("100n")); // and not the money again
    await leaveInDoubt({ id: tb.id(), debit_account_id: 1n, credit_account_id: 9n, amount: 5n });
    const { said, status } = await once(hooks);
    assert.equal(status, 1);
    assert.match(said, /EventsFailed: event 0: credit_account_not_found/);
    assert.deepEqual(await once(hooks), moved("100n"));
    await leaveInDoubt({ id: tb.id(), debit_account_id: 1n, credit_account_id: 2n, amount: 5n });
    hooks.kills = true;
    assert.deepEqual(await once(hooks), { said: "", status: null, signal: "SIGKILL" });
    hooks.kill = hooks.kills = undefined;
    await evict();
    assert.deepEqual(await once(hooks), moved("105n"));
    assert.deepEqual(await once(hooks), moved("105n"));
  } finally {
    server.close();
    await ended(process);
  }
});

test("the README's lines on a file", { skip: needs }, () => {
  const readme = readFileSync(path.join(TOP, "README.md"), "utf8");
  const [, lines] = /```js\n(import { connect, open }[^]*?)```/.exec(readme);
  writeFileSync(path.join(folder, "opened.mjs"), lines);
  const env = { ...process.env, TBD: keeper(folder) };
  for (const said of [`tbd: made ${path.join(folder, "books.tbk")}\n`, ""]) {
    const ran = spawnSync("node", ["opened.mjs"], { cwd: folder, env, encoding: "utf8" });
    assert.deepEqual([ran.stdout, ran.stderr, ran.status], ["10n\n", said, 0]);
  }
});

test("the README's lines on a client that callers share", { skip: needs }, async () => {
  const readme = readFileSync(path.join(TOP, "README.md"), "utf8");
  const [, shared] = /```js\n(import { createClient[^]*?)```/.exec(readme);
  writeFileSync(path.join(folder, "shared.mjs"), shared.replace('"3001"', '"./real.sock"'));
  const process = await listener();
  try {
    for (let at = 0; at < 2; at++) assert.equal(run("node", ["shared.mjs"], folder), "[]\n");
  } finally {
    await ended(process);
  }
});
