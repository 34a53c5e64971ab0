"use strict";

// The runner for the conformance kit, if the order of calls at once is known.

const assert = require("node:assert/strict");
const { spawn } = require("node:child_process");
const { mkdtempSync, rmSync } = require("node:fs");
const net = require("node:net");
const { tmpdir } = require("node:os");
const path = require("node:path");
const readline = require("node:readline");
const { test } = require("node:test");

const RUNNER = path.join(__dirname, "..", "conformance-runner.js");
const TRANSFER = { id: "11", debit_account_id: "1", credit_account_id: "2", amount: "5" };

/** Takes requests of one piece: the first sending of each but a register is lost. */
function losesFirst(seen, it) {
  it.on("error", () => {});
  it.on("data", (frame) => {
    const number = frame.readUInt32LE(24);
    if (number > 0 && !seen.has(number)) {
      seen.add(number);
      it.destroy();
      return;
    }
    const reply = Buffer.alloc(48);
    frame.copy(reply, 0, 0, 29);
    reply.writeBigUInt64LE(1n, 16);
    reply.writeBigUInt64LE(BigInt(number) + 1n, 36);
    it.write(reply);
  });
}

test("a retry beside a call is told what the call left in doubt", async (t) => {
  const folder = mkdtempSync(path.join(tmpdir(), "tb-client-"));
  const server = net.createServer(losesFirst.bind(null, new Set()));
  const place = path.join(folder, "ledger.sock");
  await new Promise((resolve) => server.listen(place, resolve));
  const runner = spawn(process.execPath, [RUNNER], { stdio: ["pipe", "pipe", "inherit"] });
  t.after(() => {
    runner.kill();
    server.close();
    rmSync(folder, { recursive: true });
  });
  const answers = readline.createInterface({ input: runner.stdout })[Symbol.asyncIterator]();
  const call = async (line) => {
    runner.stdin.write(`${JSON.stringify(line)}\n`);
    const { value } = await answers.next();
    return JSON.parse(value ?? '"the runner ended"').ok;
  };
  await call({ do: "connect", transport: "t", addresses: [{ unix: place }] });
  await call({ do: "register", session: "s", transport: "t", client: "7", attempts: 1 });
  for (const [operation, items, said] of [
    ["create_transfers", [TRANSFER], { results: [] }],
    ["lookup_accounts", ["1"], { records: [] }],
  ]) {
    const ask = { do: "ask", session: "s", operation, items };
    const told = await call({ do: "parallel", calls: [ask, { do: "retry", session: "s" }] });
    assert.deepEqual(told?.map((it) => it.error?.name ?? it.ok), ["ReplyLost", said]);
  }
});
