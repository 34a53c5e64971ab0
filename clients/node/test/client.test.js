"use strict";

// Clients that callers share. The conformance kit tests what they send.

const assert = require("node:assert/strict");
const { execFile } = require("node:child_process");
const { mkdtempSync, rmSync } = require("node:fs");
const net = require("node:net");
const { tmpdir } = require("node:os");
const path = require("node:path");
const { test } = require("node:test");

const tb = require("../index.js");
const { isAsAsked } = require("../lib/joint.js");

/** The reply to a request of which nothing failed. */
function accepted(header) {
  const reply = Buffer.alloc(48);
  header.copy(reply, 0, 0, 29);
  reply.writeBigUInt64LE(1n, 16);
  reply.writeBigUInt64LE(BigInt(header.readUInt32LE(24)) + 1n, 36);
  return reply;
}

/** A server that accepts everything, and keeps the number of records of each request. */
async function serving(t) {
  const folder = mkdtempSync(path.join(tmpdir(), "tb-client-"));
  const place = path.join(folder, "ledger.sock");
  const requests = [];
  const ranges = new Set();
  const server = net.createServer((it) => {
    let data = Buffer.alloc(0);
    it.on("error", () => {});
    it.on("data", (more) => {
      data = Buffer.concat([data, more]);
      while (data.length >= 48 && data.length >= 48 + data.readUInt32LE(32)) {
        const length = data.readUInt32LE(32);
        ranges.add(data.readBigUInt64LE(8));
        if (data.readUInt32LE(24) > 0) requests.push(length / 128);
        it.write(accepted(data));
        data = data.subarray(48 + length);
      }
    });
  });
  await new Promise((resolve) => server.listen(place, resolve));
  t.after(() => {
    server.close();
    rmSync(folder, { recursive: true });
  });
  return { place, requests, ranges };
}

const sale = () => ({ id: tb.id(), debit_account_id: 1n, credit_account_id: 2n, amount: 1n });
const clientOf = (place, more) =>
  tb.createClient({ cluster_id: 0n, replica_addresses: [place], ...more });

test("calls that are made together go out as one request", async (t) => {
  const { place, requests } = await serving(t);
  const client = clientOf(place);
  const lists = [1, 2, 3].map((it) => Array.from({ length: it }, sale));
  await Promise.all(lists.map((it) => client.createTransfers(it)));
  assert.deepEqual(requests, [6]);
  await client.close();
  await assert.rejects(client.createTransfers([sale()]), tb.Closed);
});

test("a wrong value is its caller's own", async (t) => {
  const { place, requests } = await serving(t);
  const client = clientOf(place);
  t.after(() => client.close());
  const wrong = client.createTransfers([{ ...sale(), amount: 10.99 }]);
  const right = client.createTransfers([sale()]);
  await assert.rejects(wrong, tb.InvalidType);
  assert.deepEqual(await right, []);
  assert.deepEqual(requests, [1]);
});

test("sessions have ids of the client's range", async (t) => {
  const { place, ranges } = await serving(t);
  const client = clientOf(place, { sessions: 3, client_range: 9n });
  t.after(() => client.close());
  await Promise.all([sale(), sale()].map((it) => client.createTransfers([it])));
  assert.deepEqual([...ranges], [9n]);
});

test("a caller that leaves is told whether its call may be sent, and why it waited", async (t) => {
  const client = clientOf(path.join(tmpdir(), `no-${process.pid}.sock`), { timeout: 20 });
  t.after(() => client.close());
  const left = client.createTransfers([sale()], { within: 1000 });
  await assert.rejects(left, (why) => {
    assert.ok(why instanceof tb.Cancelled && !why.sent, why);
    assert.match(why.message, /CannotConnect/);
    return true;
  });
  const aborted = client.createTransfers([sale()], { signal: AbortSignal.abort() });
  await assert.rejects(aborted, tb.Cancelled);
});

test("addresses and options", () => {
  for (const it of ["3000", 3000, "a", "a:1", "[::1]:3000", "[::1]", "./s", "a:1,b:2", ["a", 1]]) {
    tb.createClient({ cluster_id: 0n, replica_addresses: it });
  }
  for (const it of ["", ":", "a:b", "a:1:2", "70000", "a:0", "3000,", [], 1.5, undefined, [null]]) {
    const wrong = () => tb.createClient({ cluster_id: 0n, replica_addresses: it });
    assert.throws(wrong, tb.Invalid, String(it));
  }
  for (const more of [{ sessions: 0 }, { sessions: 65 }, { timeout: 0 }, { cluster_id: 0 }]) {
    assert.throws(() => clientOf("3000", more), tb.Invalid);
  }
  assert.throws(() => tb.createClient(), tb.Invalid);
});

test("what became of a record that was asked for", () => {
  const pending = tb.transfer({ ...sale(), flags: tb.TransferFlags.pending, amount: 7n });
  assert.ok(isAsAsked(pending, { ...pending, timestamp: 9n }));
  assert.ok(!isAsAsked(pending, { ...pending, amount: 8n }));
  assert.ok(!isAsAsked(pending, undefined));
  const flags = tb.TransferFlags.post_pending_transfer;
  const post = tb.transfer({ id: 5n, pending_id: 4n, flags, amount: tb.AMOUNT_MAX });
  assert.ok(isAsAsked(post, { ...pending, id: 5n, pending_id: 4n, flags }));
  assert.ok(!isAsAsked(post, { ...pending, id: 5n, pending_id: 3n, flags }));
  const account = tb.account({ id: 1n, ledger: 1, code: 1 });
  const closed = { ...account, flags: tb.AccountFlags.closed, debits_posted: 3n };
  assert.ok(isAsAsked(account, closed));
  assert.ok(!isAsAsked(account, { ...account, code: 2 }));
});

test("an idle client does not keep the program from its end", async (t) => {
  const { place } = await serving(t);
  const program = `
    const tb = require(${JSON.stringify(path.join(__dirname, ".."))});
    const client = tb.createClient({ cluster_id: 0n, replica_addresses: ${JSON.stringify(place)} });
    client.lookupAccounts([]).then((it) => console.log(it.length));`;
  const said = await new Promise((resolve) => {
    const words = ["-e", program];
    execFile(process.execPath, words, { timeout: 60000 }, (why, out) => resolve([why, out]));
  });
  assert.deepEqual(said, [null, "0\n"]);
});

for (const name of [
  "queryAccounts",
  "queryTransfers",
  "getAccountTransfers",
  "getAccountBalances",
]) {
  test(`TigerBeetle's ${name} says what to use`, async () => {
    const client = tb.createClient({ cluster_id: 0n, replica_addresses: ["1"] });
    await assert.rejects(client[name]({ account_id: 1n }), (why) => {
      assert.ok(why instanceof tb.NotSupported && !why.sent);
      assert.match(why.message, new RegExp(`the server has no ${name}: use lookup.*tb-sql`));
      return true;
    });
    await client.close();
  });
}
