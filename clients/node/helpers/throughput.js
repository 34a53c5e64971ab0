#!/usr/bin/env node

"use strict";

// Measures this client, for clients/throughput.py.
//
//     throughput.js sessions|shared PATH CALLERS ITEMS SECONDS
//
// Prints transfers a second, and CPU microseconds for each.

const { performance } = require("node:perf_hooks");

const tb = require("../index.js");

const WARM = 0.5; // seconds

function sales(count) {
  const accounts = { debit_account_id: 1n, credit_account_id: 2n };
  const sale = () => ({ id: tb.id(), ...accounts, amount: 1n, ledger: 700, code: 10 });
  return Array.from({ length: count }, sale);
}

async function begun(place) {
  const session = await tb.Session.register(new tb.Socket(place, { timeout: 60_000 }));
  await session.createAccounts([1n, 2n].map((id) => ({ id, ledger: 700, code: 10 })));
  return session;
}

/** What closes them again, and each caller: a session of its own, or all one client. */
async function callers(kind, place, count) {
  const sessions = await Promise.all(
    Array.from({ length: kind === "sessions" ? count : 1 }, () => begun(place)),
  );
  if (kind === "sessions") return [sessions, sessions];
  if (kind !== "shared") throw new Error(`${kind}: sessions or shared`);
  const client = tb.connect(place);
  return [[...sessions, client], Array(count).fill(client)];
}

/** How often all of them call until a time has passed. */
async function repeated(all, items, seconds) {
  const end = performance.now() + 1000 * seconds;
  const calls = all.map(async (it) => {
    let count = 0;
    for (; performance.now() < end; count += 1) {
      tb.requireOk(await it.createTransfers(sales(items)));
    }
    return count;
  });
  return (await Promise.all(calls)).reduce((sum, it) => sum + it, 0);
}

async function main([kind, place, ...numbers]) {
  const [count, items, seconds] = numbers.map(Number);
  const [opened, all] = await callers(kind, place, count);
  await repeated(all, items, WARM);
  const began = performance.now();
  const used = process.cpuUsage();
  const transfers = items * (await repeated(all, items, seconds));
  const { user, system } = process.cpuUsage(used);
  console.log((1000 * transfers) / (performance.now() - began), (user + system) / transfers);
  await Promise.all(opened.map((it) => it.close()));
}

main(process.argv.slice(2));
