"use strict";

// The program that the test of kills kills. It makes transfers of 1 from account 1 to account 2
// through `open`, by callers that share a client.
//
//     transferring.js FILE PROGRAM COUNT MADE
//
// The transfers have the ids 1 to COUNT. The id of each is a line of MADE once its call has
// returned; those are not made again. It ends with status 3 if a transfer is refused that no former
// process can have made. When all are made it waits for the end of its input: it is there to be
// killed.

const fs = require("node:fs");

const tb = require("../index.js");

const CALLERS = 4;

/** The ids whose calls returned. */
function madeBy(path) {
  if (!fs.existsSync(path)) return new Set();
  const lines = fs.readFileSync(path, "latin1").split("\n").slice(0, -1);
  return new Set(lines.map(Number));
}

async function main(file, program, count, path) {
  const done = madeBy(path);
  const all = Array.from({ length: Number(count) }, (_, at) => at + 1);
  const ids = all.filter((it) => !done.has(it));
  const made = fs.openSync(path, "a");
  const options = { program, report: () => {}, lockTimeout: 60_000, dropTorn: true };
  const ledger = await tb.open(file, options);
  const accounts = [1n, 2n].map((id) => ({ id, ledger: 700, code: 10 }));
  tb.requireOk((await ledger.createAccounts(accounts)).filter((it) => it.result !== "exists"));
  // taken in their order: at most one a caller is in doubt when the process is killed
  const call = async () => {
    for (let it = ids.shift(); it !== undefined; it = ids.shift()) {
      const accounts = { debit_account_id: 1n, credit_account_id: 2n };
      const transfer = { id: BigInt(it), ...accounts, amount: 1n, ledger: 700, code: 10 };
      const [wrong] = await ledger.createTransfers([transfer]);
      if (wrong && !(wrong.result === "exists" && it <= done.size + CALLERS)) {
        console.error(`transfer ${it}: ${wrong.result}`);
        process.exit(3);
      }
      fs.writeSync(made, `${it}\n`);
    }
  };
  await Promise.all(Array.from({ length: CALLERS }, call));
  for await (const _ of process.stdin);
  await ledger.close();
}

if (require.main === module) main(...process.argv.slice(2));

module.exports = { madeBy };
