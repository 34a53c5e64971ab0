// A wallet over a ledger in a file: two customers, a deposit, a hold captured in part, a refund.
//
//     node wallet.mjs [FILE]
//
// Run it as often as you like, and kill it or its tbd at any moment: each step moves money once.
import { AccountFlags, TransferFlags, open } from "tb-client";

const EUR = 978; // the ledger: amounts are in cents of EUR
const [customer, cash] = [10, 30]; // what an account is
const [deposit, sale, refund] = [1, 5, 9]; // why a transfer moves money
const [anna, ben, bank] = [1n, 2n, 3n];

const flags = AccountFlags.debits_must_not_exceed_credits;
const accounts = [
  { id: anna, ledger: EUR, code: customer, flags },
  { id: ben, ledger: EUR, code: customer, flags },
  { id: bank, ledger: EUR, code: cash },
];

// What happens, each with an id of its own, which a program stores with its order.
const pay = (id, debit, credit, amount, code) => ({
  id,
  debit_account_id: debit,
  credit_account_id: credit,
  amount,
  ledger: EUR,
  code,
});
const hold = { ...pay(102n, anna, ben, 6000n, sale), flags: TransferFlags.pending, timeout: 3600 };
const capture = { id: 103n, pending_id: hold.id, amount: 4500n, ledger: EUR, code: sale };
const steps = {
  "Anna pays in 100.00": pay(101n, bank, anna, 10000n, deposit),
  "Ben's shop holds 60.00": hold,
  "the order costs 45.00": { ...capture, flags: TransferFlags.post_pending_transfer },
  "Ben gives 5.00 back": pay(104n, ben, anna, 500n, refund),
  "Anna wants to send 75.00": pay(105n, anna, ben, 7500n, sale),
};

// Does what is not done yet, and prints what each customer has.
const ledger = await open(process.argv[2] ?? "wallet.tbk");
await ledger.createAccounts(accounts);
for (const [what, step] of Object.entries(steps)) {
  const [error] = await ledger.createTransfers([step]);
  console.log(`${what}: ${error?.result ?? "done"}`);
}
const found = await ledger.lookupAccounts([anna, ben]);
for (const [at, name] of ["Anna", "Ben"].entries()) {
  const has = Number(found[at].credits_posted - found[at].debits_posted) / 100;
  console.log(`${name} has ${has.toFixed(2)}`);
}
await ledger.close();
