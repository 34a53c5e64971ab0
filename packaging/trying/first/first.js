const { open } = require("tb-client");

(async () => {
  const ledger = await open("node.tbk");
  await ledger.createAccounts([1n, 2n].map((id) => ({ id, ledger: 700, code: 10 })));
  const sale = { debit_account_id: 1n, credit_account_id: 2n, amount: 10n, ledger: 700, code: 10 };
  await ledger.createTransfers([{ id: 1001n, ...sale }]);
  console.log(String((await ledger.lookupAccounts([2n]))[0].credits_posted));
  await ledger.close();
})();
