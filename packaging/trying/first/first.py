import tb_client as tb

with tb.open("python.tbk") as ledger:
    ledger.create_accounts([tb.Account(id=it, ledger=700, code=10) for it in (1, 2)])
    sale = dict(debit_account_id=1, credit_account_id=2, amount=10, ledger=700, code=10)
    ledger.create_transfers([tb.Transfer(id=1001, **sale)])
    print(ledger.lookup_accounts([2])[0].credits_posted)
