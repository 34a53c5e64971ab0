#!/usr/bin/env python3
"""A wallet over a ledger in a file: two customers, a deposit, a hold captured in part, a refund.

    wallet.py [FILE]

Run it as often as you like, and kill it or its `tbd` at any moment: each step moves money once.
"""

import sys

import tb_client as tb

EUR = 978  # the ledger: amounts are in cents of EUR
CUSTOMER, CASH = 10, 30  # what an account is
DEPOSIT, SALE, REFUND = 1, 5, 9  # why a transfer moves money
ANNA, BEN, BANK = 1, 2, 3
ACCOUNTS = [
    tb.Account(
        id=ANNA, ledger=EUR, code=CUSTOMER, flags=tb.AccountFlags.DEBITS_MUST_NOT_EXCEED_CREDITS
    ),
    tb.Account(
        id=BEN, ledger=EUR, code=CUSTOMER, flags=tb.AccountFlags.DEBITS_MUST_NOT_EXCEED_CREDITS
    ),
    tb.Account(id=BANK, ledger=EUR, code=CASH),
]


def steps():
    """What happens, each with an id of its own, which a program stores with its order."""
    pay = {"ledger": EUR, "code": SALE}
    pending, post = tb.TransferFlags.PENDING, tb.TransferFlags.POST_PENDING_TRANSFER
    yield "Anna pays in 100.00", tb.Transfer(
        id=101,
        debit_account_id=BANK,
        credit_account_id=ANNA,
        amount=10000,
        ledger=EUR,
        code=DEPOSIT,
    )
    yield "Ben's shop holds 60.00", tb.Transfer(
        id=102,
        debit_account_id=ANNA,
        credit_account_id=BEN,
        amount=6000,
        flags=pending,
        timeout=3600,
        **pay,
    )
    yield "the order costs 45.00", tb.Transfer(
        id=103, pending_id=102, amount=4500, flags=post, **pay
    )
    yield "Ben gives 5.00 back", tb.Transfer(
        id=104, debit_account_id=BEN, credit_account_id=ANNA, amount=500, ledger=EUR, code=REFUND
    )
    yield "Anna wants to send 75.00", tb.Transfer(
        id=105, debit_account_id=ANNA, credit_account_id=BEN, amount=7500, **pay
    )


def main():
    """Does what is not done yet, and prints what each customer has."""
    with tb.open(sys.argv[1] if sys.argv[1:] else "wallet.tbk") as ledger:
        ledger.create_accounts(ACCOUNTS)
        for what, transfer in steps():
            errors = ledger.create_transfers([transfer])
            print(f"{what}: {errors[0].result.name.lower() if errors else 'done'}")
        for name, it in zip(["Anna", "Ben"], ledger.lookup_accounts([ANNA, BEN])):
            print(f"{name} has {(it.credits_posted - it.debits_posted) / 100:.2f}")


if __name__ == "__main__":
    main()
