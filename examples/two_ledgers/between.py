#!/usr/bin/env python3
"""Pays from one ledger into another one: each payment is posted in both, or in neither.

    between.py FROM TO

FROM and TO are the files of two ledgers. Run it as often as you like, and kill it or a `tbd` at any
moment: a payment's holds, posts and voids have ids of its own, so each is made once.
"""

import sys

import tb_client as tb

EUR, PAYMENT = 978, 5
BANK, BETWEEN = 1, 2  # in both ledgers: money comes from the bank, and goes by way of BETWEEN
PAYERS, PAYEES = (10, 11), (20, 21)  # in FROM; in TO
DEPOSIT = 500_00
PENDING, POST = tb.TransferFlags.PENDING, tb.TransferFlags.POST_PENDING_TRANSFER
VOID = tb.TransferFlags.VOID_PENDING_TRANSFER
LIMITED = tb.AccountFlags.DEBITS_MUST_NOT_EXCEED_CREDITS
# number, payer, payee, amount: as a program stores its orders; no ledger has payee 99
PAYMENTS = [(it, PAYERS[it % 2], 99 if it % 10 == 7 else PAYEES[it % 2], 10_00) for it in range(60)]


def opened(file, accounts):
    """A ledger with these accounts."""
    ledger = tb.open(file)
    made = [tb.Account(id=it, ledger=EUR, code=1) for it in (BANK, BETWEEN)]
    made += [tb.Account(id=it, ledger=EUR, code=2, flags=LIMITED) for it in accounts]
    ledger.create_accounts(made)
    return ledger


def is_made(ledger, transfer):
    """Makes a transfer, now or earlier. False if it is refused."""
    errors = ledger.create_transfers([transfer])
    return not errors or errors[0].result == tb.CreateTransferResult.EXISTS


def moved(number, payer, payee, amount, flags=PENDING):
    """A hold, or with other flags a transfer."""
    return tb.Transfer(
        id=number,
        debit_account_id=payer,
        credit_account_id=payee,
        amount=amount,
        flags=flags,
        ledger=EUR,
        code=PAYMENT,
    )


def end(number, flags):
    """Posts or voids a whole hold."""
    return tb.Transfer(
        id=number + (1 if flags == POST else 2),
        pending_id=number,
        amount=tb.amount_max if flags == POST else 0,
        flags=flags,
        ledger=EUR,
        code=PAYMENT,
    )


def pay(source, target, number, payer, payee, amount):
    """Holds the money in both ledgers, and then posts both holds, or voids them."""
    first = 1000 + 3 * number
    if not is_made(source, moved(first, payer, BETWEEN, amount)):
        return False
    is_held = is_made(target, moved(first, BETWEEN, payee, amount))
    if is_held and is_made(source, end(first, POST)):  # from here on it is paid
        return is_made(target, end(first, POST))
    is_made(source, end(first, VOID))
    is_made(target, end(first, VOID))
    return False


def main():
    """Makes all payments, and prints how many were made."""
    with opened(sys.argv[1], PAYERS) as source, opened(sys.argv[2], PAYEES) as target:
        for at, payer in enumerate(PAYERS):
            is_made(source, moved(at + 1, BANK, payer, DEPOSIT, flags=0))
        paid = sum(pay(source, target, *it) for it in PAYMENTS)
        print(f"{paid} of {len(PAYMENTS)} payments are made")


if __name__ == "__main__":
    main()
