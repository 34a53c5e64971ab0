"""Histories that several tests load, and a file of names."""

from .made import Made, account, transfer

SECOND = 10**9

BOOKS = """# our books
[ledger.700]
name = "EUR"
places = 2

[code]
10 = "customer deposit"

[account]
1 = "House"
2 = "=HYPERLINK(1)"
"""
NAMES = (("ledger", 700, "EUR", 2), ("code", 10, "customer deposit", 0), ("account", 1, "House", 0))


def history():
    """Some of everything."""
    made = Made(clients_max=2).register().accounts(*(account(it) for it in range(1, 9)))
    for at in range(40):
        one, other = 1 + at % 8, 1 + (at + 3) % 8
        made.later(at * SECOND)
        if at % 10 == 9:
            made.register(20 + at)
        made.transfers(
            transfer(1000 + at, one, other, at + 1),
            transfer(2000 + at, one, other, at + 1, ["pending"], timeout=at % 3),
            transfer(3000 + at, one, other, 0, result="exceeds_credits"),
        )
        if at % 3 == 0:
            void = ["void_pending_transfer"]
            made.transfers(transfer(4000 + at, one, other, at + 1, void, pending=2000 + at))
    return made


def shop():
    made = (
        Made()
        .register()
        .accounts(
            account(1, flags=["debits_must_not_exceed_credits"], user_data_64=77),
            account(2, code=20, flags=["credits_must_not_exceed_debits", "history"]),
            account(3, flags=["closed"]),
            account(4, ledger=701),
            account(5, ledger=701),
        )
    )
    made.transfers(transfer(11, 2, 1, 500), transfer(12, 1, 2, 120))
    made.transfers(transfer(13, 1, 2, 100, ["pending"], timeout=3600))
    made.transfers(transfer(14, 1, 2, 60, ["pending"]), transfer(15, 4, 5, 9, ledger=701))
    return made.transfers(transfer(16, 1, 2, 25, ["post_pending_transfer"], pending=14))
