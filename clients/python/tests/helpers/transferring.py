"""Makes transfers of 1 from account 1 to account 2 through `open`, by threads that share a client.

    transferring.py FILE PROGRAM COUNT MADE [drop_torn]

The transfers have the ids 1 to COUNT. The id of each is a line of MADE once its call has returned;
those are not made again. It ends with status 3 if a transfer is refused that no former process can
have made. When all are made it waits for the end of its input: it is there to be killed.
"""
import os
import sys
import threading

import tb_client as tb

THREADS = 4


def made_by(path):
    """The ids whose calls returned."""
    try:
        with open(path, encoding="ascii") as file:
            return {int(line) for line in file if line.endswith("\n")}
    except FileNotFoundError:
        return set()


def make(ledger, ids, doubtful, made):
    """Makes transfers until no id is left. Ids are taken in their order, so that at most one a
    thread is in doubt when the process is killed."""
    for it in ids:
        transfer = tb.Transfer(it, 1, 2, 1, ledger=700, code=10)
        results = ledger.create_transfers([transfer])
        names = [one.result for one in results]
        if names and not (it in doubtful and names == [tb.CreateTransferResult.exists]):
            print(f"transfer {it}: {names[0].name}", file=sys.stderr)
            os._exit(3)
        os.write(made, b"%d\n" % it)


class Shared:
    """An iterator that threads share."""

    def __init__(self, items):
        self.items, self.lock = iter(items), threading.Lock()

    def __iter__(self):
        return self

    def __next__(self):
        with self.lock:
            return next(self.items)


def main(file, program, count, path, *options):
    done = made_by(path)
    left = [it for it in range(1, int(count) + 1) if it not in done]
    doubtful = {it for it in left if it <= len(done) + THREADS}
    made = os.open(path, os.O_WRONLY | os.O_CREAT | os.O_APPEND, 0o600)
    given = {"program": program, "report": lambda _: None, "lock_timeout": 60.0}
    with tb.open(file, **given, drop_torn="drop_torn" in options) as ledger:
        accounts = [tb.Account(it, ledger=700, code=10) for it in (1, 2)]
        for one in ledger.create_accounts(accounts):
            assert one.result == tb.CreateAccountResult.exists, one
        ids = Shared(left)
        words = ledger, ids, doubtful, made
        threads = [threading.Thread(target=make, args=words) for _ in range(THREADS)]
        for it in threads:
            it.start()
        for it in threads:
            it.join()
        sys.stdin.read()


if __name__ == "__main__":
    main(*sys.argv[1:])
