"""What `help` shows, and what is known of a word."""
from __future__ import annotations

import difflib

from .messages import ELSEWHERE
from .words import ACCOUNT_FLAGS, TABLE, TRANSFER_FLAGS

HELP = """Statements end with `;`. What comes before the operation may be omitted:

    [at=MOMENT] [client=N] [session=N] [request=N] OPERATION EVENTS;

    create_accounts id=1 ledger=700 code=10, id=2 ledger=700 code=10;
    create_transfers id=11 debit_account_id=1 credit_account_id=2 amount=100 ledger=700 code=10;
    lookup_accounts id=1, id=2;
    lookup_transfers id=11;
    register;

A moment is nanoseconds since 1970, or a date: at=2026-11-26T10:00:00Z. Flags are joined by `|`:
flags=linked|pending. docs/use/TELOVAMISH.md has all of it; the tab key completes words.

    help       this page; help WORD says what an operation, a field, a flag, a result, a status
               or a fault is
    sessions   the clients of this terminal, their sessions and last requests
    json       replies as JSON, a line each; `table` goes back
    exit       ends, as `quit` and Ctrl-D do; Ctrl-C drops what is typed
"""
OWN = {
    "at": ["field before an operation: the moment, in nanoseconds since 1970 or as a date in UTC; "
           "it never looks back: the ledger's time goes to a later one, and stays there"],
    "client": ["field before an operation: the client's id, 128 bits, not 0"],
    "session": ["field before an operation: the session that a register began, 64 bits"],
    "request": ["field before an operation: the number of a request in its session, 32 bits"],
    "amount_max": ["amount: the largest one; as that of a post all of the pending amount"],
    "commit": ["the number of an entry in the history: each executed request has one, from 1 on"],
    "repeat": ["a session's last request, sent again: it gets its first reply, and nothing is "
               "executed"],
    "eviction": ["a register in a full table of sessions ends the session whose last commit is the "
                 "oldest"],
    "moment": ["the nanoseconds since 1970 at which a request enters: the clock's, or at="],
    "profile": ["one of two sets of rules, fixed when a ledger is made: in profile 2 an id that "
                "was refused for a cause that may pass is refused from then on"],
    "chain": ["events that are joined by the flag linked: all succeed, or all fail"],
}  # fmt: skip
MEANS = {
    "id": "the record's own, from 1 to 2^128 - 2; no other record of its kind has it",
    "debits_pending": "what pending transfers hold of its debits; 0 when it is created",
    "debits_posted": "the sum of its posted debits; 0 when it is created",
    "credits_pending": "what pending transfers hold of its credits; 0 when it is created",
    "credits_posted": "the sum of its posted credits; 0 when it is created",
    "user_data_128": "yours, as an id in another system: kept, and never read",
    "user_data_64": "yours, as a time of your own: kept, and never read",
    "user_data_32": "yours, as a place: kept, and never read",
    "reserved": "0",
    "ledger": "the currency or unit, not 0: a transfer and its two accounts have the same one",
    "code": "the kind of account or transfer, yours to number, not 0",
    "flags": "joined by `|`",
    "timestamp": "when it was recorded, which the ledger sets: 0 when it is created",
    "debit_account_id": "the account that is debited; of a post or void 0, or that of the pending "
    "transfer",
    "credit_account_id": "the account that is credited; of a post or void 0, or that of the "
    "pending transfer",
    "amount": "what is moved, in the ledger's smallest unit: 1250 is 12.50 EUR. Of a post at most "
    "the pending amount, or amount_max for all of it; of a balancing transfer at most so much",
    "pending_id": "the pending transfer that a post or void resolves; otherwise 0",
    "timeout": "after so many seconds a pending transfer expires; 0 never",
}
# faults of tbd, as docs/use/TBD.md has them
PROGRAM_FAULTS = {
    "Device": "a call failed, or a file cannot be opened: the line says why",
    "Locked": "another process serves the file: end that one first",
    "NotAJournal": "it is no ledger's file, and the line says what it looks like",
    "Plain": "it is a ledger's file for another form",
    "Damaged": "a block or a record is not what was written: tbd salvage, or restore a backup",
    "OtherRules": "the file was made with another profile or number of clients",
    "Full": "the disk is full, or the file has its greatest length: free space",
    "SyncFailed": "a sync failed, and what was written since may be lost: copy the file first",
    "Gone": "another program moved or changed the file while it was served",
    "NotCopied": "the torn bytes that a start cuts off could not be copied, and the file is as it "
    "was: move old copies, named FILE.cut-.., to another folder",
    "NotReady": "the server reported nothing for long before it had read the file",
    "NewerRequest": "the request skips a number: a restored ledger has forgotten some",
}


def words() -> dict[str, list[str]]:
    """All that is known, the meanings of each word."""
    found: dict[str, list[str]] = {}
    for word, meanings in TABLE["says"].items():
        is_field = word in MEANS
        found[word] = [f"{it}: {MEANS[word]}" if is_field and it.startswith("field ") else it
                       for it in meanings]  # fmt: skip
    found["flags"] = [f"{it}: {', '.join(flags)}" for it, flags in
                      zip(found["flags"], (ACCOUNT_FLAGS, TRANSFER_FLAGS))]  # fmt: skip
    for word, text in PROGRAM_FAULTS.items():
        found.setdefault(word, []).insert(0, f"fault of tbd: {text}")
    for word, text in ELSEWHERE.items():
        found.setdefault(word, []).append(f"no operation here: {text}")
    return {**found, **OWN}


def help_on(word: str) -> str:
    """What is known of a word, a line for each of its meanings."""
    known = words()
    if word in known:
        return "".join(f"{word}: {it}\n" for it in known[word])
    near = difflib.get_close_matches(word, known, 1)
    return f"{word}: not known{f'; did you mean {near[0]}?' if near else ''}\n"
