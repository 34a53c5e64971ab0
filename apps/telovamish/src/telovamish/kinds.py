"""What an input is that a form does not read, by its first bytes."""
from __future__ import annotations

from .words import HEADER_SIZE, OPERATIONS

DUMP, LEDGER = b"TBSDUMP1", b"TBJRNL0"  # the number of its format follows in a ledger's file
FIRST_BYTES = 8 + HEADER_SIZE  # a moment and the header of a request
# what the header of a request to register has after its client
REGISTER = bytes(12) + OPERATIONS["register"].to_bytes(4, "little") + bytes(16)
BINARY = ("ledger", "dump", "script", "replies")
WORDS = {
    "ledger": "a ledger's file of tbd: tbd check FILE finds where it ends, "
    "tbd dump FILE makes a dump of it",
    "remnant": "the remnant of a ledger's file of tbd, of which a crash left less than its first "
    "8 bytes: tbd run begins a ledger in it",
    "dump": "a dump: telovamish audit shows what is in it, telovamish pairs makes a script of it",
    "script": "a script: tbs run serves it, tbs dump makes a dump of it, telovamish requests "
    "makes statements of it",
    "replies": "the replies of tbs: telovamish replies shows them",
    "JSON": "JSON, which nothing here reads: statements are as in telovamish help",
    "text": "text: telovamish script makes a script of statements",
}


def is_text(first: bytes) -> bool:
    return bool(first) and all(it >= 32 and it != 127 or it in b"\t\n\r" for it in first)


def is_reply(first: bytes) -> bool:
    """The first reply of a history is of a register, and its session is its commit."""
    is_register = first[24:30] == bytes(4) + bytes([OPERATIONS["register"], 0])
    return len(first) >= HEADER_SIZE and is_register and first[16:24] == first[36:44] != bytes(8)


def kind_of(first: bytes) -> str:
    """The kind of an input that begins so: a key of WORDS, or "" if it is not known."""
    if first.startswith(LEDGER) and len(first) > len(LEDGER):
        return "ledger"
    if 2 < len(first) and LEDGER.startswith(first):
        return "remnant"
    if first.startswith(DUMP):
        return "dump"
    if first[24:].startswith(REGISTER):
        return "script"
    if is_reply(first):
        return "replies"
    if first[:1] in (b"{", b"[") and is_text(first):
        return "JSON"
    return "text" if is_text(first[:FIRST_BYTES]) else ""
