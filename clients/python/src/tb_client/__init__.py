"""A client of the ledger server, over only the standard library.

`open` opens the ledger in a file, `connect` one that listens: both return a `ClientSync`, which has
the face of TigerBeetle's own client, over a pool of sessions. `open_async` and `connect_async` give
a `ClientAsync`.

A `Session` is a client that is registered: it numbers its requests, sends one at a time, and sends
the same bytes again until it has the reply. It works over any transport, an object with a call
`exchange(moment, frame)` that gives back the frame of the reply or raises `ReplyLost`:

    Program    `tbs run` as a process, over two pipes; with a file `tbd run`
    Socket     a server that listens, as tb-listen does
    Direct     a function that serves one frame, as that of clients/embed/python/tb_embed.py
    Faulty     another transport; it loses those of its requests and replies that it is told to lose

docs/use/CLIENTS.md says how to use it, docs/use/FORMATS.md has the frames, docs/use/RULES.md the
result codes.
"""
import logging

from .clients import ClientAsync, ClientSync
from .columns import AccountColumns, TransferColumns
from .errors import (
    REFUSALS,
    BadReply,
    Busy,
    CannotConnect,
    CannotStart,
    ClientClosedError,
    ClientError,
    ClockJumped,
    Closed,
    Collision,
    EventsFailed,
    Evicted,
    InDoubt,
    InitError,
    IntegerOverflowError,
    Invalid,
    InvalidType,
    InvalidValue,
    Locked,
    NativeError,
    NewerRequest,
    NewerSession,
    NoMemory,
    NoSession,
    NothingInDoubt,
    NotSent,
    NotSupported,
    NotYet,
    Older,
    PacketError,
    ProgramEnded,
    Refused,
    ReplyLost,
    ScriptFull,
    SessionTooLow,
)
from .filters import AccountFilter, AccountFilterFlags, QueryFilter, QueryFilterFlags
from .frames import Reply, Request, reply_length, request_fault, request_frame
from .ids import id
from .layout import AMOUNT_MAX as amount_max  # as the amount of a post: all of the pending amount
from .layout import HEADER, ITEMS_MAX, NUMBER_MAX
from .names import (
    AccountFlags,
    CreateAccountResult,
    CreateTransferResult,
    Operation,
    Status,
    TransferFlags,
)
from .opening import connect, connect_async, open, open_async
from .program import Program
from .records import Account, CreateAccountsResult, CreateTransfersResult, EventResult, Transfer
from .sessions import Saved, Session, require_ok
from .sockets import Socket
from .transports import Direct, Faulty, Transport

__version__ = "0.1.0"
MAX = amount_max

logging.getLogger("tb_client").addHandler(logging.NullHandler())

__all__ = [
    "Account",
    "AccountColumns",
    "AccountFilter",
    "AccountFilterFlags",
    "AccountFlags",
    "BadReply",
    "Busy",
    "CannotConnect",
    "CannotStart",
    "ClientAsync",
    "ClientClosedError",
    "ClientError",
    "ClientSync",
    "ClockJumped",
    "Closed",
    "Collision",
    "CreateAccountResult",
    "CreateAccountsResult",
    "CreateTransferResult",
    "CreateTransfersResult",
    "Direct",
    "EventResult",
    "EventsFailed",
    "Evicted",
    "Faulty",
    "HEADER",
    "ITEMS_MAX",
    "InDoubt",
    "InitError",
    "IntegerOverflowError",
    "Invalid",
    "InvalidType",
    "InvalidValue",
    "Locked",
    "MAX",
    "NUMBER_MAX",
    "NativeError",
    "NewerRequest",
    "NewerSession",
    "NoMemory",
    "NoSession",
    "NotSent",
    "NotSupported",
    "NotYet",
    "NothingInDoubt",
    "Older",
    "Operation",
    "PacketError",
    "Program",
    "ProgramEnded",
    "QueryFilter",
    "QueryFilterFlags",
    "REFUSALS",
    "Refused",
    "Reply",
    "ReplyLost",
    "Request",
    "Saved",
    "ScriptFull",
    "Session",
    "SessionTooLow",
    "Socket",
    "Status",
    "Transfer",
    "TransferColumns",
    "TransferFlags",
    "Transport",
    "amount_max",
    "connect",
    "connect_async",
    "id",
    "open",
    "open_async",
    "reply_length",
    "request_fault",
    "request_frame",
    "require_ok",
]
