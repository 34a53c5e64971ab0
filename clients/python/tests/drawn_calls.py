#!/usr/bin/env python3
"""Calls of ClientSync and ClientAsync over a transport that fails as a seed draws.

    clients/python/tests/drawn_calls.py [--seed N] [--count N] [--first]

A seed draws callers that share a client of each kind, what they ask for, and what becomes of each
exchange: a reply; one that is lost before or after its request was executed; Busy, NoMemory,
NotYet, an eviction, another refusal; the reply to another request, a cut one, or what is none;
nothing that is sent, by each name of that; an error that is none of the client's. Some callers give
up, and some clients are closed amid calls. Then it tests:

    each answer is that of the caller's own list, and what it accepts is in the ledger
    a list that was accepted was executed once
    of a call that says that nothing was sent nothing was executed, then or later
    numbers rise by one in a session, and one number has the same bytes at each sending
    each error is one of the client's or the transport's, and no call waits for ever
    where nothing fails any more calls are answered

Prints what was wrong by each seed, and 'N seeds, M failed'. Status 1 where one failed.
"""
import argparse
import asyncio
import collections
import dataclasses
import logging
import os
import random
import struct
import sys
import threading
import time
from unittest import mock

sys.path.insert(0, os.path.join(os.path.dirname(os.path.abspath(__file__)), "..", "src"))

import tb_client as tb  # noqa: E402
from tb_client import Operation, Status, pools, sessions  # noqa: E402
from tb_client.names import CreateAccountResult, CreateTransferResult  # noqa: E402

HEADER = 48
RECORD, ID = 128, 16
PATIENCE = 60.0  # seconds that all calls of a client may take
PATIENT = {"PAUSE": 0.0002, "PAUSE_MAX": 0.002}  # in place of the client's own pauses
NAMES = {
    Operation.create_accounts: CreateAccountResult,
    Operation.create_transfers: CreateTransferResult,
}
# what an event gets that the ledger does not accept, by its id
FAILS = {
    Operation.create_accounts: CreateAccountResult.ledger_must_not_be_zero,
    Operation.create_transfers: CreateTransferResult.exceeds_credits,
}
MADE_BY = {
    Operation.lookup_accounts: Operation.create_accounts,
    Operation.lookup_transfers: Operation.create_transfers,
}
NOT_SENT = {
    "cannot connect": lambda: tb.CannotConnect("nobody listens"),
    "untrusted": lambda: tb.CannotConnect("not trusted", True),
    "cannot start": lambda: tb.CannotStart("it does not start"),
    "script full": lambda: tb.ScriptFull("it is full"),
    "clock jumped": lambda: tb.ClockJumped("the clock jumped"),
    "not sent": lambda: tb.NotSent("nothing was sent"),
}
# how often each is drawn, next to a reply
USUAL = {
    "lost before": 4,
    "lost after": 6,
    "told": 2,
    "not allowed": 1,
    "busy": 3,
    "no memory": 2,
    "not yet": 2,
    "evicted": 4,
    "lost and evicted": 4,
    "refused": 1,
    "program ended": 1,
    "another reply": 2,
    "cut": 1,
    "no reply": 1,
    "wrong body": 1,
    "odd": 1,
    **{name: 2 for name in NOT_SENT},
}


class Odd(Exception):
    """What a transport raises that knows no errors of the client."""


def numbers_of(frame):
    """The session, the number and the operation of a request."""
    session, number, operation = struct.unpack_from("<QIB", frame, 16)
    return session, number, Operation(operation)


def reply_to(frame, session, status=0, body=b"", commit=0):
    _, number, operation = numbers_of(frame)
    numbers = struct.pack("<QIBB2xIQ4x", session, number, operation, status, len(body), commit)
    return frame[:16] + numbers + body


def refusal(frame, status):
    return reply_to(frame, numbers_of(frame)[0], status)


class Ledger:
    """Sessions as docs/use/RULES.md has them, and records by their ids."""

    def __init__(self, places):
        self.places, self.commit = places, 0
        self.rows = {}  # by client: session, number, frame, reply, commit
        self.records, self.entered = {}, collections.Counter()

    def evict(self, client=None):
        if client is not None:
            self.rows.pop(client, None)
        elif self.rows:
            del self.rows[min(self.rows, key=lambda it: self.rows[it][4])]

    def take(self, frame):
        """The reply to a request."""
        session, number, operation = numbers_of(frame)
        row = self.rows.get(frame[:16])
        if operation == Operation.register:
            is_first = row is not None and row[1] == 0
            return self.enter(frame) if row is None else row[3] if is_first else refusal(frame, 4)
        if row is None:
            return refusal(frame, Status.NoSession)
        if session != row[0]:
            is_low = session < row[0]
            return refusal(frame, Status.SessionTooLow if is_low else Status.NewerSession)
        if number == row[1]:
            return row[3] if frame == row[2] else refusal(frame, Status.Collision)
        if number != row[1] + 1:
            is_old = number < row[1]
            return refusal(frame, Status.Older if is_old else Status.NewerRequest)
        return self.enter(frame)

    def enter(self, frame):
        session, number, operation = numbers_of(frame)
        self.commit += 1
        if operation == Operation.register:
            session, body = self.commit, b""
            if len(self.rows) >= self.places:
                self.evict()
        elif operation in NAMES:
            body = self.created(operation, frame[HEADER:])
        else:
            ids = (frame[at : at + ID] for at in range(HEADER, len(frame), ID))
            body = b"".join(self.records.get((MADE_BY[operation], it), b"") for it in ids)
        reply = reply_to(frame, session, 0, body, self.commit)
        self.rows[frame[:16]] = session, number, frame, reply, self.commit
        return reply

    def created(self, operation, body):
        """The results of a create: each chain succeeds or fails as a whole."""
        events = [body[at : at + RECORD] for at in range(0, len(body), RECORD)]
        results, chain = {}, []
        for index, event in enumerate(events):
            self.entered[operation, event[:ID]] += 1
            chain.append(index)
            if not event[118] & 1:
                results.update(self.chained(operation, events, chain))
                chain = []
        return b"".join(struct.pack("<II", *it) for it in sorted(results.items()))

    def chained(self, operation, events, chain):
        names = NAMES[operation]
        for at in chain:
            key = operation, events[at][:ID]
            if key in self.records or fails(key[1]):
                code = names.exists if key in self.records else FAILS[operation]
                return {it: code if it == at else names.linked_event_failed for it in chain}
        self.records.update(((operation, events[at][:ID]), events[at]) for at in chain)
        return {}


def fails(id):
    return int.from_bytes(id, "little") % 7 == 0


class World:
    """A ledger, and what becomes of the exchanges with it."""

    def __init__(self, seed):
        self.draw, self.lock = random.Random(seed), threading.RLock()
        self.ledger = Ledger(self.draw.choice((1, 2, 3, 8)))
        self.is_healed, self.slow = False, self.draw.choice((0, 0, 0.3, 0.8))
        drawn = {name: weight for name, weight in USUAL.items() if self.draw.random() < 0.5}
        drawn["reply"] = self.draw.choice((10, 30, 60, 100))
        self.kinds, self.weights = list(drawn), list(drawn.values())
        self.last = {}  # by client and session: the greatest number, and its frame
        self.wrong, self.exchanges = [], []

    def kind(self):
        return "reply" if self.is_healed else self.draw.choices(self.kinds, self.weights)[0]

    def see(self, frame):
        """Tests a request's number."""
        session, number, _ = numbers_of(frame)
        last, before = self.last.get((frame[:16], session), (number, frame))
        if not last <= number <= last + 1:
            self.wrong.append(f"request {number} came behind request {last}")
        if number == last and frame != before:
            self.wrong.append(f"request {number} came with other bytes")
        self.last[frame[:16], session] = number, frame


class Wire:
    """A transport of one session."""

    def __init__(self, world):
        self.world, self.is_closed, self.before = world, False, b""
        self.lock = threading.Lock()

    def close(self):
        self.is_closed = True

    def exchange(self, moment, frame):
        world = self.world
        with self.lock:
            if self.is_closed:
                raise tb.Closed("this transport was closed")
            with world.lock:
                kind = world.kind()
                is_slow = world.draw.random() < world.slow
                world.exchanges.append((kind, *numbers_of(frame)))
            if is_slow:
                time.sleep(world.draw.random() * 0.004)
            with world.lock:
                if kind in NOT_SENT:
                    raise NOT_SENT[kind]()
                world.see(frame)
                return self.answered(kind, frame)

    def answered(self, kind, frame):
        draw, ledger = self.world.draw, self.world.ledger
        if kind == "lost before":
            raise tb.ReplyLost("lost")
        if kind == "busy":
            raise tb.Busy("busy", "Busy")
        if kind == "no memory":
            raise tb.NoMemory("no memory")
        if kind == "not allowed":
            raise tb.ReplyLost("told", draw.choice(("NotAllowed", "ClientNotAllowed")))
        if kind == "not yet":
            return refusal(frame, Status.NotYet)
        if kind == "refused":
            statuses = (Status.NewerSession, Status.Older, Status.Collision, Status.NewerRequest)
            return refusal(frame, draw.choice(statuses))
        if kind == "evicted":
            for _ in range(draw.randrange(1, ledger.places + 1)):
                ledger.evict()
        if kind == "odd" and draw.random() < 0.5:
            raise draw.choice((OSError("odd"), Odd("odd"), MemoryError()))
        return self.executed(kind, frame, ledger.take(frame))

    def executed(self, kind, frame, reply):
        draw, ledger = self.world.draw, self.world.ledger
        before, self.before = self.before, reply
        if kind in ("reply", "evicted"):
            return reply
        if kind == "another reply":
            return before or reply
        if kind == "cut":
            return reply[: draw.randrange(len(reply))]
        if kind == "no reply":
            other = reply[:16] + bytes([reply[16] ^ 1]) + reply[17:]
            return draw.choice((bytes(HEADER), b"hello", reply + b"x", other))
        if kind == "wrong body":
            wrong = struct.pack("<II", 9999, 1)
            return reply_to(frame, numbers_of(frame)[0] or 1, 0, wrong, ledger.commit + 1)
        if kind == "program ended":
            raise tb.ProgramEnded("Full", 8)
        if kind == "odd":
            raise draw.choice((OSError("odd"), Odd("odd"), MemoryError()))
        if kind == "lost and evicted":
            ledger.evict(frame[:16])
        names = ("Slow", "Stopping", "ProgramEnded", "Full", "Idle")
        raise tb.ReplyLost("lost", draw.choice(names) if kind == "told" else "")


class Play:
    """What a seed draws, over one client."""

    def __init__(self, seed, is_async):
        self.world, self.draw = World(seed), random.Random(~seed)
        self.is_async = is_async
        self.timeout = self.draw.choice((None, None, 0.5, 0.003))
        self.closes = self.draw.random() < 0.3
        self.gives_up = 0.05 if is_async else 0
        self.known, self.unsent = [], []
        count = self.draw.choice((5, 10, 20))
        self.plans = [
            [self.call() for _ in range(count)] for _ in range(self.draw.choice((1, 1, 2, 3, 4)))
        ]
        kind = tb.ClientAsync if is_async else tb.ClientSync
        self.client = kind(
            0,
            "3000",
            sessions=self.draw.choice((1, 1, 2, 3)),
            timeout=self.timeout,
            connect=lambda: Wire(self.world),
        )

    def call(self):
        """An operation and its list, with ids that no other call creates."""
        first = Operation.create_transfers
        operation = self.draw.choice((first, first, *NAMES, *MADE_BY))
        count = self.draw.choice((0, 1, 1, 2, 3, 5))
        if operation in MADE_BY:
            some = [*self.known, *range(1, 9)]
            return operation, [self.draw.choice(some) for _ in range(count)]
        made = [self.record(operation, self.new_id()) for _ in range(count)]
        if made:
            made[-1] = dataclasses.replace(made[-1], flags=type(made[-1].flags)(0))
        return operation, made

    def new_id(self):
        self.known.append(1000 + len(self.known))
        return self.known[-1]

    def record(self, operation, id):
        if operation == Operation.create_accounts:
            flags = tb.AccountFlags(self.draw.random() < 0.25)
            return tb.Account(id, ledger=700, code=10, flags=flags)
        flags = tb.TransferFlags(self.draw.random() < 0.25)
        return tb.Transfer(id, 1, 2, 5, ledger=700, code=10, flags=flags)

    # Calls

    def run(self):
        """What was wrong."""
        if self.is_async:
            asyncio.run(self.awaited())
        else:
            self.threaded()
        for operation, items in self.unsent:
            for it in items:
                if self.world.ledger.entered[operation, key_of(it)]:
                    self.world.wrong.append(f"{it.id} was told as not sent, and was executed")
        return self.world.wrong

    def threaded(self):
        threads = [
            threading.Thread(target=self.caller, args=(it,), daemon=True) for it in self.plans
        ]
        for it in threads:
            it.start()
        if self.closes:
            time.sleep(self.draw.random() * 0.02)
            self.client.close()
        deadline = time.monotonic() + PATIENCE
        for it in threads:
            it.join(max(deadline - time.monotonic(), 0))
            if it.is_alive():
                self.world.wrong.append("a call waits for ever")
                return
        self.world.is_healed = True
        if not self.closes and self.timeout is None:
            self.last(lambda asked: self.client.create_transfers(asked))
        self.client.close()

    def caller(self, plan):
        for operation, items in plan:
            self.told(operation, items, lambda: getattr(self.client, operation.name)(items))

    def told(self, operation, items, call):
        """Tests what a call is told."""
        try:
            answer = call()
        except Exception as why:
            self.failed(operation, items, why)
        else:
            with self.world.lock:
                self.answered(operation, items, answer)

    async def awaited(self):
        tasks = [asyncio.ensure_future(self.async_caller(it)) for it in self.plans]
        if self.closes:
            await asyncio.sleep(self.draw.random() * 0.02)
            await self.client.close()
        _, left = await asyncio.wait(tasks, timeout=PATIENCE)
        if left:
            self.world.wrong.append("a call waits for ever")
            return
        for it in tasks:
            it.result()
        self.world.is_healed = True
        await self.client.close()

    async def async_caller(self, plan):
        for operation, items in plan:
            task = asyncio.ensure_future(getattr(self.client, operation.name)(items))
            if self.draw.random() < self.gives_up:
                await asyncio.sleep(self.draw.random() * 0.003)
                task.cancel()
            await asyncio.wait([task])
            if not task.cancelled():
                self.told(operation, items, task.result)

    def last(self, call):
        """Nothing fails any more: a call gets its answer, at the latest after one has ended a
        session that was in doubt."""
        asked = [self.record(Operation.create_transfers, 10**9)]
        asked[0] = dataclasses.replace(asked[0], flags=tb.TransferFlags(0))
        self.told(Operation.create_transfers, asked, lambda: call(asked))
        if not self.world.ledger.entered[Operation.create_transfers, key_of(asked[0])]:
            self.world.wrong.append("where nothing fails any more a call is not executed")

    # Tests

    def failed(self, operation, items, why):
        if isinstance(why, tb.NotSent) and operation in NAMES:
            self.unsent.append((operation, items))
        if not isinstance(why, (tb.ClientError, OSError, MemoryError, Odd)):
            self.world.wrong.append(f"a call is told {why!r}")

    def answered(self, operation, items, answer):
        records, wrong = self.world.ledger.records, self.world.wrong
        if operation in MADE_BY:
            there = iter(items)
            for it in answer:
                if it.id not in there or (MADE_BY[operation], key_of(it)) not in records:
                    wrong.append(f"{items} were looked up, and {it.id} came")
            return
        results = {it.index: it.result for it in answer}
        if any(index >= len(items) for index in results):
            wrong.append(f"{len(items)} events have the results {results}")
        for index, it in enumerate(items):
            result = results.get(index, NAMES[operation](0))
            fault = self.fault(operation, key_of(it), result)
            if fault:
                wrong.append(f"{it.id} is told {result.name}, and {fault}")

    def fault(self, operation, id, result):
        """What is wrong with an event's result, if something is."""
        ledger, names = self.world.ledger, NAMES[operation]
        is_there, times = (operation, id) in ledger.records, ledger.entered[operation, id]
        if result in (0, names.exists):
            if not is_there:
                return "is not there"
            if result == 0 and times != 1:
                return f"was executed {times} times"
            return "was executed once" if result and times == 1 else ""
        if is_there:
            return "is there"
        known = result == names.linked_event_failed or result == FAILS[operation] and fails(id)
        return "" if known else "has no reason for that"


def key_of(record):
    return record.id.to_bytes(ID, "little")


def words():
    parser = argparse.ArgumentParser(
        description=__doc__, formatter_class=argparse.RawDescriptionHelpFormatter
    )
    parser.add_argument("--seed", metavar="N", type=int, default=1, help="the first seed (1)")
    parser.add_argument("--count", metavar="N", type=int, default=50, help="how many seeds (50)")
    parser.add_argument("--first", action="store_true", help="stop behind a seed that failed")
    given = parser.parse_args()
    if given.seed < 0 or given.count < 1:
        parser.error("--seed must be 0 or more, and --count must be 1 or more")
    return given


def main():
    given, failed = words(), set()
    logging.getLogger("tb_client").setLevel(logging.CRITICAL)
    with mock.patch.object(pools, "PAUSE", PATIENT["PAUSE"]), mock.patch.object(
        sessions, "PAUSE_MAX", PATIENT["PAUSE_MAX"]
    ):
        for seed in range(given.seed, given.seed + given.count):
            if given.first and failed:
                break
            for is_async in (False, True):
                play = Play(seed, is_async)
                for wrong in play.run():
                    kind = type(play.client).__name__
                    print(f"FAILED: --seed {seed} --count 1: {kind}: {wrong}", flush=True)
                    failed.add(seed)
    print(f"{given.count} seeds, {len(failed)} failed")
    return 1 if failed else 0


if __name__ == "__main__":
    sys.exit(main())
