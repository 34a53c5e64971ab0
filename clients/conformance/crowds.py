#!/usr/bin/env python3
"""Calls at once over sessions and transports that are shared, with a server that fails as a seed
draws: what a scenario cannot tell before, since the order of such calls is open.

    clients/conformance/crowds.py [--seed N] [--count N] [--first] -- COMMAND [WORD ..]

Rounds of calls go to a client at once, through its runner (PROTOCOL.md): requests, retries,
savings, limits of the caller's, and a closing amid them. The server replies, loses, cuts, doubles
and changes replies, is late, and tells names. Then it tests:

    an answer is that of the caller's own request, which was executed once
    of a call that says that nothing was sent nothing was executed
    numbers rise by one in a session, and one number has the same bytes at each sending
    what was saved meanwhile is a session
    each error has a name of the protocol, and each call ends
    where nothing fails any more what is in doubt is executed once, and the next request too

Prints what was wrong by each seed, and 'N seeds, M failed'. Status 1 where one failed.
"""
import argparse
import collections
import contextlib
import os
import random
import socket
import struct
import sys
import tempfile
import threading
import time

sys.dont_write_bytecode = True
sys.path.insert(0, os.path.dirname(os.path.abspath(__file__)))

from made import frames  # noqa: E402
from made.sequences import CREATES, FOUND, Asked, Ledger, record  # noqa: E402
from runner import Ended, Runner  # noqa: E402

HEADER = 48
CALL = 120.0  # seconds that the calls of a round may take
LONG = 60.0  # seconds that one sending may take if nothing fails
SIZES = {frames.ACCOUNTS: 128, frames.TRANSFERS: 128}
USUAL = {
    "loses": 2,
    "executes and loses": 3,
    "cuts": 2,
    "is late": 1,
    "replies twice": 1,
    "replies slowly": 4,
    "replies and closes": 2,
    "replies to another": 1,
    "not yet": 1,
    "Busy": 2,
    "Starting": 1,
    "Slow": 1,
    "Idle": 1,
}
# what a call may be told
ERRORS = (
    "InDoubt NothingInDoubt Closed CannotConnect ReplyLost Busy BadReply NotYet Cancelled"
).split()


class World:
    """A ledger behind some sockets, and what was wrong."""

    def __init__(self, seed):
        self.draw, self.lock = random.Random(seed), threading.Lock()
        self.ledger, self.is_healed, self.wrong = Ledger(self.draw), False, []
        drawn = {name: weight for name, weight in USUAL.items() if self.draw.random() < 0.5}
        self.kinds, self.weights = ["replies", *drawn], [20, *drawn.values()]
        self.executed = collections.Counter()  # by the first item of a request
        self.says = {}
        self.seen = {}  # by client and session: the frame of each number

    def take(self, frame):
        """What becomes of a request, and the reply to it."""
        with self.lock:
            kind = self.draw.choices(self.kinds, self.weights)[0]
            kind = "replies" if self.is_healed else kind
            asked, session, client = asked_of(frame)
            if kind != "Starting":  # of which the client is told that nothing was executed
                self.see(asked, session, client)
            if kind in ("loses", "not yet", "Busy", "Starting", "Idle"):
                return kind, b""
            before = len(self.ledger.replies)
            reply, says = self.ledger.reply_to(client, asked, session)
            if len(self.ledger.replies) > before and asked.items:
                self.executed[asked.items[0]] += 1
                self.says[asked.items[0]] = says
            return kind, reply

    def see(self, asked, session, client):
        """Tests a request's number. What came over a connection that the client left may be read
        late: the same bytes as those of its number before."""
        seen, number = self.seen.setdefault((client, session), {}), asked.number
        if seen and number not in seen and number != max(seen) + 1:
            self.wrong.append(f"request {number} came behind request {max(seen)}")
        if seen.setdefault(number, asked.frame) != asked.frame:
            self.wrong.append(f"request {number} came with other bytes")

    def draws(self):
        with self.lock:
            return self.draw.random()


def asked_of(frame):
    session, number, operation = struct.unpack_from("<QIB", frame, 16)
    size = SIZES.get(operation, 16)
    places = range(HEADER, len(frame), size)
    items = [str(int.from_bytes(frame[at : at + 16], "little")) for at in places]
    return Asked(number, operation, items, frame), session, int.from_bytes(frame[:16], "little")


class Server:
    """A Unix socket, with a thread for each connection."""

    def __init__(self, world, path):
        self.world, self.path, self.connections = world, path, []
        self.socket = socket.socket(socket.AF_UNIX)
        self.socket.bind(path)
        self.socket.listen(64)
        threading.Thread(target=self.accept, daemon=True).start()

    def accept(self):
        with contextlib.suppress(OSError):
            while True:
                it = self.socket.accept()[0]
                self.connections.append(it)
                threading.Thread(target=self.serve, args=(it,), daemon=True).start()

    def serve(self, it):
        with contextlib.suppress(OSError), it:
            while frame := request_from(it):
                if not self.answer(it, frame, *self.world.take(frame)):
                    break

    def answer(self, it, frame, kind, reply):
        """Does what was drawn. Whether the connection stays."""
        if kind in ("Busy", "Starting", "Idle", "Slow"):
            it.sendall(f"tb_listen: {kind}\n".encode())
            return False
        if kind in ("loses", "executes and loses"):
            return False
        if kind == "cuts":
            it.sendall(reply[: 1 + int(self.world.draws() * (len(reply) - 1))])
            return False
        if kind in ("is late", "replies slowly"):
            time.sleep(self.world.draws() * (0.6 if kind == "is late" else 0.05))
        if kind == "not yet":
            reply = frame[:29] + b"\x07" + bytes(18)
        if kind == "replies to another":
            reply = reply[:24] + bytes([reply[24] ^ 1]) + reply[25:]
        it.sendall(reply * (2 if kind == "replies twice" else 1))
        return kind != "replies and closes"

    def close(self):
        for it in (self.socket, *self.connections):
            with contextlib.suppress(OSError):
                it.shutdown(socket.SHUT_RDWR)
        self.socket.close()


def request_from(it):
    header = received(it, HEADER)
    return header + received(it, int.from_bytes(header[32:36], "little")) if header else b""


def received(it, count):
    data = b""
    while len(data) < count:
        more = it.recv(count - len(data))
        if not more:
            return b""
        data += more
    return data


class Crowd:
    """What a seed draws, over one runner."""

    def __init__(self, seed, runner, features, folder):
        self.world, self.draw = World(seed), random.Random(~seed)
        self.runner, self.features, self.folder = runner, features, folder
        names = "ab"[: self.draw.choice((1, 2 if "addresses" in features else 1))]
        self.servers = [Server(self.world, f"{folder}/{seed}{name}") for name in names]
        self.timeout, self.transport = self.draw.choice((0.3, 0.3, 5.0)), ""
        self.ids, self.names = iter(range(1000 * seed + 1000, 10**18)), iter(range(10**6))
        self.sessions, self.unsent = {}, []

    def call(self, do, **line):
        return self.runner.call({"do": do, **line}, CALL)

    def run(self):
        """What was wrong."""
        try:
            self.call("reset")
            self.connect(self.timeout)
            for name in ("s", "u"):
                self.register(name)
            for _ in range(self.draw.randrange(2, 8)):
                self.round()
            self.settle()
        finally:
            for it in self.servers:
                it.close()
        return self.world.wrong

    def connect(self, timeout):
        self.transport = f"t{next(self.names)}"
        addresses = [{"unix": it.path} for it in self.servers]
        self.call("connect", transport=self.transport, addresses=addresses, timeout=timeout)

    def register(self, name):
        options = {"attempts": self.draw.choice((1, 2, 3)), "pause": 0.005}
        for _ in range(30):
            client = str(next(self.ids))
            self.sessions[name] = options
            it = self.call(
                "register", session=name, transport=self.transport, client=client, **options
            )
            if "ok" in it:
                return
        self.world.wrong.append(f"30 registers fail, the last one by {it}")

    # Calls at once

    def round(self):
        doubtful = {it for it in self.sessions if self.call("in_doubt", session=it)["ok"]}
        calls = [self.drawn() for _ in range(self.draw.choice((1, 2, 3, 6)))]
        answers = self.call("parallel", calls=calls)["ok"]
        for call, answer in zip(calls, answers):
            self.test(call, answer)
        doubtful |= {call["session"] for call, it in zip(calls, answers) if is_doubtful(call, it)}
        for call, answer in zip(calls, answers):
            is_told = call["do"] == "ask" and answer.get("error", {}).get("name") == "InDoubt"
            if is_told and call["session"] not in doubtful:
                self.world.wrong.append(f"ask {first_id(call)} is told InDoubt, and nothing is")
        for call in calls:
            if call["do"] == "save":
                self.loads(call)
        if any(it["do"] == "close" for it in calls):
            self.connect(self.timeout)
            self.resume()

    def drawn(self):
        name, kind = self.draw.choice(list(self.sessions)), self.draw.random()
        limit = {}
        if "cancel" in self.features and self.draw.random() < 0.15:
            limit = {"within": self.draw.choice((0.0001, 0.01, 0.05, 0.2))}
        if kind < 0.15:
            return {"do": "retry", "session": name, **limit}
        if kind < 0.75:
            return {"do": "ask", "session": name, **self.request(), **limit}
        if kind < 0.8:
            return {"do": "prepare", "session": name, **self.request()}
        if kind < 0.9:
            return {"do": "save", "session": name, "path": f"{self.folder}/{name}.json"}
        if kind < 0.95:
            return {"do": "close", "transport": self.transport}
        return {"do": "in_doubt", "session": name}

    def request(self):
        operation = self.draw.choice((*CREATES, *FOUND))
        ids = [str(next(self.ids)) for _ in range(self.draw.choice((1, 1, 2, 4)))]
        items = [record(self.draw, operation, it) for it in ids] if operation in CREATES else ids
        return {"operation": frames.NAMES[operation], "items": items}

    def loads(self, call):
        """What was saved amid other calls is a session, and not one of a later time."""
        path, name = call["path"], call["session"]
        it = self.call("load", session="x", transport=self.transport, path=path)
        now = self.call("saved", session=name)["ok"]
        if "ok" not in it or int(it["ok"]["number"]) > int(now["number"]):
            self.world.wrong.append(f"what was saved is loaded as {it}, and the session is {now}")

    def resume(self):
        """The sessions go on over the present transport."""
        for name, options in self.sessions.items():
            kept = self.call("saved", session=name)["ok"]
            line = {"session": name, "transport": self.transport, "saved": kept, **options}
            self.call("resume", **line)

    # Tests

    def test(self, call, answer):
        shown = f"{call['do']} {first_id(call)}"
        if "ok" not in answer and answer.get("error", {}).get("name") not in ERRORS:
            self.world.wrong.append(f"{shown} is told {answer}")
        if call["do"] != "ask":
            return
        id = first_id(call)
        if "error" in answer and not answer["error"]["sent"]:
            self.unsent.append(id)
        if "ok" in answer:
            with self.world.lock:
                wanted, times = self.world.says.get(id), self.world.executed[id]
            if answer["ok"] != wanted or times != 1:
                self.world.wrong.append(
                    f"{shown} is told {answer['ok']}, not {wanted}, and was executed {times} times"
                )

    def settle(self):
        """Nothing fails any more."""
        self.world.is_healed = True
        self.connect(LONG)
        self.resume()
        for name in self.sessions:
            doubt = self.call("in_doubt", session=name)["ok"]
            if doubt:
                answer = self.call("retry", session=name)
                if "ok" not in answer:
                    self.world.wrong.append(f"where nothing fails a retry is told {answer}")
            call = {"do": "ask", "session": name, **self.request()}
            answer = self.runner.call(call, CALL)
            self.test(call, answer)
            if "ok" not in answer:
                self.world.wrong.append(f"where nothing fails a call is told {answer}")
        for id, times in self.world.executed.items():
            if times > 1 or id in self.unsent:
                self.world.wrong.append(f"{id} was executed {times} times")


def is_doubtful(call, answer):
    """Whether a request may be in doubt after a call, or was while others were answered."""
    return answer.get("error", {}).get("sent") or call["do"] == "prepare" and "ok" in answer


def first_id(call):
    """The id of the first item: no other request has it."""
    it = call.get("items", [""])[0]
    return it["id"] if isinstance(it, dict) else it


def words():
    parser = argparse.ArgumentParser(
        description=__doc__, formatter_class=argparse.RawDescriptionHelpFormatter
    )
    parser.add_argument("--seed", metavar="N", type=int, default=1, help="the first seed (1)")
    parser.add_argument("--count", metavar="N", type=int, default=50, help="how many seeds (50)")
    parser.add_argument("--first", action="store_true", help="stop behind a seed that failed")
    parser.add_argument("command", metavar="COMMAND", nargs="+", help="the runner, behind --")
    given = parser.parse_args()
    if given.seed < 0 or given.count < 1:
        parser.error("--seed must be 0 or more, and --count must be 1 or more")
    return given


def played(seed, runner, features, folder):
    """What was wrong with a seed's calls. A runner that ended is started again."""
    try:
        return Crowd(seed, runner, features, folder).run()
    except Ended as why:
        said = runner.said()
        runner.start()
        return [f"{why}: {said}"]


def main():
    given, played_so_far, failed = words(), 0, 0
    with tempfile.TemporaryDirectory(prefix="crowds") as folder:
        runner = Runner(given.command, folder)
        features = runner.start()["ok"]["features"]
        if not {"unix", "parallel"} <= set(features):
            print("passed over, since the client has no unix or no parallel")
            return 0
        for seed in range(given.seed, given.seed + given.count):
            if given.first and failed:
                break
            wrong = played(seed, runner, features, folder)
            for it in wrong:
                print(f"FAILED: --seed {seed} --count 1: {it}", flush=True)
            played_so_far += 1
            failed += bool(wrong)
        runner.end()
    print(f"{played_so_far} seeds, {failed} failed")
    return 1 if failed else 0


if __name__ == "__main__":
    sys.exit(main())
