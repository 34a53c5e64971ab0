#!/usr/bin/env python3
"""Clients move money over sockets, each transfer once, though the server, a client and the listener
are killed amid the work.

    examples/sockets.py [COMMAND]        (crates/tbd/out/tbd of this repository if none is given,
    or its stand-in)

It is run twice: on a Unix socket, and on a port of this computer.
"""
import json
import os
import pathlib
import shlex
import subprocess
import sys
import tempfile
import time
from typing import Any, List, Tuple, Union

top = str(pathlib.Path(__file__).resolve().parents[3])
sys.path.insert(0, f"{top}/clients/python/src")

from tb_client import (  # noqa: E402
    Account,
    Operation,
    Session,
    Socket,
    Transfer,
    id,
    require_ok,
)

CASH, SALES = 1, 2
CLIENTS, COUNT = 4, 60
PATIENCE = 120.0  # seconds for which the clients may work before the next thing happens

Address = Union[str, Tuple[str, int]]


# A client


def work(address: Address, kept: str) -> None:
    """Makes COUNT transfers of 1, by the way that survives a crash: prepare, save, and only then
    send."""
    with Socket(address, timeout=20.0) as transport:
        if os.path.exists(kept):
            session = Session.load(transport, kept)
            if session.in_doubt:
                require_ok(session.retry())
        else:
            session = Session.register(transport)
        session.save(kept)
        while session.number < COUNT:
            session.prepare(
                Operation.create_transfers, [Transfer(id(), CASH, SALES, 1, ledger=700, code=10)]
            )
            session.save(kept)
            require_ok(session.retry())
            session.save(kept)


def done(kept: str) -> int:
    """How many transfers a client knows to be made."""
    try:
        with open(kept, encoding="ascii") as file:
            number: int = json.load(file)["number"]
            return number
    except FileNotFoundError:
        return 0


# The listener


class Listening:
    """A listener before a server whose process id is in a file, so that it can be killed."""

    def __init__(self, command: List[str], place: List[str], folder: str) -> None:
        self.folder = folder
        named = [
            "sh",
            "-c",
            'echo $$ > "$0"; exec "$@"',
            os.path.join(folder, "server.pid"),
            *command,
        ]
        self.words = [
            os.path.join(top, "server", "out", "tb-listen"),
            *place,
            "--",
            *named,
            "run",
            os.path.join(folder, "ledger.journal"),
            "8",
        ]
        self.start()

    def start(self) -> None:
        """Starts it. While the server of a listener that was killed still ends, the file is
        Locked."""
        for _ in range(100):
            self.process = subprocess.Popen(self.words, stderr=subprocess.PIPE, text=True)
            assert self.process.stderr
            said = ""
            for line in self.process.stderr:
                said = line.strip()
                if said.startswith("tb_listen: listens on "):
                    self.place = said[len("tb_listen: listens on ") :]
                    return
            self.process.wait()
            self.process.stderr.close()
            if "tbd: Locked" not in said:
                sys.exit(said)
            time.sleep(0.1)
        sys.exit("the ledger's file stays locked")

    def kill(self) -> None:
        self.process.kill()
        self.ended()

    def kill_server(self) -> None:
        with open(os.path.join(self.folder, "server.pid")) as file:
            os.kill(int(file.read()), 9)

    def ended(self) -> Tuple[int, str]:
        said = self.process.communicate()[1]
        return self.process.returncode, said


# The work


def client(address: Address, kept: str) -> "subprocess.Popen[bytes]":
    return subprocess.Popen(
        [sys.executable, os.path.abspath(__file__), "client", json.dumps(address), kept]
    )


def wait_until(
    count: int, files: List[str], clients: "List[subprocess.Popen[bytes]]", listening: Listening
) -> None:
    """Waits until the clients know that a number of transfers are made. Ends the example if they
    cannot make them any more."""
    deadline = time.monotonic() + PATIENCE
    while sum(map(done, files)) < count:
        for it in clients:
            if it.poll():
                sys.exit(f"a client failed, with status {it.returncode}")
        if listening.process.poll() is not None:
            sys.exit("the listener ended, with status {}: {}".format(*listening.ended()).strip())
        if time.monotonic() > deadline:
            sys.exit(f"the clients did not make {count} transfers in {PATIENCE:g} seconds")
        time.sleep(0.005)


def run(command: List[str], place: List[str], folder: str) -> None:
    listening = Listening(command, place, folder)
    clients: "List[subprocess.Popen[bytes]]" = []
    try:
        work_amid_kills(listening, clients, place, folder)
    finally:
        running: "List[subprocess.Popen[Any]]" = [*clients, listening.process]
        for it in running:  # if something failed they may still run
            it.kill()
            it.wait()


def work_amid_kills(
    listening: Listening, clients: "List[subprocess.Popen[bytes]]", place: List[str], folder: str
) -> None:
    address: Address = listening.place
    if place[0] == "--tcp":
        host, _, port = listening.place.rpartition(":")
        address = host, int(port)
        listening.words[
            listening.words.index("--tcp") + 1
        ] = listening.place  # from now on the same port

    with Session.register(Socket(address)) as session:
        require_ok(
            session.create_accounts([Account(it, ledger=700, code=10) for it in (CASH, SALES)])
        )
    files = [os.path.join(folder, f"session{number}.json") for number in range(CLIENTS)]
    clients += [client(address, kept) for kept in files]

    wait_until(CLIENTS * COUNT // 5, files, clients, listening)
    listening.kill_server()
    print("  the server is killed: the listener starts it again")

    wait_until(CLIENTS * COUNT * 2 // 5, files, clients, listening)
    clients[0].kill()
    clients[0].wait()
    clients[0] = client(address, files[0])
    print("  a client is killed: it goes on from what it saved")

    wait_until(CLIENTS * COUNT * 3 // 5, files, clients, listening)
    listening.kill()
    listening.start()
    print("  the listener is killed: its server ends with it, and both are started again")

    wait_until(CLIENTS * COUNT, files, clients, listening)
    assert [it.wait() for it in clients] == [0] * CLIENTS, "a client failed"
    with Session.register(Socket(address)) as session:
        credited = session.lookup_accounts([SALES])[0].credits_posted
    print(f"  {CLIENTS} clients made {COUNT} transfers each: credits_posted {credited}")
    assert credited == CLIENTS * COUNT, "the money moved more than once, or not at all"

    listening.process.terminate()
    status, said = listening.ended()
    assert status == 0 and "has stopped: Stopping" in said, "the listener did not end well"
    print("  the listener is asked to end, and ends with status 0")


def main(words: List[str]) -> None:
    if words[:1] == ["client"]:
        address = json.loads(words[1])
        work(address if isinstance(address, str) else (address[0], address[1]), words[2])
        return
    built = os.path.join(top, "crates", "tbd", "out", "tbd")
    stand_in = [sys.executable, os.path.join(top, "clients", "python", "tests", "stand_in_tbd.py")]
    command = shlex.split(words[0]) if words else [built] if os.access(built, os.X_OK) else stand_in
    for name, place in (("a Unix socket", "--unix"), ("a port", "--tcp")):
        with tempfile.TemporaryDirectory() as folder:
            print(f"on {name}:")
            run(
                command,
                [place, "127.0.0.1:0" if place == "--tcp" else os.path.join(folder, "ledger.sock")],
                folder,
            )


if __name__ == "__main__":
    main(sys.argv[1:])
