"""A listener as a process, and sockets in front of it."""

import contextlib
import glob
import os
import re
import signal
import socket
import subprocess
import tempfile
import time

from paths import CRATES, LISTENER, STAND_IN


TBD = os.environ.get("TBD", os.path.join(CRATES, "tbd", "out", "tbd"))

KEEPER = [TBD] if os.access(TBD, os.X_OK) else STAND_IN


def children(process):
    """The processes that a process started, by their ids: any of its threads may have done so."""
    some = []
    for path in glob.glob(f"/proc/{process}/task/*/children"):
        with contextlib.suppress(OSError), open(path) as file:
            some += map(int, file.read().split())
    return some


NEWS = "tb_listen: tbd: made ", "tb_listen: tbd: reading ", "tb_listen: tbd: copied "

NEWS += "tb_listen: tbd: cut ", "tb_listen: has stopped: "


class Running:
    """A listener as a process, before a server that keeps its ledger in a file if no other command
    is given."""

    def __init__(self, *options, command=None, folder=None, fail=""):
        self.own = None if folder else tempfile.TemporaryDirectory()
        self.folder = folder or self.own.name
        self.path, self.file = os.path.join(self.folder, "ledger.sock"), os.path.join(
            self.folder, "ledger.journal"
        )
        place = [] if "--tcp" in options or "--unix" in options else ["--unix", self.path]
        self.command = command or KEEPER
        if "run" not in self.command:
            self.command = [*self.command, "run", self.file, "64"]
        words = [
            LISTENER,
            *place,
            *options,
            "--",
            *self.command,
        ]
        self.process = subprocess.Popen(
            words, stderr=subprocess.PIPE, text=True, env={**os.environ, "FAIL": fail}
        )
        self.news = []  # what the server told of its start
        self.said = []
        self.tells()
        found = re.fullmatch(r"tb_listen: listens on (.*):([0-9]+)\n", self.said[0])
        self.address = (found[1].strip("[]"), int(found[2])) if found else self.path

    def __enter__(self):
        return self

    def __exit__(self, *_):
        if self.process.poll() is None:
            self.end()
        self.process.stderr.close()
        if self.own:
            self.own.cleanup()

    def end(self, number=signal.SIGTERM):
        self.process.send_signal(number)
        return self.ended()

    def ended(self):
        """The status and the lines on standard error, once it has ended."""
        status = self.process.wait(20)
        for line in self.process.stderr:
            (self.news if line.startswith(NEWS) else self.said).append(line)
        return status

    def server(self):
        """The id of the server's process, once it runs."""
        for _ in range(200):
            found = children(self.process.pid)
            if found:
                return found[0]
            time.sleep(0.02)
        raise AssertionError("no server runs")

    def kill_server(self):
        os.kill(self.server(), signal.SIGKILL)

    def tells(self):
        """Its next line, without news."""
        while (line := self.process.stderr.readline()).startswith(NEWS):
            self.news.append(line)
        self.said.append(line)
        return line

    def call(self):
        if isinstance(self.address, tuple):
            return socket.create_connection(self.address, 10)
        it = socket.socket(socket.AF_UNIX, socket.SOCK_STREAM)
        it.settimeout(10)
        it.connect(self.path)
        return it


def told(it):
    """What a connection is told until it is closed."""
    data = b""
    with it, contextlib.suppress(ConnectionError):
        while True:
            more = it.recv(1 << 16)
            if not more:
                break
            data += more
    return data


@contextlib.contextmanager
def held_port(host="127.0.0.1"):
    """A port that nobody else is given meanwhile, and at which a program may listen."""
    family = socket.AF_INET6 if ":" in host else socket.AF_INET
    with socket.socket(family) as it:
        it.setsockopt(socket.SOL_SOCKET, socket.SO_REUSEADDR, 1)
        it.bind((host, 0))
        yield it.getsockname()[1]


def has_ipv6():
    with contextlib.suppress(OSError), socket.socket(socket.AF_INET6, socket.SOCK_STREAM) as it:
        it.bind(("::1", 0))
        return True
    return False
