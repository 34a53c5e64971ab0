"""The runner of a client, as a process."""
import contextlib
import glob
import json
import os
import select
import signal
import subprocess
import time


START = 120.0  # seconds that a runner may take to start, and to end
LOOK = 1.0  # seconds between two looks at whether a process makes progress


class Ended(Exception):
    """The runner ended, or gave no answer."""


class Patience:
    """How long something may be waited for while the process that owes it is idle. Time in which it
    or this one waits for a processor does not count, and at most a second of each look: on a busy
    computer a right client may take long."""

    def __init__(self, seconds, waited):
        self.left, self.waited = seconds, waited
        self.at, self.before = time.monotonic(), None

    def is_over(self):
        """Counts the time from the last look on."""
        now, total = time.monotonic(), self.waited()
        starved = 0 if self.before is None else max(total - self.before, 0)
        self.left -= max(min(now - self.at, LOOK) - starved, 0)
        self.at, self.before = now, total
        return self.left <= 0

    def look(self):
        """Seconds until the next look."""
        return min(LOOK, max(self.left, 0))


def waited(process):
    """Seconds that a process's threads have waited for a processor."""
    total = 0
    for path in glob.glob(f"/proc/{process}/task/*/schedstat"):
        with contextlib.suppress(OSError, IndexError):
            with open(path, encoding="ascii") as it:
                total += int(it.read().split()[1])
    return total / 1e9


def last_line(said):
    return said.splitlines()[-1] if said else ""


class Runner:
    def __init__(self, words, folder):
        self.words, self.folder = words, folder
        self.errors = os.path.join(folder, "runner.stderr")
        self.process, self.buffer, self.past = None, b"", 0.0

    def start(self):
        self.kill()
        with open(self.errors, "wb") as errors:
            self.process = subprocess.Popen(
                self.words,
                stdin=subprocess.PIPE,
                stdout=subprocess.PIPE,
                stderr=errors,
                start_new_session=True,
            )
        self.buffer = b""
        return self.call({"do": "hello"}, START)

    def send(self, line):
        try:
            self.process.stdin.write(json.dumps(line).encode() + b"\n")
            self.process.stdin.flush()
        except OSError:
            raise Ended(f"the runner ended before a line: {last_line(self.said())}") from None

    def waited(self):
        """Seconds that it and the kit have waited for a processor, with its earlier processes."""
        process = self.process
        return self.past + waited("self") + (waited(process.pid) if process else 0)

    def answer(self, seconds, is_served=lambda: False):
        """The next line, as an object. The time begins when it is served no more."""
        patience, output = Patience(seconds, self.waited), self.process.stdout
        while b"\n" not in self.buffer:
            if not select.select([output], [], [], patience.look())[0]:
                if is_served():
                    patience = Patience(seconds, self.waited)
                elif patience.is_over():
                    raise Ended(f"no answer within {seconds:g} s")
                continue
            more = os.read(output.fileno(), 1 << 16)
            if not more:
                raise Ended(f"the runner ended: {last_line(self.said())}")
            self.buffer += more
        line, _, self.buffer = self.buffer.partition(b"\n")
        try:
            return json.loads(line)
        except ValueError:
            raise Ended(f"no JSON: {line[:200]!r}") from None

    def call(self, line, seconds):
        self.send(line)
        return self.answer(seconds)

    def strike(self):
        """Kills it while another thread may wait for its answer: what is left of it goes by
        `kill`."""
        with contextlib.suppress(ProcessLookupError):
            os.killpg(self.process.pid, signal.SIGKILL)

    def kill(self):
        """Ends it as a crash would."""
        if self.process is not None:
            self.past += waited(self.process.pid)
            self.strike()
            self.process.wait()
            with contextlib.suppress(OSError):  # an interrupt may have left bytes unsent
                self.process.stdin.close()
            self.process.stdout.close()
            self.process = None

    def end(self):
        """Ends its input, and gives back its status."""
        self.process.stdin.close()
        try:
            status = self.process.wait(START)
        except subprocess.TimeoutExpired:
            self.kill()
            return None
        self.process.stdout.close()
        self.process = None
        return status

    def said(self):
        try:
            with open(self.errors, "rb") as it:
                return it.read()[-2000:].decode(errors="replace").strip()
        except OSError:
            return ""
