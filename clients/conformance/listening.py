"""A listener and its server as processes, which keep their ledger in a file."""
import contextlib
import glob
import os
import signal
import subprocess
import time

TOP = os.path.dirname(os.path.dirname(os.path.dirname(os.path.abspath(__file__))))
LISTENER = os.environ.get("LISTENER") or f"{TOP}/server/out/tb-listen"
TBD = os.environ.get("TBD") or f"{TOP}/crates/tbd/out/tbd"
START = 60.0  # seconds that a start and an end may take


class Wrong(Exception):
    """The listener does not start, or ends with a fault."""


class Listening:
    def __init__(self, server, folder, listener=LISTENER, options=()):
        self.words = [listener, *options, "--unix", f"{folder}/ledger.sock", "--", *server]
        self.path, self.process = f"{folder}/ledger.sock", None
        self.words += ["run", f"{folder}/ledger.journal", "64"]

    def start(self):
        """Starts them. The server before may still hold the file for a moment: then again."""
        said, deadline = "Locked", time.monotonic() + START
        while "Locked" in said and time.monotonic() < deadline:
            said = ""
            try:
                self.process = subprocess.Popen(self.words, stderr=subprocess.PIPE, text=True)
            except OSError as why:
                raise Wrong(f"the listener does not start: {why}") from None
            line = self.process.stderr.readline()
            while line and "listens on" not in line:
                said += line
                line = self.process.stderr.readline()
            if line:
                return
            self.process.wait()
            self.process.stderr.close()
            time.sleep(0.02)
        raise Wrong(f"the listener does not start: {said.strip()}")

    def kill(self):
        if self.process is not None:
            self.process.kill()
            self.process.wait()
            self.process.stderr.close()

    def kill_server(self):
        """Kills the listener's child, and returns whether it has one at the moment: any of its
        threads may have started it."""
        is_killed = False
        for thread in glob.glob(f"/proc/{self.process.pid}/task/*/children"):
            with contextlib.suppress(OSError):
                with open(thread, encoding="ascii") as it:
                    for number in it.read().split():
                        os.kill(int(number), signal.SIGKILL)
                        is_killed = True
        return is_killed

    def end(self):
        self.process.terminate()
        status = self.process.wait(START)
        self.process.stderr.close()
        if status:
            raise Wrong(f"the listener ended with status {status}")
