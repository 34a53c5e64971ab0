"""`tbs run` as a process."""
from __future__ import annotations

import contextlib
import logging
import os
import re
import selectors
import signal
import struct
import subprocess
import threading
import time
from typing import IO, Callable, Optional, Union, cast

from .errors import (
    CannotStart,
    ClockJumped,
    Closed,
    InvalidValue,
    Locked,
    NoMemory,
    ProgramEnded,
    ReplyLost,
    ScriptFull,
)
from .forks import left_by_children
from .frames import header_of, reply_length, test_reply
from .layout import CLIENTS_MAX, HEADER, SECOND
from .locks import owner_of
from .transports import Closing, to_standard_error
from .values import MOMENT_MAX, U64, callable_of, path_of, seconds, truth, whole

CHUNK = 1 << 20  # bytes that are read at once, and the most that are kept of standard error
SCRIPT_MAX = 256 << 20
# what `tbd run --progress` says besides faults, the last of it when it serves
READY = r"(ready)(?:: commit [0-9]+, time [0-9]+)?$"
NEWS = re.compile(rf"^tbd: (?:made |reading |copied |cut |{READY})")
# what a start did to the file: that it is a new one, or that it had torn bytes
DONE = re.compile(r"^tbd: (?:made|copied|cut) ")
AHEAD_MAX = 60.0  # seconds that a moment may be ahead of this computer's clock
log = logging.getLogger("tb_client")
LONGEST = 3600.0  # seconds of one wait for the pipes: the system takes no number of them


class Program(Closing):
    """`tbs run` as a process, or `tbd run` with a file, to which requests go one by one over a
    pipe, and from which replies come over another.

    Replies come in the order of the requests. So the reply to the request that was sent as the nth
    is the nth, and one that comes too late is skipped. Threads may share a Program: an exchange
    is one thread's from its first byte to its last.

    With `file` the program is `tbd`, which keeps its ledger in this file. Nothing is sent before it
    has read that: an exchange whose `timeout` ends meanwhile is `CannotStart`. With restarts=True
    one that ended is started again over it. Without `file` the program is `tbs`: it keeps its
    history in memory, and the history ends with the process. Each exchange afterwards is
    `ProgramEnded`. With restarts=True every request that was answered is kept in this process, up
    to `script_max` bytes in all (`ScriptFull` is raised if the next one would not fit; None is no
    bound). A program that ended is then started again on this script by the next exchange: the same
    script makes the same history."""

    def __init__(
        self,
        path: Union[str, os.PathLike[str]],
        clients_max: int = CLIENTS_MAX,
        profile: int = 1,
        timeout: float = 5.0,
        restarts: bool = False,
        script_max: Optional[int] = SCRIPT_MAX,
        file: Union[str, os.PathLike[str], None] = None,
        existing: bool = False,
        ahead_max: Optional[float] = AHEAD_MAX,
        report: Callable[[str], object] = to_standard_error,
        drop_torn: bool = False,
    ) -> None:
        places = whole("clients_max", clients_max, CLIENTS_MAX, 1)
        profile = whole("profile", profile, 2, 1)
        words = [] if file is None else [_file_word(path_of("file", file))]
        self.command = [path_of("path", path), "run", *words, str(places), str(profile)]
        self.command += [] if file is None else ["--progress"]
        for name, given in (("existing", existing), ("drop_torn", drop_torn)):
            if truth(name, given) and file is None:
                raise InvalidValue(name, "needs file=: tbs keeps its ledger in memory")
            self.command += [f"--{name.replace('_', '-')}"] if given else []
        if file is None and os.path.basename(self.command[0]) == "tbd":
            raise InvalidValue("path", "is tbd, which keeps its ledger in a file: give file=")
        self.timeout = seconds("timeout", timeout, 0.001)
        self.restarts = truth("restarts", restarts)
        self.ahead_max = None if ahead_max is None else seconds("ahead_max", ahead_max, 0)
        self.report = callable_of("report", report)
        self.keeps_file = file is not None
        # what a program that keeps nothing is started again on
        self.keeps_script = self.restarts and file is None
        self.script_max = None if script_max is None else whole("script_max", script_max, U64)
        self.script: list[bytes] = []
        self.script_bytes = self.answered = 0
        self.process: Optional[subprocess.Popen[bytes]] = None
        self._lock = threading.RLock()
        self._owner = os.getpid()
        self._end: Optional[Exception] = None
        self._is_closed = False
        self._is_amid = False  # between what the system did and what is kept of it here
        self._start()
        left_by_children(self)

    def __repr__(self) -> str:
        state = "not running" if self.process is None else f"process {self.process.pid}"
        return f"<Program {' '.join(self.command)}, {state}>"

    def _start(self) -> None:
        log.info("starts %s, and sends it %d requests", self.command[0], len(self.script))
        try:
            piped = subprocess.PIPE
            # in a session of its own: Ctrl-C at a terminal goes to all processes of that
            self.process = subprocess.Popen(
                self.command, stdin=piped, stdout=piped, stderr=piped, start_new_session=True
            )
        except OSError as error:
            raise CannotStart(f"{self.command[0]} does not start: {error.strerror}") from None
        self._is_amid = True
        for pipe in self._pipes()[:2]:
            os.set_blocking(pipe.fileno(), False)
        # what is to be sent, what came and is not read yet, and how far each is done
        self.out, self.out_at = b"".join(self.script), 0
        self.data, self.data_at = b"", 0
        self.sent, self.seen = len(self.script), 0
        self.last = self.said = self._line = b""
        self.is_ready = "--progress" not in self.command
        self._is_amid = False

    def _pipes(self) -> tuple[IO[bytes], IO[bytes], IO[bytes]]:
        process = self.process
        assert process is not None and process.stdin and process.stdout and process.stderr
        return process.stdin, process.stdout, process.stderr

    def exchange(self, moment: int, frame: bytes) -> bytes:
        header_of(frame)  # a wrong one would end the program for all
        pair = struct.pack("<Q", whole("moment", moment, MOMENT_MAX)) + frame
        self._test_ahead(moment)
        self._test_owner()
        with self._lock:
            self._be_ready()
            deadline = time.monotonic() + seconds("timeout", self.timeout, 0)
            self._await_ready(deadline)
            # otherwise it is on its way already, and its reply is waited for
            if self.seen == self.sent or self.last != frame:
                self._queue(pair)
            try:
                return self._awaited(deadline)
            except OSError as error:
                raise ReplyLost(
                    f"the pipes of the program failed: {error.strerror or error}"
                ) from None

    def _test_owner(self) -> None:
        if self._owner != os.getpid():
            raise Closed("this Program belongs to the process that made it")

    def _test_ahead(self, moment: int) -> None:
        """Refuses a moment that a kept ledger would keep for ever."""
        if self.keeps_file and self.ahead_max is not None:
            ahead = moment - time.time_ns()
            if ahead > self.ahead_max * SECOND:
                raise ClockJumped(
                    f"the moment is {ahead / SECOND:.3f} s ahead of this computer's clock, and "
                    f"ahead_max is {self.ahead_max:g} s: nothing was sent"
                )

    def _be_ready(self) -> None:
        """Starts the program again if that was asked for, otherwise raises why it takes no more."""
        if self._is_closed:
            raise Closed("this Program was closed")
        if self._end is not None:
            raise self._end.with_traceback(None)
        if self.process is not None and self._is_amid:
            self.process.kill()
            raise self._ended("interrupted amid its pipes, and killed")
        if self.process is None:
            self._start()

    def wait(self, patience: float) -> bool:
        """Whether the program serves within a number of seconds. What it says meanwhile is in
        `told`. Raises ProgramEnded with its fault if it ends before."""
        self._test_owner()
        with self._lock:
            self._be_ready()
            with contextlib.suppress(CannotStart):
                self._await_ready(time.monotonic() + seconds("patience", patience, 0))
            return self.is_ready

    @property
    def told(self) -> list[str]:
        """The lines that it wrote to standard error."""
        return self._lines()

    def _await_ready(self, deadline: float) -> None:
        """Waits until the program has reported that it serves, if it reports that."""
        stderr = self._pipes()[2]
        while not self.is_ready:
            with selectors.DefaultSelector() as readable:
                readable.register(stderr, selectors.EVENT_READ)
                left = deadline - time.monotonic()
                if left <= 0:
                    raise CannotStart(
                        f"{self.command[0]} has not read its ledger within {self.timeout:g} "
                        "seconds, and nothing was sent"
                    )
                if not readable.select(min(left, LONGEST)):
                    continue
            self._is_amid = True
            more = os.read(stderr.fileno(), CHUNK)
            done = self._hear(more)
            self.is_ready = any(it and it[1] for it in map(NEWS.match, self._lines()))
            if self.is_ready and "--existing" not in self.command:
                self.command.append("--existing")  # a restart never makes another ledger
            self._is_amid = False
            for line in done:
                self.pass_on(line)
            if not more:
                raise self._ended()

    def _hear(self, more: bytes) -> list[str]:
        """Keeps what came on standard error. Gives the lines that ended."""
        self.said = (self.said + more)[-CHUNK:]
        *ended, self._line = (self._line + more).split(b"\n")
        self._line = self._line[-CHUNK:]
        return [line.decode(errors="replace") for line in ended]

    def pass_on(self, line: str) -> None:
        """Reports a line that says what was done to the file."""
        if DONE.match(line):
            self.report(line)

    def _lines(self) -> list[str]:
        """The whole lines, and the one that is not, which it wrote to standard error."""
        return self.said.decode(errors="replace").splitlines()

    def _queue(self, pair: bytes) -> None:
        size = self.script_bytes + len(pair)
        if self.keeps_script and self.script_max is not None and size > self.script_max:
            raise ScriptFull(
                f"the script for restarts would have {size} bytes, and script_max is "
                f"{self.script_max}"
            )
        self._is_amid = True
        if self.keeps_script:
            self.script.append(pair)
            self.script_bytes = size
        self.out, self.out_at = self.out[self.out_at :] + pair, 0
        self.sent, self.last = self.sent + 1, pair[8:]
        self._is_amid = False

    def _awaited(self, deadline: float) -> bytes:
        """The reply to what was sent last. What is left to be sent goes out as the pipe takes
        it."""
        stdin, stdout, _ = self._pipes()
        with selectors.DefaultSelector() as ready:
            ready.register(stdout, selectors.EVENT_READ)
            ready.register(stdin, selectors.EVENT_WRITE)
            while True:
                reply = self._next_reply()
                if reply is not None:
                    return reply
                left = deadline - time.monotonic()
                if left <= 0:
                    raise ReplyLost(f"no reply within {self.timeout:g} seconds")
                for key, _events in ready.select(min(left, LONGEST)):
                    if key.fileobj is stdout:
                        data = self._read(stdout)
                        if data == b"":
                            raise self._ended()
                    else:
                        self._write(stdin, ready)

    def _next_reply(self) -> Optional[bytes]:
        while len(self.data) >= self.data_at + HEADER:
            test_reply(self.data, self.data_at)
            end = self.data_at + reply_length(self.data, self.data_at)
            if len(self.data) < end:
                return None
            self._is_amid = True
            frame, self.data_at = self.data[self.data_at : end], end
            self.seen += 1
            self.answered = max(self.answered, self.seen)
            self._is_amid = False
            if self.seen == self.sent:
                return frame
        return None

    def _read(self, stdout: IO[bytes]) -> Optional[bytes]:
        """What came now, which is kept: nothing at the end, and None if nothing came."""
        self._is_amid = True
        data: Optional[bytes] = None
        with contextlib.suppress(BlockingIOError):
            data = os.read(stdout.fileno(), CHUNK)
            self.data, self.data_at = self.data[self.data_at :] + data, 0
        self._is_amid = False
        return data

    def _write(self, stdin: IO[bytes], ready: selectors.BaseSelector) -> None:
        self._is_amid = True
        try:
            self.out_at += os.write(
                stdin.fileno(), memoryview(self.out)[self.out_at : self.out_at + CHUNK]
            )
            is_done = self.out_at == len(self.out)
        except BlockingIOError:
            is_done = False
        except BrokenPipeError:
            is_done = True  # replies that were written before the end are still read
        self._is_amid = False
        if is_done:
            ready.unregister(stdin)

    def _ended(self, how: str = "") -> Exception:
        """What to raise if the program is gone: it was killed, or ended by itself and says
        why."""
        process = cast("subprocess.Popen[bytes]", self.process)
        done = self._hear(self._last_words(self._pipes()[2]))
        faults = [it for it in self._lines() if it.strip() and not NEWS.match(it)]
        fault = re.sub("^tb[sd]: ", "", faults[-1]) if faults else ""
        log.warning("%s ended: %s", self.command[0], how or fault or "without a word")
        # one that writes no more replies, and does not end, is killed
        status = _end_of(process, self.timeout)
        # No reply after these was given out. The next one is at fault, or was not executed as far
        # as anyone can know.
        del self.script[self.answered :]
        self.script_bytes = sum(map(len, self.script))
        if status < 0 or how:
            fault = how or f"killed by {_signal_name(-status)}"
        if not self.restarts:
            # before it is released: an empty ledger never takes its place
            self._end = self._end_by(fault, status)
        self._let_go()
        for line in done:
            self.pass_on(line)
        if self._end is not None:
            return self._end
        if status < 0 or how:
            return ReplyLost(f"the program was {fault}")
        return (
            NoMemory("the program had no memory, and ended")
            if fault == "NoMemory"
            else self._end_by(fault, status)
        )

    def _end_by(self, fault: str, status: int) -> ProgramEnded:
        """The end by a fault. Of a file that is open elsewhere, with its owner."""
        if self.keeps_file and status == Locked.STATUS and fault.startswith("Locked"):
            return Locked(fault, status, owner_of(self.command[2]))
        return ProgramEnded(fault, status)

    def _last_words(self, stderr: IO[bytes]) -> bytes:
        """What the program says at its end. What it started may hold the pipe open beyond that:
        it is read for `timeout` at most."""
        said, deadline = b"", time.monotonic() + self.timeout
        with selectors.DefaultSelector() as ready:
            ready.register(stderr, selectors.EVENT_READ)
            while (left := deadline - time.monotonic()) > 0 and ready.select(min(left, LONGEST)):
                more = os.read(stderr.fileno(), CHUNK)
                if not more:
                    break
                said = (said + more)[-CHUNK:]
        return said

    def _let_go(self) -> None:
        """Ends the script, and waits for the program's end."""
        process = self.process
        if process is None:
            return
        pipes, self.process = self._pipes(), None
        for pipe in pipes:
            with contextlib.suppress(BrokenPipeError):
                pipe.close()
        _end_of(process, self.timeout)

    def close(self) -> None:
        """Ends the script, and waits for the program's end. Each exchange afterwards is
        `Closed`."""
        if self._owner != os.getpid():
            return  # a forked child: its copies are closed, and a thread that is not here may lock
        self._is_closed = True  # who waits for the lock sends nothing more
        with self._lock:
            self._let_go()

    def leave_copy(self) -> None:
        """Closes a forked child's copies of the pipes: the program, which is its parent's, would
        not see their end for as long as the child runs."""
        if self.process is not None:
            for pipe in self._pipes():
                with contextlib.suppress(BrokenPipeError):
                    pipe.close()


def _file_word(path: str) -> str:
    """A file as a word that is taken for no number and no option."""
    return path if os.path.dirname(path) else os.path.join(".", path)


def _end_of(process: subprocess.Popen[bytes], patience: float) -> int:
    """The exit status of a process. If it does not end in this many seconds, it is killed. The
    system is asked itself: a lock that `Popen.wait` holds is never given back if a signal's handler
    raises at the wrong moment."""
    deadline, pause = time.monotonic() + patience, 0.0005
    while process.returncode is None:
        try:
            ended, status = os.waitpid(process.pid, os.WNOHANG)
        except ChildProcessError:  # its status went to someone else
            ended, status = process.pid, 0
        if ended:
            process.returncode = os.waitstatus_to_exitcode(status)
        elif time.monotonic() > deadline:
            process.kill()
            deadline = time.monotonic() + LONGEST
        else:
            time.sleep(pause)
            pause = min(2 * pause, 0.05)
    return process.returncode


def _signal_name(number: int) -> str:
    try:
        return signal.Signals(number).name
    except ValueError:
        return f"signal {number}"
