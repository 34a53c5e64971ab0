"""What compare.py and grow.py share: servers that are built, scripts that are made once, and runs
whose parts are measured."""
import array
import contextlib
import dataclasses
import fcntl
import filecmp
import os
import pathlib
import struct
import subprocess
import sys
import tempfile
import termios
import threading
import time

HERE = pathlib.Path(__file__).resolve().parent
sys.path.append(str(HERE.parent / "tools"))

import tried  # noqa: E402

TBS = os.environ.get("PROGRAM", str(HERE.parent / "crates" / "tbs" / "out" / "tbs"))
# Servers that serve the same scripts, and what each is over.
PEERS = {"hash": "hash maps", "plain": "BTreeMap", "sqlite": "SQLite"}
FOR_ALL_PROCESSORS = "x86-64-v2"
PIPE_BYTES = 1 << 20
POST_OR_VOID = 4 | 8
PAGE_BYTES = os.sysconf("SC_PAGE_SIZE")
LONGEST = 3600 * tried.LONGER  # seconds of a load, of which each takes minutes


def is_newer(program, sources):
    return program.exists() and all(it.stat().st_mtime < program.stat().st_mtime for it in sources)


def build(name, folder):
    """Compiles a program of bench/ that is not there yet, or is older than its sources."""
    program = pathlib.Path(folder) / name
    if is_newer(program, [*HERE.glob("*.rs"), *HERE.glob("*.c")]):
        return str(program)
    if name == "sqlite":
        words = ["gcc", "-O2", f"-march={FOR_ALL_PROCESSORS}", HERE / "sqlite.c", "-lsqlite3"]
    else:
        words = ["rustc", "-O", "-C", f"target-cpu={FOR_ALL_PROCESSORS}", HERE / f"{name}.rs"]
    subprocess.run([*map(str, words), "-o", str(program)], check=True)
    return str(program)


def servers(folder, *peers):
    """The words that start each server, by its name: tbs, and these peers, which are built."""
    tried.built(TBS)
    return {"tbs": [TBS, "run", "64"], **{name: [build(name, folder), "64"] for name in peers}}


@contextlib.contextmanager
def work_folder(named):
    """A folder for programs and scripts: the one that is named, which keeps them, or a temporary
    one."""
    if named:
        os.makedirs(named, exist_ok=True)
        yield named
    else:
        with tempfile.TemporaryDirectory() as made:
            yield made


def make_script(folder, workload, events, accounts, seed=1):
    """The path of a script, which is made if it is not there yet, or is older than its maker."""
    path = pathlib.Path(folder) / f"{workload}-{events}-{accounts}-{seed}"
    if not is_newer(path, [HERE / "make_script.py"]):
        part = path.with_suffix(".part")
        words = [HERE / "make_script.py", workload, events, seed, "--accounts", accounts]
        with open(part, "wb") as out:
            subprocess.run([sys.executable, *map(str, words)], stdout=out, check=True)
        part.rename(path)
    return path


def requests(script):
    """The requests of a script: where each begins, its operation, and the flags of its first
    event."""
    with open(script, "rb") as file:
        at, head = 0, file.read(56)
        while head:
            operation, length = struct.unpack_from("<B3xI", head, 36)
            first = file.read(min(length, 128))
            flags = struct.unpack_from("<H", first, 118)[0] if len(first) == 128 else 0
            yield at, operation, flags
            at += 56 + length
            file.seek(at)
            head = file.read(56)


def is_transfers(operation, _):
    return operation == 130


def is_lookup(operation, _):
    return operation in (131, 132)


def resolves(operation, flags):
    return operation == 130 and flags & POST_OR_VOID


def place(script, wanted=is_transfers):
    """The place of a script's first request of a kind: what is before it is preparation."""
    return next(at for at, *what in requests(script) if wanted(*what))


@dataclasses.dataclass(frozen=True)
class Cost:
    """What a server has used: CPU time in nanoseconds, and memory that is resident in bytes."""

    cpu: int
    resident: int

    def since(self, earlier):
        return Cost(self.cpu - earlier.cpu, self.resident - earlier.resident)


def cpu_time(pid):
    """The nanoseconds that a process has run."""
    spent = 0
    for task in os.listdir(f"/proc/{pid}/task"):
        with open(f"/proc/{pid}/task/{task}/schedstat", encoding="ascii") as file:
            spent += int(file.read().split()[0])
    return spent


def sleeps(pid):
    with open(f"/proc/{pid}/stat", encoding="ascii") as file:
        state = file.read().rpartition(")")[2].split()[0]
    if state in "ZX":
        raise BrokenPipeError
    return state == "S"


def cost_of(pid):
    with open(f"/proc/{pid}/statm", encoding="ascii") as file:
        return Cost(cpu_time(pid), int(file.read().split()[1]) * PAGE_BYTES)


def await_idle(pid, pipe):
    """Waits until a process has read all that is in its input, and sleeps in its next read."""
    unread, before = array.array("i", [0]), -1
    while True:
        fcntl.ioctl(pipe, termios.FIONREAD, unread)
        is_asleep = sleeps(pid)
        spent = cpu_time(pid) if unread[0] == 0 and is_asleep else -1
        if spent >= 0 and spent == before:
            return
        before = spent
        time.sleep(0.002)


@contextlib.contextmanager
def limited(child, words):
    """Kills a server that does not read, rest or end: what waits for it goes on, and reports
    that."""
    late = threading.Timer(LONGEST, child.kill)
    late.daemon = True
    late.start()
    try:
        yield
    except SystemExit:
        if late.finished.is_set():
            raise subprocess.TimeoutExpired(words, LONGEST) from None
        raise
    finally:
        late.cancel()


def serve(words, script, cuts, replies, at_cut=None):
    """Runs a server on a script; what it has used at each of these places in the script, and at
    its end. There `at_cut` is called with the number of its process, while it waits."""
    size = os.path.getsize(script)
    with open(script, "rb") as source, open(replies, "wb") as sink:
        child = subprocess.Popen(words, stdin=subprocess.PIPE, stdout=sink)
        with limited(child, words):
            costs = served(child, source, [*cuts, size], at_cut)
            if child.wait() != 0 or len(costs) <= len(cuts):
                sys.exit(f"{words[0]} ended with {child.returncode} on {script}")
    return costs


def served(child, source, ends, at_cut):
    """What a server has used at each of these places in a script; fewer if it ended before."""
    pipe, at, costs = child.stdin.fileno(), 0, []
    fcntl.fcntl(pipe, fcntl.F_SETPIPE_SZ, PIPE_BYTES)
    with child.stdin, contextlib.suppress(BrokenPipeError, FileNotFoundError):
        for end in ends:
            while at < end:
                at += os.sendfile(pipe, source.fileno(), at, min(end - at, PIPE_BYTES))
            await_idle(child.pid, pipe)
            costs.append(cost_of(child.pid))
            if at_cut:
                at_cut(child.pid)
    return costs


def whole(words, script, replies):
    """The CPU seconds of a whole run, from its start to its end."""
    with open(script, "rb") as source, open(replies, "wb") as sink:
        child = subprocess.Popen(words, stdin=source, stdout=sink, stderr=subprocess.PIPE)
        with limited(child, words):
            said = child.stderr.read().decode(errors="replace").strip()
            _, status, usage = os.wait4(child.pid, 0)
            child.returncode = os.waitstatus_to_exitcode(status)
            if child.returncode != 0:
                sys.exit(f"{words[0]} ended with {child.returncode} on {script}: {said}")
    return usage.ru_utime + usage.ru_stime


def best(runs):
    """The least CPU time and memory of several runs."""
    return Cost(min(it.cpu for it in runs), min(it.resident for it in runs))


def same(left, right):
    """Whether two files have the same bytes."""
    return filecmp.cmp(left, right, shallow=False)
