"""The processes of a cluster on one machine: an engine's nodes, links, and replicas."""

import collections
import contextlib
import functools
import glob
import json
import os
import re
import shutil
import signal
import socket
import struct
import subprocess
import sys
import threading
import time

from ..conftest import found

HERE = os.path.dirname(os.path.abspath(__file__))
TOP = os.path.dirname(os.path.dirname(HERE))
OUT = f"{TOP}/server/out"
PYTHON = "/usr/bin/python3"  # Debian's, which sees its packages
REPLICA = os.environ.get("TB_REPLICA") or f"{OUT}/tb-replica"
PACKAGE = "telovamish.org/server"
LIMIT = 600  # seconds in which something happens that is waited for, on a busy machine too
QUOTA = 8 << 30  # bytes that etcd takes at most, as docs/use/CLUSTER.md sets it
# The server with its replies in a file: those of its last start. A status above 128 is that of a
# signal. If rates count and no reply is compared, the server runs as it is.
KEEPING = 'set -o pipefail; program=$1 out=$2; shift 2; "$program" "$@" | tee "$out"'


def slowed(words, seconds):
    """A command each of whose syncs takes some seconds more: strace delays only syncs."""
    if not seconds:
        return words
    held = f"inject=fsync,fdatasync:delay_exit={round(1_000_000 * seconds)}"
    options = ["-D", "-f", "-qq", "--seccomp-bpf", "-o", "/dev/null", "-e", "trace=fsync,fdatasync"]
    return ["strace", *options, "-e", held, *words]


HELD = []  # sockets at ports that the system gives to nobody else until the tests end


def free_ports(count):
    """Ports at which only the tests' programs listen: each of these sets SO_REUSEADDR."""
    held = [socket.socket() for _ in range(count)]
    for it in held:
        it.setsockopt(socket.SOL_SOCKET, socket.SO_REUSEADDR, 1)
        it.bind(("127.0.0.1", 0))
    HELD.extend(held)
    return [it.getsockname()[1] for it in held]


def built(name, package, *options):
    """A program for tests, of a package of server/."""
    words = [f"{TOP}/server/build", "build", *options, "-o", f"{OUT}/{name}"]
    environment = {**os.environ, "PACKAGES": f"{PACKAGE}/{package}"}
    subprocess.run(words, check=True, timeout=600, env=environment)
    return f"{OUT}/{name}"


@functools.lru_cache
def wrong_program():
    return built("tb-wrong", "cmd/tb-replica", "-tags", "planted")


def wrong(kind):
    """The words of a replica that does one thing wrong, or by the wrong clock, as
    server/internal/replicated/wrong_planted.go has it."""
    return ["env", f"TB_WRONG={kind}", wrong_program()]


@functools.lru_cache
def appending():
    return built("appending", "internal/agreed/appending")


def appended(cluster, log, entries, seconds=0):
    """Appends entries of these pairs to a log, the last one again and again for some seconds, and
    returns how many milliseconds each took."""
    words = [appending(), "--user", cluster.log_user or "", "--seconds", str(seconds), log]
    pipe = subprocess.PIPE
    times = []
    with subprocess.Popen(words, stdin=pipe, stdout=pipe) as process:
        reading = threading.Thread(target=lambda: times.extend(map(float, process.stdout)))
        reading.start()
        for pairs in entries:
            process.stdin.write(struct.pack("<I", len(pairs)) + pairs)
        process.stdin.close()
        reading.join()
    assert process.returncode == 0, process.returncode
    return times


class Process:
    """A process that is killed, stopped and started again."""

    def __init__(self, name, words, folder):
        self.name, self.words, self.log = name, words, f"{folder}/{name}.log"
        self.process, self.since = None, 0

    def start(self):
        with open(self.log, "ab") as log:
            self.since = log.tell()
            self.process = subprocess.Popen(
                self.words, stdin=subprocess.DEVNULL, stdout=log, stderr=log
            )

    def runs(self):
        return self.process is not None and self.process.poll() is None

    def send(self, number):
        with contextlib.suppress(ProcessLookupError):
            self.process.send_signal(number)

    def ended(self):
        """Waits until it ends. Returns its status."""
        return self.process.wait(LIMIT)

    def kill(self):
        if self.process is not None:
            self.send(signal.SIGKILL)
            self.process.wait()

    def end(self, seconds=30):
        """Ends it as its user would. Returns its status."""
        self.send(signal.SIGTERM)
        try:
            return self.process.wait(seconds)
        except subprocess.TimeoutExpired:
            self.kill()
            return None

    def said(self, since=0):
        with open(self.log, encoding="utf-8", errors="replace") as file:
            file.seek(since)
            return file.read()

    def listens(self):
        """Whether it serves since its last start."""
        return "listens on" in self.said(self.since)

    def children(self):
        """The processes that it started: the server, and its shell."""
        found, at = [], [self.process.pid]
        while at:
            with contextlib.suppress(OSError):
                path = f"/proc/{at[0]}/task/{at[0]}/children"
                with open(path, encoding="utf-8") as file:
                    more = [int(it) for it in file.read().split()]
                found += more
                at += more
            del at[0]
        return found

    def memory(self):
        """How many MB it has had in memory at most, without the processes that it started."""
        with open(f"/proc/{self.process.pid}/status", encoding="utf-8") as file:
            (most,) = (it.split()[1] for it in file if it.startswith("VmHWM:"))
        return int(most) / 1024

    def kill_server(self):
        for it in self.children():
            with contextlib.suppress(ProcessLookupError):
                os.kill(it, signal.SIGKILL)

    def signal_server(self, number):
        for it in self.children():
            with contextlib.suppress(ProcessLookupError):
                os.kill(it, number)


class Links:
    """The process that passes on what goes between machines."""

    def __init__(self, pairs):
        words = [sys.executable, "-B", f"{HERE}/links.py", *(f"{a}:{b}" for a, b in pairs)]
        pipe = subprocess.PIPE
        self.process = subprocess.Popen(words, stdin=pipe, stdout=pipe, text=True)
        if self.process.stdout.readline() != "ready\n":
            raise RuntimeError("the links do not start")

    def do(self, word, numbers):
        for it in numbers:
            self.process.stdin.write(f"{word} {it}\n")
            self.process.stdin.flush()
            self.process.stdout.readline()

    def end(self):
        self.process.kill()
        self.process.communicate()


class Machines:
    """Replicas on the loopback interface, over the log of a subclass."""

    nodes = ()  # the engine's processes
    log_user = None  # whom the engine asks for

    def __init__(
        self,
        folder,
        program=found,
        clients_max=64,
        replica=None,
        count=3,
        keeps_replies=True,
        sync=0.0,
    ):
        """`sync` is by how many seconds each sync of the engine takes longer."""
        self.folder, self.count, self.clients_max = folder, count, clients_max
        self.program, self.sync = program, sync
        self.keeps_replies = keeps_replies
        self.words = replica or [REPLICA]
        self.tcp = free_ports(count)
        self.replicas = [self.replica(it) for it in range(count)]

    def replica(self, at):
        return Process(f"replica{at}", self.replica_words(at, self.words), self.folder)

    def copy(self, at):
        return f"{self.folder}/copy{at}"

    def out(self, at):
        return f"{self.folder}/replies{at}"

    def command(self, at):
        """The server of a replica, and its words."""
        program = [str(self.program("tbd"))]
        if self.keeps_replies:
            program = ["bash", "-c", KEEPING, "bash", *program, self.out(at)]
        return [*program, "follow", str(self.clients_max)]

    def replica_words(self, at, words, more=()):
        given = ["--log", self.log(at), "--copy", self.copy(at), "--name", f"r{at}", *more]
        given += ["--tcp", f"127.0.0.1:{self.tcp[at]}", "--connections", "200"]
        return [*words, *given, "--", *self.command(at)]

    def start(self):
        self.start_engine()
        for it in self.replicas:
            it.start()
        for at in range(self.count):
            self.until_listens(at)

    def until_listens(self, at):
        it = self.replicas[at]
        until(lambda: it.listens() or not it.runs(), f"{it.name} listens")
        if not it.listens():
            raise TimeoutError(f"{it.name} ended: {it.said(it.since)}")

    def part(self, *words):
        """Runs a part of tb-replica, as status. Returns its status, and what it printed."""
        ran = subprocess.run(
            [REPLICA, *words],
            capture_output=True,
            text=True,
            timeout=LIMIT,
        )
        return ran.returncode, ran.stdout + ran.stderr

    def until_reported(self, *words):
        """Waits until each replica that runs has reported more of the log, while money moves. The
        words are those of `tb-replica status` besides the log."""
        names = [it.words[it.words.index("--name") + 1] for it in self.replicas if it.runs()]

        def positions():
            _, said = self.part("status", *words, "--log", self.log())
            found = dict(re.findall(r"replica (\S+) at \S+ position ([0-9]+)", said))
            return [int(found.get(it, 0)) for it in names]

        before = positions()
        until(lambda: all(now > it for now, it in zip(positions(), before)), "all have reported")

    def end(self):
        for it in [*self.replicas, *self.nodes]:
            if it.runs():
                it.send(signal.SIGCONT)
                it.signal_server(signal.SIGCONT)
        for it in self.replicas:
            if it.runs():
                it.end()
        for it in self.nodes:
            it.kill()
        self.end_engine()


class Cluster(Machines):
    """Three nodes of etcd and three replicas, with a link between each replica and each node, and
    one to each node for the others; or without links, if nothing is cut and rates count."""

    def __init__(
        self,
        folder,
        quota=QUOTA,
        count=3,
        is_linked=True,
        **options,
    ):
        self.quota = quota
        take = iter(free_ports(3 * count + count * count)).__next__
        self.serves, self.peers = [[take() for _ in range(count)] for _ in range(2)]
        self.peer_links = [take() for _ in range(count)]
        self.ways = [[take() for _ in range(count)] for _ in range(count)]
        if not is_linked:
            self.peer_links, self.ways = self.peers, [self.serves] * count
        super().__init__(folder, count=count, **options)
        pairs = list(zip(self.peer_links, self.peers))
        pairs += [(it, self.serves[at]) for way in self.ways for at, it in enumerate(way)]
        self.links = Links(pairs if is_linked else [])
        self.nodes = [Process(f"node{it}", self._node(it), folder) for it in range(count)]

    def _node(self, at):
        peers = ",".join(
            f"n{it}=http://127.0.0.1:{port}" for it, port in enumerate(self.peer_links)
        )
        words = ["etcd", "--name", f"n{at}", "--data-dir", f"{self.folder}/etcd{at}"]
        words += ["--logger", "zap", "--log-level", "error", "--initial-cluster", peers]
        words += ["--listen-peer-urls", f"http://127.0.0.1:{self.peers[at]}"]
        words += ["--initial-advertise-peer-urls", f"http://127.0.0.1:{self.peer_links[at]}"]
        serves = f"http://127.0.0.1:{self.serves[at]}"
        words += ["--listen-client-urls", serves, "--advertise-client-urls", serves]
        words += ["--quota-backend-bytes", str(self.quota)]
        return slowed(words, self.sync)

    def lose(self, at):
        """Loses a machine: its node, its replica, and their disks."""
        for it in (self.nodes[at], self.replicas[at]):
            it.kill()
        for folder in (f"{self.folder}/etcd{at}", self.copy(at)):
            shutil.rmtree(folder)

    def replace_node(self, at):
        """Removes a member of etcd and adds another one in its place, as `etcdctl member` does."""
        import etcd3.etcdrpc as rpc

        with self.channel(self.serves[(at + 1) % self.count]) as channel:
            stub = rpc.ClusterStub(channel)
            members = stub.MemberList(rpc.MemberListRequest(), timeout=60).members
            (gone,) = (it.ID for it in members if it.name == f"n{at}")
            stub.MemberRemove(rpc.MemberRemoveRequest(ID=gone), timeout=60)
            url = f"http://127.0.0.1:{self.peer_links[at]}"
            stub.MemberAdd(rpc.MemberAddRequest(peerURLs=[url]), timeout=60)
        node = self.nodes[at]
        node.words = [*node.words, "--initial-cluster-state", "existing"]
        node.start()
        until(lambda: self.is_up(at), "the new member is up")

    def swap_data(self, keep, take=None):
        """Ends the nodes, keeps a copy of their data under a name, and starts them over other data
        if that is given."""
        for it in self.nodes:
            it.kill()
        for at in range(self.count):
            data = f"{self.folder}/etcd{at}"
            shutil.copytree(data, f"{data}.{keep}")
            if take:
                shutil.rmtree(data)
                shutil.copytree(f"{data}.{take}", data)
        self.start_engine()

    def log(self, at=None):
        """The log's URL: over a replica's links, or without links."""
        ports = self.serves if at is None else self.ways[at][at:] + self.ways[at][:at]
        return f"etcd://{','.join(f'127.0.0.1:{it}' for it in ports)}/bank"

    def links_of(self, at):
        """The numbers of a replica's links."""
        return range(self.count * (1 + at), self.count * (2 + at))

    def start_engine(self):
        for it in self.nodes:
            it.start()
        until(lambda: self.leader() is not None, "etcd has a leader")

    def end_engine(self):
        self.links.end()

    def leader(self):
        """Which node is the leader. None if there is no leader."""
        import etcd3.etcdrpc as rpc
        import grpc

        for at, port in enumerate(self.serves):
            with self.channel(port) as channel:
                with contextlib.suppress(grpc.RpcError):
                    said = rpc.MaintenanceStub(channel).Status(rpc.StatusRequest(), timeout=1)
                    if said.leader and said.leader == said.header.member_id:
                        return at
        return None

    def is_up(self, at):
        """Whether a node replies, and has a leader."""
        import etcd3.etcdrpc as rpc
        import grpc

        with self.channel(self.serves[at]) as channel:
            with contextlib.suppress(grpc.RpcError):
                asked = rpc.StatusRequest()
                more = self.metadata(channel)
                return bool(rpc.MaintenanceStub(channel).Status(asked, 1, metadata=more).leader)
        return False

    def channel(self, port):
        import grpc

        options = [("grpc.max_receive_message_length", -1)]
        return grpc.insecure_channel(f"127.0.0.1:{port}", options)

    def metadata(self, _):
        return []

    def ranged(self, port, key, end=b"", is_own=False):
        """The keys of a range, as the cluster or one node has them."""
        import etcd3.etcdrpc as rpc

        with self.channel(port) as channel:
            request = rpc.RangeRequest(key=key, range_end=end, serializable=is_own)
            more = self.metadata(channel)
            return rpc.KVStub(channel).Range(request, 60, more, wait_for_ready=True).kvs

    def entries(self):
        """The entries of the log by their places, as most nodes have them, read without the
        replicas' code."""
        entries = collections.defaultdict(collections.Counter)
        for port in self.serves:
            for it in self.ranged(port, b"bank/log/", b"bank/log0", is_own=True):
                entries[it.create_revision][it.value] += 1
        return {it: entries[it].most_common(1)[0][0] for it in sorted(entries)}

    def script(self):
        return list(self.entries().values())

    def first_place(self):
        """The place of the first entry that the log has."""
        return next(iter(self.entries()))

    def trimmed(self):
        """The position and the place up to which the log was trimmed."""
        (kept,) = self.ranged(self.serves[0], b"bank/trimmed")
        said = json.loads(kept.value)
        return said["position"], said["place"]


class Postgres(Machines):
    """A primary, one standby that each commit waits for, and replicas over them."""

    log_user = "postgres"

    def __init__(self, folder, **options):
        self.ports = free_ports(2)
        super().__init__(folder, **options)
        os.chmod(folder, 0o711)
        self.data = f"{folder}/postgresql"
        os.mkdir(self.data)
        if os.getuid() == 0:
            shutil.chown(self.data, "postgres", "postgres")
        self.nodes = [
            Process(name, self._server(f"{self.data}/{name}"), folder)
            for name in ("primary", "standby")
        ]

    def _server(self, data):
        return slowed(self.postgres("postgres", "-D", data), self.sync)

    def postgres(self, program, *words):
        """A program of PostgreSQL's, which root may not run."""
        user = ["setpriv", "--reuid=postgres", "--regid=postgres", "--clear-groups"]
        return [*(user if os.getuid() == 0 else []), f"{postgres_folder()}/{program}", *words]

    def run(self, *words):
        subprocess.run(self.postgres(*words), cwd="/", check=True, capture_output=True, timeout=120)

    def log(self, _=None):
        """The standby's address is for reading what the primary has no more."""
        places = ",".join(f"127.0.0.1:{it}" for it in self.ports)
        return f"postgresql://{places}/postgres/bank"

    def replica_words(self, at, words, more=()):
        return super().replica_words(at, words, ["--log-user", self.log_user, *more])

    def start_engine(self):
        primary, standby = f"{self.data}/primary", f"{self.data}/standby"
        self.run("initdb", "-D", primary, "-A", "trust", "-U", "postgres", "-N")
        self.set(primary, self.ports[0], "synchronous_standby_names = 'FIRST 1 (standby)'")
        self.nodes[0].start()
        until(lambda: is_open(self.ports[0]), "the primary listens")
        place = f"host=127.0.0.1 port={self.ports[0]} user=postgres application_name=standby"
        for _ in range(20):
            with contextlib.suppress(subprocess.CalledProcessError):
                self.run("pg_basebackup", "-D", standby, "-R", "-d", place, "-c", "fast", "-N")
                break
            time.sleep(1)
        self.set(standby, self.ports[1], "")
        self.nodes[1].start()
        until(lambda: is_open(self.ports[1]), "the standby listens")

    @staticmethod
    def set(folder, port, more):
        with open(f"{folder}/postgresql.conf", "a", encoding="utf-8") as file:
            file.write(f"port = {port}\nlisten_addresses = '127.0.0.1'\n{more}\n")
            file.write("unix_socket_directories = ''\n")

    def end_engine(self):
        """Its nodes are killed."""

    def asked(self, query):
        import psycopg

        place = f"host=127.0.0.1 port={self.ports[0]} user=postgres dbname=postgres"
        with psycopg.connect(place, autocommit=True) as it:
            cursor = it.execute(query)
            return cursor.fetchall() if cursor.description else []

    def script(self):
        return [bytes(it[0]) for it in self.asked("SELECT entry FROM bank_log ORDER BY position")]

    def is_streaming(self):
        return bool(self.asked("SELECT pid FROM pg_stat_replication WHERE state = 'streaming'"))

    def cancel_waits(self):
        """Cancels each wait for the standby. What was waited for is committed, and answered."""
        self.asked(
            "SELECT pg_cancel_backend(pid) FROM pg_stat_activity WHERE wait_event = 'SyncRep'"
        )


def postgres_folder():
    """The folder of the newest PostgreSQL's programs. None if there is no PostgreSQL."""
    found = sorted(glob.glob("/usr/lib/postgresql/*/bin"), key=lambda it: float(it.split("/")[4]))
    return found[-1] if found else None


def is_open(port):
    with contextlib.suppress(OSError), socket.create_connection(("127.0.0.1", port), 1):
        return True
    return False


def until(holds, said):
    """Waits until something holds. Raises `TimeoutError` if that is not in time."""
    end = time.monotonic() + LIMIT
    while not holds():
        if time.monotonic() > end:
            raise TimeoutError(f"{said}: not within {LIMIT} s")
        time.sleep(0.1)


def missing(engine="etcd"):
    """What an engine's parts need and is not installed, by name."""
    programs = {"etcd": ["etcd", "bash", "openssl"], "postgresql": ["bash"]}[engine]
    names = [it for it in programs if not shutil.which(it)]
    if engine == "postgresql" and postgres_folder() is None:
        names.append("postgresql")
    package = {"etcd": "etcd3", "postgresql": "psycopg"}[engine]
    ran = subprocess.run([PYTHON, "-c", f"import {package}"], capture_output=True, check=False)
    return names + ([f"python3-{package}"] if ran.returncode else [])
