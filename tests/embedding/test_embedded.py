"""The server built into programs in C, Rust and Python: what they return is what the program's own
replies are. Needs cc and Linux, tb_embed's library (`rt lib` in crates/tb_embed) and `tbs`; c++ and
rustc are skipped if they are missing. KIT is the toolchain's folder (otherwise `rt doc` prints
it)."""

import os
import random
import re
import shutil
import subprocess
import sys

import pytest

from ..conftest import ROOT, found
from . import refused

TOP = str(ROOT)
EMBED = f"{TOP}/clients/embed"
HERE = f"{TOP}/tests/embedding"
LIBRARY = f"{TOP}/crates/tb_embed/out/libtb_embed.a"
PROGRAM = found("tbs")
pytestmark = [
    pytest.mark.slow(reason="builds the embedded library for C, Rust and Python", seconds=60),
    pytest.mark.usefixtures("tbs"),
]
sys.path[:0] = [f"{EMBED}/python", f"{TOP}/clients/python/src"]

# What first.c, first.rs and first.py print, as docs/use/EMBEDDING.md shows it.
FIRST = """\
register: entry 1, session 1
create_accounts: entry 2, 0 failed
create_transfers: the reply is lost
create_transfers, sent again: entry 3, 0 failed
create_transfers: entry 4, 1 failed
  transfer 0 of the request: exceeds_credits
lookup_accounts: entry 5, 2 found
  account 1: debits_posted 100, credits_posted 0
  account 2: debits_posted 0, credits_posted 100
"""


def run(*command, **how):
    return subprocess.run(command, capture_output=True, timeout=300, **how)


def built(name, *command):
    ran = run(*command)
    case(name, ran.returncode == 0 and not ran.stderr, ran.stderr.decode(errors="replace")[-2000:])
    return True


def case(name, holds, said=""):
    assert holds, f"{name}: {said}"


def kit():
    return os.environ.get("KIT") or os.path.dirname(run("rt", "doc").stdout.decode().strip())


def has(tool):
    return shutil.which(tool) is not None


@pytest.fixture(scope="module")
def folder(tmp_path_factory):
    return str(tmp_path_factory.mktemp("embedded"))


@pytest.fixture(scope="module")
def built_programs(folder):
    return programs(folder)


@pytest.fixture(scope="module")
def mixed(folder):
    return made("mixed", 20000, 7, folder)


def made(workload, size, seed, folder):
    """The path of a script, and of the program's replies to it."""
    script, replies = f"{folder}/{workload}", f"{folder}/{workload}.replies"
    with open(script, "wb") as out:
        subprocess.run(
            [sys.executable, f"{TOP}/bench/make_script.py", workload, str(size), str(seed)],
            stdout=out,
            check=True,
        )
    with open(script, "rb") as source, open(replies, "wb") as out:
        subprocess.run([PROGRAM, "run", "64"], stdin=source, stdout=out, check=True)
    return script, replies


def read(path):
    with open(path, "rb") as it:
        return it.read()


CAREFUL = ["-Wall", "-Wextra", "-Wpedantic", "-Wconversion", "-Werror"]


def test_headers(folder):
    for compiler, word in (("cc", "-std=c11"), ("c++", "-std=c++17")):
        if has(compiler):
            source = f"{folder}/header.{'c' if compiler == 'cc' else 'cc'}"
            with open(source, "w") as out:
                out.write(f'#include "{EMBED}/tb_embed.h"\n')
            built(
                f"the header by {compiler}, its structs asserted",
                compiler,
                word,
                *CAREFUL,
                "-c",
                source,
                "-o",
                f"{folder}/header.o",
            )


def programs(folder):
    """The programs that serve a script, each as the words of its command before CLIENTS_MAX and
    PROFILE. The first requests are built next to them, as first_c, first_own, first_asan and
    first_rs."""
    heap = f"{kit()}/c/liblibc_c.a"
    found, shared = {}, f"{folder}/libtb_embed.so"
    flags = ["-O2", "-Wall", "-Wextra", "-Werror", "-std=gnu11"]
    built(
        "the first requests in C",
        "cc",
        "-O2",
        "-std=c11",
        *CAREFUL,
        f"{EMBED}/c/first.c",
        LIBRARY,
        heap,
        "-o",
        f"{folder}/first_c",
    )
    built(
        "the first requests in C over another allocator",
        "cc",
        "-O2",
        "-std=c11",
        "-Wall",
        "-Wextra",
        "-Werror",
        f"{EMBED}/c/first.c",
        f"{HERE}/allocator.c",
        LIBRARY,
        "-o",
        f"{folder}/first_own",
    )
    if built(
        "the script in C",
        "cc",
        *flags,
        f"{EMBED}/c/script.c",
        LIBRARY,
        heap,
        "-o",
        f"{folder}/script_c",
    ):
        found["C"] = [f"{folder}/script_c"]
    sanitizers = "-fsanitize=address,undefined"
    if (
        run(
            "cc",
            sanitizers,
            "-x",
            "c",
            "-",
            "-o",
            f"{folder}/empty",
            input=b"int main(void) { return 0; }",
        ).returncode
        == 0
    ):
        built(
            "the first requests in C under AddressSanitizer",
            "cc",
            *flags,
            "-g",
            sanitizers,
            f"{EMBED}/c/first.c",
            LIBRARY,
            heap,
            "-o",
            f"{folder}/first_asan",
        )
        if built(
            "the script in C under AddressSanitizer",
            "cc",
            *flags,
            "-g",
            sanitizers,
            f"{EMBED}/c/script.c",
            LIBRARY,
            heap,
            "-o",
            f"{folder}/script_asan",
        ):
            found["C under AddressSanitizer"] = [f"{folder}/script_asan"]
    if has("rustc"):
        words = ["rustc", "--edition", "2024", "-O", "-C", "target-cpu=x86-64-v2"]
        inside = [
            "-L",
            f"native={os.path.dirname(LIBRARY)}",
            "-l",
            "static=tb_embed",
            "-L",
            f"native={os.path.dirname(heap)}",
            "-l",
            "static=libc_c",
        ]
        wrapper = built(
            "the wrapper in Rust",
            *words,
            "--crate-type",
            "lib",
            "--crate-name",
            "tb_embed",
            f"{EMBED}/rust/tb_embed.rs",
            *inside,
            "-o",
            f"{folder}/libtb_embed.rlib",
        )
        linked = ["--extern", f"tb_embed={folder}/libtb_embed.rlib"]
        if wrapper:
            for what, holds, why in refused.cases([*words, *linked], folder):
                case(what, holds, "" if holds else why)
        if wrapper and built(
            "the script in Rust",
            *words,
            f"{EMBED}/rust/script.rs",
            *linked,
            "-o",
            f"{folder}/script_rs",
        ):
            found["Rust"] = [f"{folder}/script_rs"]
            built(
                "the first requests in Rust",
                *words,
                f"{EMBED}/rust/first.rs",
                *linked,
                "-o",
                f"{folder}/first_rs",
            )
            for what, name in (
                ("servers in threads, in Rust", "threads"),
                ("what goes wrong, in Rust", "errors"),
                ("a client's session, in Rust", "callers"),
            ):
                built(what, *words, f"{HERE}/{name}.rs", *linked, "-o", f"{folder}/{name}")
    whole = [
        "-Wl,--whole-archive",
        LIBRARY,
        "-Wl,--no-whole-archive",
        heap,
        f"-Wl,--version-script={EMBED}/tb_embed.map",
        "-Wl,-z,defs",
    ]
    if built("the shared object", "cc", "-shared", *whole, "-o", shared):
        shown = run("nm", "-D", "--defined-only", shared).stdout.decode().split()[2::3]
        calls = [f"tb_caller_{it}" for it in ("call", "check", "received")]
        calls += [f"tb_embed_{it}" for it in ("account", "close", "open", "serve", "transfer")]
        case("the shared object shows the calls alone", sorted(shown) == calls, " ".join(shown))
        found["Python"] = [sys.executable, f"{EMBED}/python/script.py", shared]
    careful = [
        "cc",
        *flags,
        "-Wl,--wrap=malloc,--wrap=realloc",
        f"{HERE}/careful.c",
        LIBRARY,
        heap,
        "-o",
        f"{folder}/careful",
    ]
    built("the careful caller in C", *careful)
    return found


def test_first_requests(folder, built_programs):
    """What the examples print, and that the page shows it."""
    runs = {
        language: [f"{folder}/{name}"]
        for language, name in (
            ("C", "first_c"),
            ("C over another allocator", "first_own"),
            ("C under AddressSanitizer", "first_asan"),
            ("Rust", "first_rs"),
        )
    }
    runs = {language: words for language, words in runs.items() if os.path.exists(words[0])}
    if os.path.exists(f"{folder}/libtb_embed.so"):
        runs["Python"] = [sys.executable, f"{EMBED}/python/first.py", f"{folder}/libtb_embed.so"]
    for language, words in runs.items():
        ran = run(*words)
        holds = (ran.returncode, ran.stdout, ran.stderr) == (0, FIRST.encode(), b"")
        case(
            f"the first requests in {language}",
            holds,
            "" if holds else (ran.stdout + ran.stderr).decode(errors="replace"),
        )
    case("the page shows what the first requests print", f"```text\n{FIRST}```" in page())


def page():
    return read(f"{TOP}/docs/use/EMBEDDING.md").decode()


def test_called():
    """What the library calls, which a program without the kit's archive has to define."""
    calls = set(re.findall(r" U (\w+)", run("nm", "-u", LIBRARY).stdout.decode()))
    named = re.search(r"It calls ([^.]*)\.", page())
    told = set(re.findall(r"\w+", named[1])) - {"and"} if named else set()
    case("the page names what the library calls", calls == told, " ".join(sorted(calls ^ told)))


def served(found, script, replies, what, *words):
    wanted = read(replies)
    for language, command in found.items():
        with open(script, "rb") as source:
            ran = subprocess.run([*command, *words], stdin=source, capture_output=True, timeout=300)
        case(
            f"{what} in {language}",
            (ran.returncode, ran.stdout, ran.stderr) == (0, wanted, b""),
            ran.stderr.decode(errors="replace")[-2000:],
        )


def test_not_written(built_programs):
    """Replies that the disk does not take: exit status 1, and a line that says so."""
    for language, command in built_programs.items():
        with open(f"{TOP}/examples/first.script", "rb") as source, open("/dev/full", "wb") as sink:
            ran = subprocess.run(
                [*command, "2"], stdin=source, stdout=sink, stderr=subprocess.PIPE, timeout=300
            )
        said = ran.stderr.decode(errors="replace")
        holds = (ran.returncode, said.count("\n")) == (1, 1)
        case(f"replies that cannot be written in {language}", holds, said[-2000:])


FORGETFUL = """#include "{header}"
#include <stdlib.h>
int main(void) {{
    tb_server *server = calloc(1, sizeof *server);
    if (!server || tb_embed_open(server, 1, 2) != TB_DONE) return 2;
    {close}
    free(server);
    return 0;
}}
"""


def test_leaks(folder, built_programs):
    """AddressSanitizer reports a server that was not closed, and nothing if it was closed."""
    for what, close, status in (
        ("a server that is not closed leaks", "", 1),
        ("a closed one does not", "tb_embed_close(server);", 0),
    ):
        source = FORGETFUL.format(header=f"{EMBED}/tb_embed.h", close=close).encode()
        run(
            "cc",
            "-fsanitize=address",
            "-x",
            "c",
            "-",
            "-x",
            "none",
            LIBRARY,
            f"{kit()}/c/liblibc_c.a",
            "-o",
            f"{folder}/forgetful",
            input=source,
        )
        ran = run(f"{folder}/forgetful")
        case(
            what,
            (ran.returncode != 0, b"leaked in" in ran.stderr) == (bool(status), bool(status)),
            ran.stderr.decode(errors="replace")[-300:] if not status else "",
        )


def careful(folder, mode, script, replies, what):
    ran = run(f"{folder}/careful", mode, script, replies)
    case(what, ran.returncode == 0, ran.stdout.decode().strip())


def test_threads(folder, built_programs, mixed):
    """Servers of their own in four threads, and one that four threads share under a mutex, each
    request sent twice."""
    if os.path.exists(f"{folder}/threads"):
        ran = run(f"{folder}/threads", *mixed)
        case(
            "servers in threads",
            (ran.returncode, ran.stdout) == (0, b"credits_posted of account 2: 800\n"),
            (ran.stdout + ran.stderr).decode(errors="replace")[-500:].strip(),
        )


def test_callers(folder, built_programs):
    """The session of a client, over a server in the same program."""
    if os.path.exists(f"{folder}/callers"):
        ran = run(f"{folder}/callers")
        holds = (ran.returncode, ran.stdout, ran.stderr) == (0, b"", b"")
        case("a client's session, in Rust", holds, ran.stderr.decode(errors="replace")[-1000:])


def test_errors(folder, built_programs):
    """What the wrapper in Rust returns if a request is wrong, refused, or not served."""
    if os.path.exists(f"{folder}/errors"):
        ran = run(f"{folder}/errors")
        case(
            "errors by name, in Rust",
            (ran.returncode, ran.stdout, ran.stderr) == (0, b"ok\n", b""),
            ran.stderr.decode(errors="replace")[-1000:],
        )


def test_client(built_programs, folder):
    """The client of clients/python, over the embedded server: a lost request and a lost reply,
    and the money moved once."""
    from tb_client import Account, Direct, Faulty, InvalidValue, Session, Transfer, require_ok
    from tb_embed import Closed, Refused, Server

    with Server(f"{folder}/libtb_embed.so", clients_max=2) as server:
        session = Session.register(
            Faulty(Direct(server.serve), requests=[3], replies=[4]), 7, now=lambda: 10
        )
        require_ok(session.create_accounts([Account(id, ledger=700, code=10) for id in (1, 2)]))
        require_ok(session.create_transfers([Transfer(11, 1, 2, 100, ledger=700, code=10)]))
        looked_up = session.lookup_accounts([1, 2])
        shown = [server.account(id) for id in (1, 2)]
        case(
            "Python's client over the embedded server",
            looked_up == shown and shown[0].debits_posted == 100 and server.account(3) is None,
        )
        moved = server.transfer(11)
        case(
            "the transfer as it was recorded",
            (moved.amount, moved.timestamp, server.transfer(12)) == (100, 13, None),
        )
        try:
            server.serve(10, b"no frame")
            case("bytes that are no frame", False)
        except Refused as refused:
            case("bytes that are no frame", str(refused) == "Malformed")
    try:
        Server(f"{folder}/libtb_embed.so", clients_max=65)
        case("wrong arguments", False)
    except InvalidValue as refused:
        case("wrong arguments", str(refused) == "clients_max must be 1 to 64, not 65")
    try:
        server.serve(10, b"")
        case("a closed server", False)
    except Closed as refused:
        case("a closed server", str(refused) == "Closed")


def test_damaged_frames(built_programs, folder):
    """The second frame of the first script with bytes changed at random: malformed if `tbs` finds a
    fault in it, otherwise the reply that `tbs` gives. A wrong length is always malformed: the bytes
    are one frame, not a stream."""
    from tb_embed import Refused, Server

    script, chance, same, faults = read(f"{TOP}/examples/first.script"), random.Random(5), True, 0
    for _ in range(300):
        frame = bytearray(script[64:368])
        for _ in range(chance.choice((1, 1, 2))):
            frame[chance.randrange(56 if chance.random() < 0.7 else len(frame))] = chance.choice(
                (0, 1, 2, 129, 130, 131, 255)
            )
        wrong_length = frame[32:36] != script[96:100]
        ran = subprocess.run(
            [PROGRAM, "run", "2"], input=script[:64] + bytes(frame), capture_output=True
        )
        malformed = wrong_length or ran.returncode == 2
        with Server(f"{folder}/libtb_embed.so", clients_max=2) as server:
            first = server.serve(10, script[8:56])
            try:
                got = first + server.serve(10, bytes(frame))
                same = same and not malformed and got == ran.stdout
            except Refused as refused:
                same, faults = same and malformed and str(refused) == "Malformed", faults + 1
    case("300 damaged frames", same and 0 < faults < 300, f"{faults} malformed")


FIRST_SCRIPT = f"{TOP}/examples/first.script", f"{TOP}/examples/first.replies"


def test_scripts(built_programs, mixed):
    served(built_programs, *FIRST_SCRIPT, "the first script", "2")
    served(built_programs, *mixed, "a random script of everything, right and wrong,", "64")


def test_a_careful_caller(folder, built_programs, mixed):
    careful(folder, "small", *mixed, "a room too small by one byte")
    careful(folder, "memory", *FIRST_SCRIPT, "each allocation failing, in the first script")
    short = made("mixed", 120, 3, folder)
    careful(folder, "memory", *short, "each allocation failing, in a random script")
