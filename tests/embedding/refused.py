"""Programs over the wrapper in Rust that would break what its calls trust, and so must not compile:
each with the error that rustc has for it. Those that are right do compile.

tests/embedding/test_embedded.py runs them, because the wrapper is linked with the library.
"""
import os
import subprocess
from typing import Iterator, Tuple

OPEN = "let mut server = Server::open(1, 2).unwrap();"
ROOM = "let mut room = [0; 48];"

# What the program tries, its error or None, and its main.
PROGRAMS = (
    ("moves a server to a thread", None, OPEN + "std::thread::spawn(move || server.account(1));"),
    (
        "shares one under a mutex",
        None,
        "fn shared<T: Send + Sync>() {} shared::<std::sync::Mutex<Server>>();",
    ),
    (
        "keeps a reply longer than the server and the request",
        None,
        ROOM + f"let reply = {{ {OPEN} server.serve(1, &vec![0], &mut room) }}; drop(reply);",
    ),
    ("shares one without a mutex", "E0277", "fn shared<T: Sync>() {} shared::<Server>();"),
    (
        "calls one in two threads",
        "E0499",
        OPEN
        + "std::thread::scope(|it| { it.spawn(|| server.account(1));"
        + "it.spawn(|| server.account(2)); });",
    ),
    ("calls one that was closed", "E0382", OPEN + "drop(server); server.account(1);"),
    ("copies one", "E0382", OPEN + "let copy = server; drop(server); drop(copy);"),
    ("clones one", "E0599", OPEN + "drop(server.clone());"),
    ("takes its handle", "E0616", OPEN + "drop(server.handle);"),
    ("makes a call itself", "E0603", "let _ = tb_embed::tb_embed_open;"),
    ("makes one without opening", "E0451", "drop(Server { handle: todo!() });"),
    (
        "reuses the room of a reply",
        "E0499",
        OPEN
        + ROOM
        + "let first = server.serve(1, &[], &mut room); let next = server.serve(1, &[], &mut room);"
        + "drop((first, next));",
    ),
    (
        "keeps a reply longer than its room",
        "E0597",
        OPEN + f"let reply = {{ {ROOM} server.serve(1, &[], &mut room) }}; drop(reply);",
    ),
    (
        "has the request in the room",
        "E0502",
        OPEN + ROOM + "drop(server.serve(1, &room, &mut room));",
    ),
    (
        "mixes flags of accounts and transfers",
        "E0308",
        "let _ = AccountFlags::LINKED | TransferFlags::PENDING;",
    ),
)


def cases(words: "list[str]", folder: str) -> Iterator[Tuple[str, bool, str]]:
    """Each program, whether rustc says of it what it should, and what it said. The words are
    those of rustc, with the wrapper."""
    for what, error, body in PROGRAMS:
        source = os.path.join(folder, "refused.rs")
        with open(source, "w") as out:
            out.write(f"#![allow(unused)] use tb_embed::*; fn main() {{ {body} }}\n")
        ran = subprocess.run(
            [*words, "--emit=metadata", source, "-o", os.path.join(folder, "refused.rmeta")],
            capture_output=True,
            text=True,
            timeout=300,
        )
        found = {line[6:11] for line in ran.stderr.splitlines() if line.startswith("error[")}
        name = f"in Rust a program that {what} {'does not compile' if error else 'compiles'}"
        holds = found == {error} if error else ran.returncode == 0
        yield name, holds, ran.stderr[-2000:]
