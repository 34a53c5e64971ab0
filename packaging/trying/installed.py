"""Trials of what the packages install: programs, pages, completion, terminal, books, library."""

import json
import re
import socket
import time
import urllib.request
from pathlib import Path

import pexpect
from shipping import completion
from shipping.programs import sha256
from shipping.running import Failed, run
from shipping.site import dead
from shipping.table import Program

from .root import Root

DOC = "/usr/share/doc/telovamish"
SECONDS = 10.0  # from apt's start to a first reply
PATIENCE = 60
ONE_LINE = ("tbs", "tb_script")  # TBS.md fixes what they print for every other word


def check(is_right: bool, what: object) -> None:
    if not is_right:
        raise Failed(str(what)[-2000:])


HELD: list[socket.socket] = []  # at ports that the system gives to nobody else


def free_port() -> int:
    """A port at which only a program that is started for it listens: it sets SO_REUSEADDR."""
    it = socket.socket()
    it.setsockopt(socket.SOL_SOCKET, socket.SO_REUSEADDR, 1)
    it.bind(("127.0.0.1", 0))
    HELD.append(it)
    return int(it.getsockname()[1])


def first_reply(root: Root, deb: str) -> str:
    """Installs only the proved programs, and serves the first script."""
    began = time.monotonic()
    root.apt("install", deb)
    root.shell(f"tbs run 2 < {DOC}/examples/first.script | cmp - {DOC}/examples/first.replies")
    took = time.monotonic() - began
    load = Path("/proc/loadavg").read_text().split()[0]
    check(took <= SECONDS, f"{took:.1f} s at load {load}, {SECONDS} at most")
    return f"{took:.1f} s at load {load}"


def record(root: Root) -> str:
    """The installed programs are those of the record, and need only libc."""
    made = json.loads(root.inside(f"{DOC}/BUILD.json").read_text())
    for name, wanted in made["sha256"].items():
        if not name.endswith(".a"):
            check(sha256(root.inside(f"/usr/bin/{name}")) == wanted, f"{name} is another one")
    needed = root.run("dpkg-query", "-W", "-f", "${Depends}", "telovamish")
    check(re.fullmatch(r"libc6 \(>= [\d.]+\)", needed) is not None, f"needs {needed}")
    return f"commit {made['commit']}, programs {made['programs']}, needs {needed}"


def demonstration(root: Root, readme: str) -> None:
    """The console block of README prints what it shows."""
    block = re.search(r"```console\n\$ ([^\n]*)\n(.*?)```", readme, re.S)
    check(block is not None, "README has no console block")
    assert block
    printed = root.shell(f"cd {DOC} && {block[1]}")
    check(printed == block[2], f"printed:\n{printed}")


def install_lines(root: Root, readme: str) -> None:
    """README's lines of its part Install print something, in the folder that has dist/."""
    block = re.search(r"^## Install\n.*?```sh\n(.*?)```", readme, re.M | re.S)
    check(block is not None, "README has no lines under Install")
    assert block
    lines = block[1].splitlines()
    check(bool(lines), "README shows nothing to run")
    for it in lines:
        given = "export MANPAGER=cat APT_CONFIG=/tmp/yes.conf; cd /tmp"
        check(bool(root.shell(f"{given}; {it}").strip()), it)


def manuals(root: Root, names: dict[str, list[str]]) -> str:
    """Each manual page is found by its name, and has the name that is looked for."""
    count = 0
    for section, pages in names.items():
        for name in pages:
            shown = root.shell(f"MANPAGER=cat MANWIDTH=100 man {section} {name}")
            same_as = {"tb_script": "tbs"}.get(name, name)
            check(f"{same_as} - " in shown, f"man {section} {name}: {shown[:300]}")
            check("SYNOPSIS" in shown or section == "5", f"{name} has no synopsis")
            count += 1
    return f"{count} pages"


def bash_words(root: Root, program: Program, typed: str) -> list[str]:
    """What bash's tab key completes the last word to."""
    words = typed.split(" ")
    listed = " ".join(f"'{it}'" for it in words)
    name = program.name
    script = (
        "source /usr/share/bash-completion/bash_completion; "
        f"_completion_loader {name}; COMP_WORDS=({listed}); COMP_CWORD={len(words) - 1}; "
        f"$(complete -p {name} | sed 's/.*-F \\([^ ]*\\).*/\\1/') {name} ''; "
        'printf "%s\\n" "${COMPREPLY[@]}"'
    )
    return root.run("bash", "-c", script).split()


def bash_completion(root: Root, programs: dict[str, Program]) -> str:
    """Each form of each program, and each option of each form, is completed."""
    count = 0
    for it in programs.values():
        forms = [form.name() for form in it.forms if form.name()]
        if forms:
            found = bash_words(root, it, f"{it.name} ")
            check(set(forms) <= set(found), f"{it.name}: {found} of {forms}")
        for form in it.forms:
            wanted = {flag for o in form.options for flag in o.flags}
            if form.name() and wanted:
                found = bash_words(root, it, f"{it.name} {form.name()} -")
                check(wanted == set(found), f"{it.name} {form.name()}: {found}")
                count += len(wanted)
        count += len(forms)
    return f"{count} words"


def completed(program: Program) -> tuple[str, str]:
    """What is typed for a program's last form, or its last option, and what the tab key makes of
    it."""
    forms = [it.name() for it in program.forms if it.name()]
    others = forms or completion.flags(program.options)
    last = others[-1]
    few = next(n for n in range(1, len(last)) if sum(it[:n] == last[:n] for it in others) == 1)
    return f"{program.name} {last[: max(few, 3)]}", f"{program.name} {last}"


def zsh_completion(root: Root, programs: dict[str, Program]) -> str:
    """The tab key of a real zsh completes a form or an option of each program, and an option of a
    form."""
    words = root.words(["zsh", "-f", "-i"])
    shell = pexpect.spawn(words[0], words[1:], encoding="utf-8", timeout=PATIENCE)
    shell.setecho(False)
    for line in ("PS1='ready> '", "autoload -U compinit", "compinit -u"):
        shell.sendline(line)
    shell.sendline("echo begin$((1 + 1))")
    shell.expect("begin2")
    rows = [completed(it) for it in programs.values()] + [("tbd dump --aft", "tbd dump --after")]
    for typed, wanted in rows:
        shell.send(typed + "\t")
        shell.sendcontrol("a")  # prints the line that the tab key made
        shell.send("print -r -- is: \r")
        shell.expect_exact(f"\nis: {wanted}")
    shell.close(force=True)
    return f"{len(rows)} lines"


def terminal(root: Root) -> None:
    """A person's first statements at a terminal, with a repeat."""
    words = root.words(["telovamish"])
    screen = pexpect.spawn(
        words[0], words[1:], encoding="utf-8", timeout=PATIENCE, dimensions=(40, 200)
    )
    screen.expect_exact("exit")
    transfer = "create_transfers id=11 debit_account_id=1 credit_account_id=2 amount=100"
    steps = (
        ("create_accounts id=1 ledger=700 code=10, id=2 ledger=700 code=10;", "2 of 2 accounts"),
        (f"{transfer} ledger=700 code=10;", "1 of 1 transfer created"),
        (f"request=2 {transfer} ledger=700 code=10;", "first reply again"),
    )
    for typed, wanted in steps:
        screen.send(typed + "\r")
        screen.expect_exact(wanted)
    screen.close(force=True)


def read(url: str) -> str:
    """A page, once it is served."""
    for _ in range(300):
        try:
            with urllib.request.urlopen(url, timeout=10) as reply:
                return str(reply.read().decode())
        except OSError:
            time.sleep(0.2)
    raise Failed(f"{url} is not served")


def books(root: Root) -> None:
    """A ledger's file as tables, checked, and as a page."""
    folder, port = "/tmp/books", free_port()
    run_it = f"telovamish run --file ledger.tbk --clients-max 2 {DOC}/examples/retry.text"
    root.shell(
        f"mkdir {folder}; cd {folder}; {run_it};"
        " tb-sql load ledger.sqlite --ledger ledger.tbk; tb-sql check ledger.sqlite"
    )
    served = root.start("tb-sql", "serve", f"{folder}/ledger.sqlite", "--port", str(port))
    try:
        check("<html" in read(f"http://127.0.0.1:{port}/"), "no page")
    finally:
        served.terminate()
        served.wait(60)


def library(root: Root, example: Path, printed: str, room: Path) -> None:
    """The C example builds by the installed pkg-config file, and prints what its page says. The
    compiler is this system's, its search for header and libraries the root's."""
    pkg = {
        "PKG_CONFIG_SYSROOT_DIR": str(root.top),
        "PKG_CONFIG_LIBDIR": str(root.inside("/usr/lib/x86_64-linux-gnu/pkgconfig")),
    }
    flags = run(["pkg-config", "--cflags", "--libs", "tb_embed"], env=pkg).split()
    run(["cc", str(example), *flags, "-o", str(room / "first")])
    said = run([str(room / "first")])
    check(said == printed, said)


def versions_and_help(root: Root, programs: dict[str, Program], version: str) -> str:
    """`--help` of each program and form, and `--version`, which is that of the packages, end with
    status 0. Those of ONE_LINE print one usage line for each such word, with status 2."""
    right, wrong = 0, []
    for it in programs.values():
        forms = [f"{form.name()} --help" for form in it.forms if form.name()]
        for words in ("--help", "--version", *forms):
            line = f"{it.name} {words}"
            said = root.shell(f"{line} < /dev/null 2>&1 || echo status $?")
            if it.name in ONE_LINE:
                is_right = bool(re.fullmatch(r"tb\w+: Usage[^\n]*\nstatus 2\n", said))
            elif words == "--version":
                is_right = said == f"{it.name} {version}\n"
            else:
                is_right = len(said) > len(line) and not re.search(r"^status \d+$", said, re.M)
            right += is_right
            wrong += [] if is_right else [f"{line}: {said[:100]}"]
    check(not wrong, "not as owed: " + "; ".join(wrong))
    return f"{right} lines"


def site(root: Root) -> str:
    """No link of an installed page leads nowhere."""
    folder = root.inside("/usr/share/doc/telovamish-doc/html")
    check((folder / "index.html").is_file(), "no index.html")
    check(not dead(folder), dead(folder))
    return f"{len(list(folder.rglob('*.html')))} files of HTML"


def lintian(debs: list[Path]) -> None:
    """No error and no warning, except those that packaging/debian overrides with a reason."""
    run(["lintian", "--fail-on", "error,warning", "--allow-root", *debs])
