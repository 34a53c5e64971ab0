"""Trials of the listener: over TCP, by its units, over an upgrade, and removal of everything."""

import re
import signal
import subprocess
import threading
import time
from collections.abc import Callable

from shipping.running import Failed, run
from shipping.table import ROOT

from .installed import check
from .root import Root

LEDGER = "/var/lib/telovamish/ledger.tbk"
PAGE = ROOT / "docs" / "use" / "OPERATING.md"
UNITS = ("tb-listen.service", "tb-listen-activated.service", "tb-replica.service")
# More entries than a disk of 300 KiB has space for.
STATEMENTS = """at=10 client=7 register;
at=10 client=7 session=1 request=1 create_accounts id=1 ledger=1 code=1, id=2 ledger=1 code=1;
""" + "".join(
    f"at=10 client=7 session=1 request={it + 1} create_transfers id={it} debit_account_id=1"
    " credit_account_id=2 amount=1 ledger=1 code=1;\n"
    for it in range(1, 3001)
)
EXPOSURE = 30  # tenths: systemd calls 3.0 OK
CLIENT = """
import sys, time
import tb_client as tb
end, sent = sys.argv[2], 0
with tb.ClientSync(cluster_id=0, replica_addresses=sys.argv[1]) as client:
    client.create_accounts([tb.Account(id=it, ledger=1, code=1) for it in (1, 2)])
    while True:
        sent += 1
        sale = tb.Transfer(
            id=tb.id(), debit_account_id=1, credit_account_id=2, amount=1, ledger=1, code=1
        )
        wrong = client.create_transfers([sale])
        assert not wrong, wrong
        try:
            open(end).close()
            break
        except FileNotFoundError:
            time.sleep(0.01)
    found = client.lookup_accounts([2])[0].credits_posted
print(sent, found)
"""


def waited(what: str, is_there: Callable[[], object], seconds: float = 60) -> None:
    """Waits until something is so."""
    end = time.monotonic() + seconds
    while not is_there():
        if time.monotonic() > end:
            raise Failed(f"not in {seconds:.0f} s: {what}")
        time.sleep(0.1)


class Listener:
    """tb-listen in the root, as the system user, on a TCP port that the system chose."""

    def __init__(self, root: Root, *options: str) -> None:
        words = ["tb-listen", "--tcp", "127.0.0.1:0", *options, "--"]
        words += ["tbd", "run", LEDGER, "64", "--existing"]
        self.process = root.start(*words, user="telovamish")
        self.lines: list[str] = []
        threading.Thread(target=self.read, daemon=True).start()
        self.port = self.said(r"listens on 127\.0\.0\.1:(\d+)")[1]

    def read(self) -> None:
        """Keeps each line that the listener prints."""
        assert self.process.stderr
        for line in self.process.stderr:
            self.lines.append(line)

    def said(self, pattern: str, after: int = 0) -> re.Match[str]:
        """Waits for a line, after a number of others."""

        def found() -> re.Match[str] | None:
            return re.search(pattern, "".join(self.lines[after:]), re.M)

        waited(pattern, lambda: found() or self.process.poll() is not None)
        line = found()
        if not line:
            raise Failed("".join(self.lines))
        return line

    def reload(self) -> str:
        """What `systemctl reload` does, and the line that the listener prints then."""
        before = len(self.lines)
        self.process.send_signal(signal.SIGHUP)
        return self.said(r"SIGHUP: .*$", before)[0]

    def stop(self) -> None:
        """SIGTERM: all that was taken is answered, and the status is 0."""
        self.process.send_signal(signal.SIGTERM)
        check(self.process.wait(60) == 0, f"status {self.process.returncode}")


def listener(root: Root) -> None:
    """A client over TCP, and the command for people over the same port."""
    served = Listener(root)
    try:
        root.inside("/tmp/client.py").write_text(CLIENT)
        root.inside("/tmp/end").touch()
        said = root.run("python3", "/tmp/client.py", served.port, "/tmp/end", user="nobody")
        check(said.split() == ["1", "1"], said)
        shown = root.run(
            *("telovamish", "run", "--connect", served.port, "--command", "lookup_accounts id=2;")
        )
        check("credits_posted" in shown, shown)
    finally:
        served.stop()


def page_lines(heading: str) -> list[str]:
    """The lines of OPERATING.md after a heading, without those that need apt's files or an init."""
    text = PAGE.read_text().split(f"\n## {heading}\n")[1].split("\n## ")[0]
    lines = [it for part in re.findall(r"```sh\n(.*?)```", text, re.S) for it in part.splitlines()]
    others = ("apt", "editor", "journalctl", "systemctl")
    return [it for it in lines if it.split()[0] not in others]


def file_made(root: Root) -> str:
    """The page's lines make the ledger's file, only for its user."""
    for it in page_lines("Install and start"):
        root.shell(it)
    found = root.run("stat", "--format=%U %a", "/var/lib/telovamish", LEDGER).splitlines()
    check(found == ["telovamish 700", "telovamish 600"], found)
    return ", ".join(found)


def restored(root: Root) -> str:
    """A backup that the page's lines make while the ledger is served, and put back, is served."""
    before, served = entries(root), Listener(root)
    lines = [it.replace("2026-11-28", "$(date +%F)") for it in page_lines("Backup and restore")]
    root.shell("mkdir -p /backup")
    made = [it for it in lines if it.startswith("tbd ")]
    for it in made:
        root.shell(it)
    served.stop()
    for it in lines[len(made) :]:
        root.shell(it)
    check(root.inside(f"{LEDGER}.old").exists(), f"not moved away by {lines}")
    check(entries(root) == before, f"{entries(root)} entries of {before}")
    Listener(root).stop()
    return f"{before} entries"


def filled(root: Root) -> str:
    """On a full disk tbd ends with status 8, and the file has each request that was acknowledged.
    With more space a start goes on, and the same requests are each in the file once."""
    top, file, kept = root.inside("/mnt"), "/mnt/ledger.tbk", 1002
    lines = STATEMENTS.splitlines(keepends=True)
    for name, count in (("fits", kept), ("full", len(lines))):
        root.inside(f"/tmp/{name}.text").write_text("".join(lines[:count]))
        root.shell(f"telovamish script < /tmp/{name}.text > /tmp/{name}.script")
    run(["mount", "-t", "tmpfs", "-o", "size=300k", "tmpfs", str(top)])
    try:
        serve = f"tbd run {file} 2 < /tmp/%s.script 2>&1 > /tmp/full.replies || echo status $?"
        root.shell(serve % "fits")
        check(entries(root, file) == kept, f"{entries(root, file)} entries")
        said = root.shell(serve % "full")
        check("Full" in said and said.endswith("status 8\n"), said)
        check(entries(root, file) >= kept, f"{entries(root, file)} entries on a full disk")
        run(["mount", "-o", "remount,size=30m", str(top)])
        said = root.shell(serve % "full")
        check("status" not in said and entries(root, file) == len(lines), said)
    finally:
        run(["umount", str(top)])
    return f"{kept} entries, then {len(lines)}"


def verified(root: Root) -> None:
    """systemd reads each unit without a complaint."""
    said = root.run("systemd-analyze", "verify", *UNITS, "tb-listen-activated.socket")
    wrong = [it for it in said.splitlines() if "tb-" in it]
    check(not wrong, "\n".join(wrong))


def secured(root: Root) -> str:
    """systemd's exposure of each unit is at most OK."""
    found = []
    for it in UNITS:
        words = ["systemd-analyze", "security", "--offline=true", f"--threshold={EXPOSURE}"]
        said = root.run(*words, "--no-pager", it)
        level = re.search(r"exposure level for \S+: (\S+)", said)
        check(level is not None, said)
        assert level
        found.append(f"{it} {level[1]}")
    return ", ".join(found)


def not_enabled(root: Root) -> None:
    """The units are installed, and nothing starts them."""
    links = list(root.inside("/etc/systemd/system").rglob("tb-*"))
    check(not links, links)
    for it in UNITS:
        check(root.inside(f"/lib/systemd/system/{it}").exists(), it)


NOW = {"enable": "start", "disable": "stop"}  # what `--now` does besides


def commanded(root: Root) -> str:
    """Each systemctl line of OPERATING.md, in its order. Offline, systemd makes and removes the
    links of `enable` and `disable`, and ignores what asks a running manager."""
    lines = re.findall(r"\bsystemctl [^`\n]*", PAGE.read_text())
    check({it.split()[1] for it in lines} >= {*NOW, "reload"}, lines)
    for it in lines:
        verb, name = it.split()[1], it.split()[-1]
        unit = root.inside(f"/lib/systemd/system/{name}.service").read_text()
        check(verb != "reload" or "\nExecReload=" in unit, f"{name} has no ExecReload")
        for word in (verb, *([NOW[verb]] if "--now" in it else [])):
            root.run("env", "SYSTEMD_OFFLINE=1", "systemctl", word, name)
        link = root.inside(f"/etc/systemd/system/multi-user.target.wants/{name}.service")
        check(link.is_symlink() == (verb != "disable"), f"{it}: {link.is_symlink()}")
    return f"{len(lines)} lines"


def unit_words(root: Root, unit: str) -> list[str]:
    """The command of a unit, with the values of its configuration."""
    text = root.inside(f"/lib/systemd/system/{unit}").read_text().replace("\\\n", " ")
    command = re.search(r"^ExecStart=(.*)$", text, re.M)
    place = re.search(r"^EnvironmentFile=(.*)$", text, re.M)
    assert command and place
    given = dict(
        line.split("=", 1)
        for line in root.inside(place[1]).read_text().splitlines()
        if line and not line.startswith("#")
    )
    words: list[str] = []
    for word in command[1].split():
        if re.fullmatch(r"\$\w+", word):
            words += given[word[1:]].split()
        else:
            words.append(re.sub(r"\$\{(\w+)\}", lambda it: given[it[1]], word))
    return words


def activated(root: Root) -> None:
    """The activated unit's command serves over a socket that is passed to it."""
    root.shell("install -d -m 0755 -o telovamish -g telovamish /run/telovamish")
    words = unit_words(root, "tb-listen-activated.service")
    line = ["systemd-socket-activate", "--listen=/run/telovamish/passed.sock", *words]
    process = root.start(*line, user="telovamish")
    path = root.inside("/run/telovamish/passed.sock")
    try:
        waited("a socket", path.exists)
        statement = "lookup_accounts id=2;"
        shown = root.run(
            *("telovamish", "run", "--connect", "/run/telovamish/passed.sock"),
            *("--command", statement),
            user="telovamish",
        )
        check("credits_posted" in shown, shown)
    finally:
        process.send_signal(signal.SIGTERM)
        process.wait(60)


def entries(root: Root, file: str = LEDGER) -> int:
    said = root.run("tbd", "check", file)
    found = re.search(r"(\d+) entries|entries[ :]+(\d+)", said)
    check(found is not None, said)
    assert found
    return int(found[1] or found[2])


def asked_of_init(root: Root, work: Callable[[], object]) -> list[str]:
    """What packages ask of systemd during this work. The root has no init: commands that write
    down their words are in its place."""
    log, running = root.inside("/tmp/asked"), root.inside("/run/systemd/system")
    log.write_text("")
    running.mkdir(parents=True)
    names = ("deb-systemd-invoke", "systemctl")
    commands = [root.inside(f"/usr/local/bin/{it}") for it in names]
    for it in commands:
        it.write_text('#!/bin/sh\necho "$@" >> /tmp/asked\n')
        it.chmod(0o755)
    try:
        work()
    finally:
        running.rmdir()
        for it in commands:
            it.unlink()
    return [it for it in log.read_text().splitlines() if "tb-listen.service" in it]


def upgraded(root: Root, newer: list[str]) -> str:
    """Newer packages come while a client moves money; then the listener starts again with them."""
    before = entries(root)
    served = Listener(root)
    root.shell("rm -f /tmp/end")
    root.inside("/tmp/client.py").write_text(CLIENT)
    words = root.words(["python3", "/tmp/client.py", served.port, "/tmp/end"], "nobody")
    client = subprocess.Popen(words, stdout=subprocess.PIPE, text=True)
    try:
        time.sleep(1)
        asked = asked_of_init(root, lambda: root.apt("install", *newer))
        check(bool(asked) and all(it.startswith("try-restart ") for it in asked), asked)
        check(client.poll() is None and served.process.poll() is None, "an end at the upgrade")
    finally:
        root.inside("/tmp/end").touch()
        said = client.communicate(timeout=120)[0].split()
        served.stop()
    sent, now = int(said[0]), entries(root)
    check(client.returncode == 0 and sent > 1 and now >= before + sent, f"{said} {before} {now}")
    again = Listener(root)
    shown = root.run(
        *("telovamish", "run", "--connect", again.port, "--command", "lookup_accounts id=2;")
    )
    again.stop()
    check(f" {said[1]} " in shown, shown)
    return f"{sent} transfers, {now - before} entries, {root.run('tbd', '--version').strip()}"


def traces(root: Root) -> set[str]:
    """Files of the packages, by their names, outside dpkg's own records."""
    words = (
        r"-name '*telovamish*' -o -name 'tb[-_]*' -o -name '_tb*' -o -name 'tbs*' -o -name 'tbd*'"
    )
    found = root.shell(f"find /usr /lib/ /etc /var /run -xdev \\( {words} \\) 2>/dev/null || true")
    own = ("/var/lib/dpkg/", "/var/cache/", "/var/lib/apt/", "/var/lib/systemd/deb-systemd-helper")
    return {it for it in found.splitlines() if not it.startswith(own)}


def configured(root: Root, names: list[str]) -> list[str]:
    """Packages that were removed and whose configuration is left: apt has no record of others."""
    shown = root.run("dpkg-query", "-W", "-f", "${db:Status-Abbrev} ${Package}\n").splitlines()
    return [it.split()[1] for it in shown if it.startswith("rc") and it.split()[1] in names]


def removed(root: Root, names: list[str]) -> None:
    """`apt remove` leaves ledgers, configuration and enabled units; `apt purge` leaves ledgers."""
    root.run("systemctl", "enable", *UNITS)
    kept = root.shell(f"sha256sum {LEDGER}")
    installed = [
        it
        for name in names
        for it in root.run("dpkg", "-L", name).splitlines()
        if not it.startswith("/etc/") and not root.inside(it).is_dir()
    ]
    asked = asked_of_init(root, lambda: root.apt("remove", *names))
    check(bool(asked) and all(it.startswith("stop ") for it in asked), asked)
    left = [it for it in installed if root.inside(it).exists() or root.inside(it).is_symlink()]
    check(not left, f"left: {left}")
    ledgers = ("/var/lib/telovamish", "/run/telovamish")
    allowed = (*ledgers, "/etc/telovamish", "/etc/systemd/system/")
    others = {it for it in traces(root) if not it.startswith(allowed)}
    check(not others, f"left: {sorted(others)}")
    left = configured(root, names)
    check("telovamish-server" in left, f"configuration is left of {left}")
    root.apt("purge", *left)
    others = {it for it in traces(root) if not it.startswith(ledgers)}
    check(not others, f"left by purge: {sorted(others)}")
    check(root.shell(f"sha256sum {LEDGER}") == kept, "the ledger is another one")
