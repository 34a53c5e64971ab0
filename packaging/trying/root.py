"""A fresh Debian 12 in a folder: made by mmdebstrap, used by chroot."""

import shutil
import subprocess
from collections.abc import Iterable
from pathlib import Path

from shipping.running import Failed, run

SUITE = "bookworm"
MIRROR = "http://deb.debian.org/debian"
# What the trial itself needs in the root. The packages under trial do not depend on it.
TOOLS = "man-db bash-completion zsh systemd".split()
PATH = "/usr/local/bin:/usr/sbin:/usr/bin:/sbin:/bin"


class Root:
    """The folder, with what runs in it."""

    def __init__(self, top: Path) -> None:
        self.top = top

    def words(self, words: Iterable[str | Path], user: str = "") -> list[str]:
        """A command line that runs in the root, as root or as a user of it."""
        given = ["env", "-i", f"PATH={PATH}", "LC_ALL=C.UTF-8", "HOME=/root", "TERM=xterm"]
        given += ["DEBIAN_FRONTEND=noninteractive"]
        who = [f"--userspec={user}"] if user else []
        return ["chroot", *who, str(self.top), *given, *(str(it) for it in words)]

    def run(self, *words: str | Path, user: str = "") -> str:
        return run(self.words(words, user))

    def shell(self, line: str, user: str = "") -> str:
        return self.run("bash", "-ec", line, user=user)

    def start(self, *words: str, user: str = "") -> "subprocess.Popen[str]":
        """A process whose standard error is read by whoever started it."""
        return subprocess.Popen(
            self.words(words, user), stdin=subprocess.DEVNULL, stderr=subprocess.PIPE, text=True
        )

    def inside(self, path: str) -> Path:
        """The path of a file of the root, seen from outside."""
        return self.top / path.lstrip("/")

    def apt(self, *words: str) -> str:
        given = ("-q", "-y", "-o", "Dpkg::Use-Pty=0", "-o", f"DPkg::Path={PATH}")
        return self.run("apt-get", *given, *words)

    def copied(self, files: Iterable[Path], folder: str) -> list[str]:
        """Copies files into a folder of the root. Their paths in it."""
        self.inside(folder).mkdir(parents=True, exist_ok=True)
        for it in files:
            shutil.copyfile(it, self.inside(folder) / it.name)
        return [f"{folder}/{it.name}" for it in files]


MOUNTS = (("proc", "proc"), ("devpts", "dev/pts"), ("tmpfs", "run"))


def made(top: Path, base: Path | None) -> Root:
    """A root from nothing, or of a tar file that mmdebstrap made before."""
    if base:
        top.mkdir()
        run(["tar", "-xf", str(base), "-C", str(top)])
    else:
        run(["mmdebstrap", "--variant=apt", SUITE, str(top), MIRROR])
    if (top / "opt/rattle").exists() or not (top / "dev/null").is_char_device():
        raise Failed("the root has the kit, or no devices")
    shutil.copyfile("/etc/resolv.conf", top / "etc/resolv.conf")
    # as Debian's installer writes it
    (top / "etc/hosts").write_text("127.0.0.1 localhost\n::1 localhost ip6-localhost\n")
    # nothing of the root outlives the trial: no syncs
    (top / "etc/dpkg/dpkg.cfg.d/trial").write_text("force-unsafe-io\n")
    for kind, name in MOUNTS:
        (top / name).mkdir(exist_ok=True)
        run(["mount", "-t", kind, kind, str(top / name)])
    return Root(top)


def mounts_below(top: Path) -> list[str]:
    """What is mounted there. `is_mount` knows no folder that is bound to one of the same disk."""
    rows, at = Path("/proc/self/mountinfo").read_text().splitlines(), f"{top.resolve()}/"
    return [it for it in (row.split()[4] for row in rows) if it.startswith(at)]


def unmounted(top: Path) -> None:
    """Takes all mounts off the root: what removes its files must find no other file system."""
    for it in reversed(mounts_below(top)):
        run(["umount", "--lazy", it])
    left = mounts_below(top)
    if left:
        raise Failed(f"still mounted: {left}")
