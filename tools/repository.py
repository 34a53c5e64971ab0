"""The repository: copies of it, and its crates as crates.txt lists them."""
import os
import shutil
import subprocess

ROOT = os.path.dirname(os.path.dirname(os.path.abspath(__file__)))


def crates(root=ROOT):
    """The crates, each with the words after its name."""
    with open(f"{root}/crates.txt", encoding="utf-8") as file:
        rows = [line.partition("#")[0].partition(":") for line in file]
    return {head.split()[0]: tail.split() for head, colon, tail in rows if colon}


def below(names, root=ROOT):
    """The crates that these are built on, each after those that it is built on itself."""
    rows, order = crates(root), []

    def visit(name):
        for it in filter(rows.__contains__, rows[name]):
            visit(it)
            if it not in order:
                order.append(it)

    for name in names:
        visit(name)
    return order


def files(root=ROOT):
    """The files that git knows of, with what is not committed."""
    words = ["git", "-C", root, "ls-files", "-co", "--exclude-standard"]
    ran = subprocess.run(words, check=True, capture_output=True, text=True)
    return [it for it in ran.stdout.splitlines() if os.path.isfile(f"{root}/{it}")]


def copied(room, root=ROOT):
    """Copies the files that git knows of to a folder."""
    for path in files(root):
        os.makedirs(os.path.dirname(f"{room}/{path}"), exist_ok=True)
        shutil.copy2(f"{root}/{path}", f"{room}/{path}")


def kept(room, names=None, root=ROOT):
    """Copies what earlier checks kept of these crates, or of each."""
    for crate in crates(root) if names is None else names:
        if os.path.isdir(f"{root}/crates/{crate}/out"):
            out = f"crates/{crate}/out"
            shutil.copytree(f"{root}/{out}", f"{room}/{out}", symlinks=True)
