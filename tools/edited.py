"""What an edit is: the changes that its text lists, the crate as they leave it, and what a check of
the one function says at which the edit is refused."""
import glob
import os
import re
import subprocess
import tempfile

import repository

ROOT = repository.ROOT
HEADS = ("rule", "refused at")
MOST = 8  # edits that one check tries


class Misfit(Exception):
    """An edit that cannot be applied."""


def said_of(edit):
    """What the first lines of an edit say, by their words."""
    lines = [re.match(r"# ([a-z ]+): (\S.*)", line) for line in edit.split("\n")]
    return {it[1]: it[2] for it in lines if it and it[1] in HEADS}


def changes_of(edit):
    """The changes of an edit in their order: the file, the old text and the new one."""
    file, old, changes = None, None, []
    for line in edit.split("\n"):
        word, _, rest = line.partition(": ") if not line == "new:" else ("new", "", "")
        if word == "file":
            file = rest.strip()
        elif word == "old":
            old = rest
        elif word == "new":
            if not file or not old:
                raise Misfit("a 'new:' line comes before any 'file:' or 'old:' line")
            changes.append((file, old, rest))
            old = None
    if not changes:
        raise Misfit("it has no 'old:' and 'new:' pair")
    return changes


def changed(home, *edits):
    """The files that edits change of a crate in the folder `home`, each with its text then."""
    texts = {}
    for file, old, new in (it for edit in edits for it in changes_of(edit)):
        if file not in texts:
            texts[file] = text_of(home, file)
        found = texts[file].count(old)
        if found != 1:
            raise Misfit(f"its old text is in {file} {found} times: {old}")
        texts[file] = texts[file].replace(old, new)
    return texts


def text_of(home, file):
    if not os.path.isfile(f"{home}/{file}"):
        raise Misfit(f"there is no file {file}")
    with open(f"{home}/{file}", encoding="utf-8") as source:
        return source.read()


def misfit(crate, edit):
    """Why an edit cannot be applied, or what it does not say; None if it can."""
    missing = [f"no line '# {it}:'" for it in HEADS[:2] if it not in said_of(edit)]
    if missing:
        return "it has " + " and ".join(missing)
    try:
        changed(f"{ROOT}/crates/{crate}", edit)
    except Misfit as why:
        return str(why)
    return None


def function_of(home, edit):
    """The function at which an edit says that it is refused, by the name that a check prints."""
    place, *clauses = edited_at(edit)
    law = re.fullmatch(r"the law (\w+)", place)
    if law:
        return stating(home, law[1]) or place
    if "the trait's clause" in clauses:
        module, _, method = place.rsplit("::", 2)
        return f"{module}::{impl_of(home, edit)}::{method}"
    return place


def edited_at(edit):
    """The place at which an edit says that it is refused: the function, and the clauses."""
    return said_of(edit)["refused at"].split(", ")


def stating(home, law):
    """The function that states a law."""
    for file in glob.glob("**/*.rt", root_dir=f"{home}/src", recursive=True):
        found = dict(re.findall(r"fn (\w+)\(\)((?:\s+ensures.*)+)", text_of(home, f"src/{file}")))
        for name, clauses in found.items():
            if re.search(rf"\b{law}\b", clauses):
                return "::".join((*file.removesuffix(".rt").split("/"), name))
    return None


def impl_of(home, edit):
    """The impl that an edit changes, as a check prints it: `MemoryDevice`, `FaultFromRefusal`."""
    file, old, _ = changes_of(edit)[0]
    before = text_of(home, file).partition(old)[0]
    head = re.findall(r"^impl\b.*? (?:\w+::)?(\w+)(?:<(\w+).*>)? for (\w+)", before, re.M)[-1]
    trait, argument, name = head
    return f"{name}{trait}{argument}"


def is_within(home, edit, function):
    """Whether an edit changes nothing outside of one function and its own proof."""
    name = function.rsplit("::", 1)[-1]
    whole = rf"^( *)(?:pub(?:\(crate\))? )?fn {name}\b.*?^\1\}}"
    for file, old, _ in changes_of(edit):
        if file.startswith(f"proofs/{function.replace('::', '/')}/"):
            continue
        text = text_of(home, file)
        spans = (it.span() for it in re.finditer(whole, text, re.M | re.S))
        if not any(start <= text.find(old) < end for start, end in spans):
            return False
    return True


def batches(home, edits):
    """The edits that one check can try, each with its function: a batch has edits that are all
    within functions of their own, or a single one that changes more."""
    alone, together = [], []
    for name, edit in edits.items():
        function = function_of(home, edit)
        if not is_within(home, edit, function):
            alone.append({name: function})
            continue
        free = (it for it in together if len(it) < MOST and function not in it.values())
        batch = next(free, None)
        if batch is None:
            batch = {}
            together.append(batch)
        batch[name] = function
    return together + alone


def how_refused(function, said):
    """How a check refuses a function, by what it prints; if it does not, what it says."""
    end = re.search(rf"^fn {re.escape(function)}: (.*)", said, re.M)
    if end is None:
        errors = [line for line in said.splitlines() if "error" in line]
        return f"BAD EDIT: {(errors or said.splitlines() or ['nothing is printed'])[-1]}"
    if end[1].startswith("proved"):
        return f"NOT REFUSED: {function} is proved"
    # goals of a function are printed after the last line of the one before
    goals = re.split(r"^fn .*\n", said[: end.start()], flags=re.M)[-1]
    if "it is not proved that" in goals:
        return "refused at a printed goal"
    proof = "/".join(function.split("::")[1:])
    inside = re.search(rf"^\./proofs/{re.escape(proof)}/\S+: error", said, re.M)
    return f"refused {'inside an answer' if inside else 'where a search met a limit'}"


def said_under(home, texts, functions):
    """What a check of functions prints while files have these texts."""
    before = {file: text_of(home, file) for file in texts}
    write(home, texts)
    try:
        return said_by_rt(home, "check", *(word for it in functions for word in ("--only", it)))
    finally:
        write(home, before)


def said_by_rt(folder, *words):
    """What a command of `rt` prints in a folder."""
    return subprocess.run(
        ["rt", *words],
        cwd=folder,
        stdin=subprocess.DEVNULL,
        stdout=subprocess.PIPE,
        stderr=subprocess.STDOUT,
        text=True,
        errors="replace",
    ).stdout


def write(home, texts):
    for file, text in texts.items():
        with open(f"{home}/{file}", "w", encoding="utf-8") as source:
            source.write(text)


def refusals(home, batch, edits):
    """How the functions of a batch are refused. An edit that is not refused, for example because
    another one of its batch does not compile, is tried by itself."""
    try:
        texts = changed(home, *(edits[name] for name in batch))
    except Misfit as why:
        found = {name: f"BAD EDIT: {why}" for name in batch}
    else:
        said, crate = said_under(home, texts, batch.values()), os.path.basename(home)
        found = {name: how_refused(f"{crate}::{it}", said) for name, it in batch.items()}
    for name, said in found.items():
        if len(batch) > 1 and not said.startswith("refused"):
            found.update(refusals(home, {name: batch[name]}, edits))
    return found


def checked(crate, edits, told):
    """Checks the functions that a crate's edits name, under these edits, in a copy with what is
    kept of earlier checks, and prints what came of each edit."""
    with tempfile.TemporaryDirectory(prefix="edits-") as room:
        repository.copied(room)
        repository.kept(room, [*repository.below([crate]), crate])
        home = f"{room}/crates/{crate}"
        for batch in batches(home, edits):
            for name, said in refusals(home, batch, edits).items():
                told(crate, name, said)
