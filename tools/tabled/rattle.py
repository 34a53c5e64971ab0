"""What the Rattle sources and definitions say of each list of the table."""
import glob
import os
import re

from . import table as t


class Missing(Exception):
    """A list is not at the place at which it is looked for."""


class Sources:
    """The texts of a tree. `changed` puts other texts in place of some files."""

    def __init__(self, top=t.TOP, changed=None):
        self.top, self.changed = top, changed or {}

    def read(self, path):
        if path in self.changed:
            return self.changed[path]
        try:
            with open(os.path.join(self.top, path), encoding="utf-8") as it:
                return it.read()
        except OSError as error:
            raise Missing(f"{path}: {error.strerror}") from None

    def crate(self, name, folder, ending):
        """All texts of a crate's folder, one after another."""
        found = glob.glob(f"{self.top}/crates/{name}/{folder}/**/*.{ending}", recursive=True)
        if not found:
            raise Missing(f"crates/{name}/{folder} has no {ending}")
        return "\n".join(self.read(os.path.relpath(path, self.top)) for path in sorted(found))

    def code(self, crate):
        return self.crate(crate, "src", "rt")

    def specs(self, crate):
        return self.crate(crate, "specs", "antt")

    def proofs(self, crate):
        return self.crate(crate, "proofs", "antt")


def first(pattern, text, what):
    found = re.search(pattern, text, re.M | re.S)
    if not found:
        raise Missing(f"no {what} is found")
    return found


# Definitions


def numbers(text, word):
    """The numbers of variants: those of `word Variant = 5`, with or without what the variant
    holds."""
    rows = re.findall(rf"^{word} \(?(\w+)[^=\n]*\)? = (\d+)$", text, re.M)
    if not rows:
        raise Missing(f"no {word} is found")
    return {variant: int(number) for variant, number in rows}


def texts(text, word):
    rows = dict(re.findall(rf'^{word} (\w+) = codes "(\w+)"$', text, re.M))
    if not rows:
        raise Missing(f"no {word} is found")
    return rows


def body(text, *words):
    """The lines of a definition, by the first of these names that has one."""
    for word in words:
        found = re.search(rf"^{word}\b[^\n]*=\n((?:[ \t]+[^\n]*\n?)+)", text, re.M)
        if found:
            return found[1]
    raise Missing(f"no definition of {' or '.join(words)} is found")


def chosen(text, *words):
    """The variants that a definition lists, in their order."""
    return re.findall(r"(?:^|[ (.])([A-Z]\w*)\)?(?=[ \n]*(?:∷|\())", body(text, *words))


def listed(text, word):
    """The variants of a list of nothing else."""
    return [it.split(".")[-1] for it in re.findall(r"([\w.]+)\s*\n?\s*∷", body(text, word))]


def spelled(text, word):
    """The fields of a record or header: the place, the name and the size of each. Zero bytes have
    no name."""
    at, found = 0, []
    line = re.search(
        rf"^{word} [\w ]+ = ?\n?((?:[ \t]*[^\n]*le_bytes[^\n]*\n|[ \t]+[^\n]*\n)+)", text, re.M
    )
    if not line:
        raise Missing(f"no {word} is found")
    for size, name, zeros in re.findall(
        r"le_bytes (\d+) (?:\w\.)?(\w+)|replicate (\d+) 0", line[1]
    ):
        found.append((at, "length" if name == "len" else name or None, int(size or zeros)))
        at += int(size or zeros)
    return found


def tests_of(text, *words):
    """The results of a definition's tests, in their order, each once."""
    found = re.findall(r"(?:account|transfer)_test (?:\w+\.)?(\w+)", body(text, *words))
    return list(dict.fromkeys(found))


# Code


def enum(text, name):
    """The numbers of an enum's variants."""
    inside = first(rf"^pub enum {name} \{{\n(.*?)^\}}", text, f"enum {name}")[1]
    rows = re.findall(r"^    (\w+) = (\d+),", inside, re.M)
    if not rows:
        raise Missing(f"enum {name} has no numbers")
    return {variant: int(number) for variant, number in rows}


def variants(text, name):
    inside = first(rf"^pub enum {name} \{{\n(.*?)^\}}", text, f"enum {name}")[1]
    return re.findall(r"^    (\w+)(?:\(.*\))?(?: = \d+)?,", inside, re.M)


def arms(text, name, what):
    """What the arms of a match over an enum give: numbers or texts by variant."""
    value = r"(\d+)" if what == "number" else r'"(\w+)"'
    rows = re.findall(rf"\b{name}::(\w+)(?:\(_\))?(?: \| {name}::\w+)* =>\s+{value}", text)
    if not rows:
        raise Missing(f"no {what}s of {name} are found")
    return {variant: int(got) if what == "number" else got for variant, got in rows}


def back(text, name):
    """The numbers that a function takes back to variants."""
    rows = re.findall(rf"^\s+(\d+) => Some\({name}::(\w+)\)", text, re.M)
    if not rows:
        raise Missing(f"no numbers of {name} are read")
    return {variant: int(number) for number, variant in rows}


def all_of(text, name):
    inside = first(rf"pub const ALL: \[{name}; \d+\] = \[(.*?)\]", text, f"{name}::ALL")[1]
    return re.findall(rf"{name}::(\w+)", inside)


def constant(text, *names):
    """A constant's number, by the first of these patterns that is there."""
    for name in names:
        found = re.search(name, text, re.M)
        if found:
            return int(found[1].replace("_", ""), 0)
    raise Missing(f"no {' or '.join(names)} is found")


def largest(text, name):
    """The largest number of a constant's type, if the constant is that."""
    return (1 << int(first(name, text, name)[1])) - 1


def written(text, name):
    """The fields that a record's `write` and `read` have, with their places and sizes."""
    inside = first(rf"^impl Item for {name} \{{\n(.*?)^\}}", text, f"the layout of {name}")[1]
    put = re.findall(r"put_u(\d+)\(out, (\d+), self\.(\w+)\)", inside)
    got = re.findall(r"(\w+): u(\d+)_at\(bytes, (\d+)\)", inside)
    one = sorted((int(at), field, int(bits) // 8) for bits, at, field in put)
    other = sorted((int(at), field, int(bits) // 8) for field, bits, at in got)
    return one, other
