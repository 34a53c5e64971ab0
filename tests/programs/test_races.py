"""Data races in the program that has threads: the module that the kit's compiler makes of it is
compiled a second time, with ThreadSanitizer, which knows atomics, and run. Each run prints what the
program prints as it was built, and no report. As a control, the same module with its atomic stores
made plain is reported. Needs cc with libtsan, and the kit's clang."""

import os
import re
import shutil
import subprocess

import pytest
import repository

from ..conftest import ran

TOP = repository.ROOT
RUNS = [["storm", "2", "3"], ["storm", "16", "1000"]]
TARGET = ["--target=x86_64-unknown-linux-gnu", "--no-default-config"]
TIMES = 3

# clang calls these by names of its own, which the runtime of cc does not have
SHIM = """#include <string.h>
void *__tsan_memcpy(void *to, const void *from, size_t n) { return memcpy(to, from, n); }
void *__tsan_memmove(void *to, const void *from, size_t n) { return memmove(to, from, n); }
void *__tsan_memset(void *to, int byte, size_t n) { return memset(to, byte, n); }
"""


def module_of(crate, kit, folder):
    """Builds the crate's program once more, from what its check kept, and returns its module: a
    compiler that keeps it comes before the kit's."""
    tools = f"{folder}/toolchain"
    os.makedirs(f"{tools}/bin")
    os.symlink(f"{kit}/toolchain/lib", f"{tools}/lib")
    for tool in os.listdir(f"{kit}/toolchain/bin"):
        if tool != "clang":
            os.symlink(f"{kit}/toolchain/bin/{tool}", f"{tools}/bin/{tool}")
    with open(f"{tools}/bin/clang", "w", encoding="utf-8") as file:
        file.write(
            f'#!/bin/sh\ncp module.bc {folder}/module.bc\nexec {kit}/toolchain/bin/clang "$@"\n'
        )
    os.chmod(f"{tools}/bin/clang", 0o755)
    copy, uses = f"{folder}/{crate}", repository.crates()
    shutil.copytree(f"{TOP}/crates/{crate}", copy)
    words = [
        f"{kit}/bin/rattle",
        "build",
        "--crate-name",
        crate,
        "src/main.rt",
        "--extern",
        f"std={kit}/rlibs/std.rlib",
        "-L",
        f"dependency={kit}/rlibs",
    ]
    for name in uses[crate]:
        here = f"{TOP}/crates/{name}/out/rlib/{name}.rlib"
        words += ["--extern", f"{name}={here if name in uses else f'{kit}/rlibs/{name}.rlib'}"]
    for name in repository.below([crate]):
        words += ["-L", f"dependency={TOP}/crates/{name}/out/rlib"]
    words += [
        "--antt-project",
        f"{kit}/rattle/logic/antt-project.json",
        "--logic-built",
        f"{kit}/logic_built",
        "--links",
        f"{crate}=",
        "--jobs",
        "1",
    ]
    words += [
        "--toolchain",
        tools,
        "--backend",
        "llvm",
        "--incremental",
        "out/incremental",
        "-o",
        "out/module.o",
    ]
    built = subprocess.run(words, cwd=copy, stdout=subprocess.PIPE, stderr=subprocess.STDOUT)
    if built.returncode:
        pytest.fail(f"{crate} is not built: {built.stdout.decode()[-2000:]}")
    module = f"{folder}/module.ll"
    subprocess.run(
        [
            f"{kit}/toolchain/bin/clang",
            *TARGET,
            "-S",
            "-emit-llvm",
            "-Xclang",
            "-disable-llvm-passes",
            "-x",
            "ir",
            f"{folder}/module.bc",
            "-o",
            module,
        ],
        check=True,
    )
    with open(module, encoding="utf-8") as file:
        return file.read()


def instrumented(module):
    """The module with each function instrumented."""
    module = re.sub(r"(?m)^(attributes #\d+ = \{ )(?=.*nounwind)", r"\1sanitize_thread ", module)
    return re.sub(r'"probe-stack"="[^"]*" |"stack-probe-size"="[^"]*" ', "", module)


def linked(module, name, kit, folder):
    """The program of a module."""
    with open(f"{folder}/{name}.ll", "w", encoding="utf-8") as file:
        file.write(module)
    clang = [
        f"{kit}/toolchain/bin/clang",
        *TARGET,
        "-fsanitize=thread",
        "-march=x86-64",
        "-O2",
        "-fPIE",
        "-c",
        "-x",
        "ir",
        f"{folder}/{name}.ll",
        "-o",
        f"{folder}/{name}.o",
    ]
    subprocess.run(clang, check=True)
    with open(f"{folder}/shim.c", "w", encoding="utf-8") as file:
        file.write(SHIM)
    program = f"{folder}/{name}"
    given = [f"{folder}/{name}.o", f"{folder}/shim.c", f"{kit}/c/libos_c.a", f"{kit}/c/liblibc_c.a"]
    subprocess.run(
        ["cc", "-fsanitize=thread", "-O2", "-fno-builtin", "-pie", *given, "-o", program],
        check=True,
    )
    return program


def run(program, words):
    """Status, output and reports."""
    status, output, said = ran([program, *words], seconds=1200)
    return status, output, said.count(b"WARNING: ThreadSanitizer")


@pytest.mark.slow(reason="builds `tbs` with ThreadSanitizer", seconds=300)
def test_races(tbs, tmp_path):
    for command in ("rt", "cc"):
        assert shutil.which(command), f"{command} is not installed"
    kit = os.path.dirname(os.path.dirname(os.path.realpath(shutil.which("rt"))))
    module = instrumented(module_of("tbs", kit, tmp_path))
    program = linked(module, "instrumented", kit, tmp_path)
    plain = re.sub(r"store atomic (.*) seq_cst, align", r"store \1, align", module)
    control = linked(plain, "control", kit, tmp_path)
    assert run(control, RUNS[0])[2] > 0, "atomic stores made plain are reported"
    for words in RUNS:
        status, *wanted = run(tbs, words)
        assert status == 0
        for _ in range(TIMES):
            assert run(program, words) == (0, *wanted), words
