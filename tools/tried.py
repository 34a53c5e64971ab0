"""What scripts share: cases that are counted and printed, programs that have to be
there and their runs, the arguments of a script, and its end."""
import argparse
import os
import select
import subprocess
import sys


def from_environment(name, usual, kind=float):
    """A variable's number, above 0 and up to 500. Ends the script if it is not one."""
    text = os.environ.get(name) or usual
    try:
        number = kind(text)
    except ValueError:
        number = 0
    if not 0 < number <= 500:
        what = "whole number" if kind is int else "number"
        sys.exit(f"{name} is '{text}': a {what} above 0 is wanted, 500 at most")
    return number


passed = failed = 0
# How many times longer than usual a program may take: one that is built unproved is slow.
LONGER = from_environment("CHECK_LONGER", "1")


def case(name, holds, said="", quietly=False):
    """Counts a case and prints it, with what is said of it; quietly only if it fails. Returns
    whether it holds."""
    global passed, failed
    passed, failed = passed + bool(holds), failed + (not holds)
    if not (holds and quietly):
        shown = "" if said in ("", None) else f": {said}"
        print(f"{'ok' if holds else 'FAILED'}: {name}{shown}", flush=True)
    return bool(holds)


def built(*programs, how="build it first, as the head of this file says"):
    """Ends the script if a program is missing."""
    for program in programs:
        if not os.access(program, os.X_OK):
            sys.exit(f"{program} is not there: {how}")


def ran(words, given=b"", seconds=120, **how):
    """Runs a program on these bytes: its status, its output and its standard error."""
    how = {"stdout": subprocess.PIPE, "stderr": subprocess.PIPE, **how}
    it = subprocess.run(list(map(str, words)), input=given, timeout=seconds * LONGER, **how)
    return it.returncode, it.stdout or b"", it.stderr or b""


def arguments(page):
    """A parser of a script's arguments, whose help is the script's page."""
    return argparse.ArgumentParser(
        description=page, formatter_class=argparse.RawDescriptionHelpFormatter
    )


def count(text):
    """An argument that is a whole number from 1 on."""
    if not text.isascii() or not text.isdigit() or int(text) == 0:
        raise argparse.ArgumentTypeError(f"'{text}' is no whole number from 1 on")
    return int(text)


def is_read():
    """Whether there is still somebody to read the output."""
    output = select.poll()
    output.register(sys.stdout, 0)
    return not output.poll(0)


def main(run):
    """Ends the script with the status that `run` returns. What its user can mend is printed in a
    line and no traceback: a file or program that is not there or is of another kind, a full disk, a
    command that failed, did not end or took no more input, an interrupt. If nobody reads the
    output, the script ends without a word."""
    try:
        sys.exit(run())
    except KeyboardInterrupt:
        print("interrupted", file=sys.stderr)
        sys.exit(130)
    except BrokenPipeError:
        if is_read():
            sys.exit("a program ended before it took its input")
        os.dup2(os.open(os.devnull, os.O_WRONLY), sys.stdout.fileno())
        sys.exit(141)
    except OSError as why:
        sys.exit(f"{why.filename}: {why.strerror}" if why.filename else str(why))
    except subprocess.CalledProcessError as why:
        sys.exit(f"{why.cmd[0]} failed with status {why.returncode}: {' '.join(map(str, why.cmd))}")
    except subprocess.TimeoutExpired as why:
        sys.exit(f"{why.cmd[0]} did not end within {why.timeout:.0f} seconds")


def status():
    """Prints how many cases passed, and returns the exit status: 1 if no case was tried."""
    if not passed + failed:
        print("nothing was tried")
    print(f"{passed} passed, {failed} failed")
    return 1 if failed or not passed else 0
