"""Clusters on this machine for the tests of this folder. A test of an engine that is not installed
is skipped, and says what is missing."""

import contextlib
import tempfile

import pytest

from .processes import Cluster, missing
from .processes import wrong as wrongly


def pytest_runtest_setup(item):
    for engine in ("etcd", "postgresql"):
        if item.get_closest_marker(f"needs_{engine}"):
            lacks = missing(engine)
            if lacks:
                pytest.skip(f"not installed: {', '.join(lacks)}")


@pytest.fixture
def cluster_of(program):
    """Makes clusters that run, and end with the test. `wrong` is what a replica does wrong."""
    with contextlib.ExitStack() as stack:

        def made(kind=Cluster, wrong=None, **options):
            folder = stack.enter_context(tempfile.TemporaryDirectory(prefix="cluster-"))
            words = wrongly(wrong) if wrong else None
            it = kind(folder, program=program, replica=words, **options)
            stack.callback(it.end)
            it.start()
            return it

        yield made


@pytest.fixture
def show(capsys):
    """Prints a figure, also if the output of tests is captured."""

    def say(text):
        with capsys.disabled():
            print(f"\n  {text}", end="", flush=True)

    return say


@pytest.fixture
def given(request):
    """The options of the command line."""
    return request.config.option
