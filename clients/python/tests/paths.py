"""The places at which the tests of the client and of its host find what they run."""
import os
import sys

TESTS = os.path.dirname(os.path.abspath(__file__))
CLIENT = os.path.dirname(TESTS)
ROOT = os.path.dirname(os.path.dirname(CLIENT))
HOST = os.path.join(ROOT, "apps", "host")
LISTENER = os.environ.get("LISTENER") or os.path.join(ROOT, "server", "out", "tb-listen")
SOURCES = [os.path.join(CLIENT, "src"), os.path.join(HOST, "src")]
EXAMPLES = os.path.join(CLIENT, "examples")
PYTHONPATH = os.pathsep.join([*SOURCES, CLIENT, TESTS, os.path.join(HOST, "tests"), EXAMPLES])
CRATES = os.path.join(ROOT, "crates")
STAND_IN = [sys.executable, "-SE", os.path.join(TESTS, "stand_in_tbd.py")]
CONFORMANCE = os.path.join(ROOT, "clients", "conformance")
