#!/usr/bin/env python3
"""Serves a script of pairs, a moment and the frame of a request each, from standard input, and
writes the replies to standard output: what `tbs run CLIENTS_MAX [PROFILE]` does, in Python.

    script.py LIBRARY [CLIENTS_MAX [PROFILE]]
"""
import os
import re
import struct
import sys

# The client's package, if it is not installed.
sys.path.append(
    os.path.join(os.path.dirname(os.path.abspath(__file__)), "..", "..", "python", "src")
)

from tb_client import ClientError  # noqa: E402
from tb_embed import REPLY_MAX, Server  # noqa: E402


def serve(server: Server) -> None:
    if sys.stdin is None or sys.stdout is None:
        sys.exit("script: standard input or standard output is closed")
    script, replies = sys.stdin.buffer, sys.stdout.buffer
    while head := script.read(56):
        length = struct.unpack_from("<I", head, 40)[0] if len(head) == 56 else 0
        body = script.read(min(length, REPLY_MAX))  # no request is longer
        if len(head) < 56 or len(body) < length:
            sys.exit("script: a cut script")
        replies.write(server.serve(struct.unpack_from("<Q", head)[0], head[8:] + body))
    replies.flush()


def main(words: "list[str]") -> None:
    if not 1 <= len(words) <= 3 or not all(re.fullmatch("[0-9]{1,9}", it) for it in words[1:]):
        sys.exit("usage: script.py LIBRARY [CLIENTS_MAX [PROFILE]]")
    clients_max, profile = (list(map(int, words[1:])) + [2, 1][len(words) - 1 :])[:2]
    try:
        with Server(words[0], clients_max, profile) as server:
            serve(server)
    except (ClientError, OSError) as error:
        sys.exit(f"script: {error}")


if __name__ == "__main__":
    main(sys.argv[1:])
