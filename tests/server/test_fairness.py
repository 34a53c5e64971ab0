"""A peer that sends long batches all the time does not hold up another one's single requests."""

import statistics
import sys
import threading
import time

from tb_client import Operation, request_frame

from .wire import answer, register, reply

GREEDY = 8  # connections that send batches
BATCH = 0.1  # seconds of the server for a batch
# A server that refuses each request (NoSession), and takes its time for long ones.
SERVER = f"""
import struct, sys, time
stdin, stdout, commit = sys.stdin.buffer, sys.stdout.buffer, 0
while head := stdin.read(56):
    length, = struct.unpack_from("<I", head, 40)
    stdin.read(length)
    if length > 4096:
        time.sleep({BATCH})
    is_register = head[36] == 2
    commit += is_register
    session = struct.pack("<Q", commit) if is_register else head[24:32]
    status = bytes([0 if is_register else 1])
    number = struct.pack("<Q", commit if is_register else 0)
    stdout.write(head[8:24] + session + head[32:37] + status + bytes(6) + number + bytes(4))
    stdout.flush()
"""


def send_batches(listener, client, done):
    with listener.connect() as it:
        it.sendall(register(client))
        session, number = reply(it).session, 0
        while not done.is_set():
            number += 1
            body = bytes(8190 * 128)
            operation = Operation.create_transfers
            it.sendall(request_frame(client, session, number, operation, body))
            assert len(answer(it)) == 48


def waits_of_singles(listener, count):
    """How long each of some single requests waits for its reply."""
    found = []
    with listener.connect() as it:
        it.sendall(register(99))
        session = reply(it).session
        for number in range(1, count + 1):
            began = time.monotonic()
            it.sendall(request_frame(99, session, number, Operation.lookup_accounts, bytes(16)))
            assert len(answer(it)) == 48
            found.append(time.monotonic() - began)
            time.sleep(0.02)
    return found


def test_single_requests_next_to_batches(start):
    """They wait for the batch that the server has, and for at most one more."""
    listener = start(command=[sys.executable, "-SEc", SERVER, "run", "64"])
    done = threading.Event()
    greedy = [
        threading.Thread(target=send_batches, args=(listener, it, done))
        for it in range(1, GREEDY + 1)
    ]
    for it in greedy:
        it.start()
    try:
        time.sleep(1)
        found = waits_of_singles(listener, 20)
    finally:
        done.set()
        for it in greedy:
            it.join()
    assert statistics.median(found) < 2.5 * BATCH, found
