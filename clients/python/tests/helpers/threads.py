"""Threads and forks of the tests, and events that they wait for."""

import os
import signal
import threading
import time
import traceback

import tb_client as tb


SECONDS = 10  # that a call may take in a child


def until(holds, seconds=120):
    """Waits for an event, also on a busy machine."""
    end = time.monotonic() + seconds
    while not holds():
        assert time.monotonic() < end, f"not within {seconds} seconds"
        time.sleep(0.001)


class Watched:
    """A lock, and the threads that have come to it."""

    def __init__(self, lock):
        self.lock, self.came = lock, set()

    def __enter__(self):
        self.came.add(threading.get_ident())
        self.lock.acquire()

    def __exit__(self, *_):
        self.lock.release()


def faults_at_close(transport, exchange, end):
    """What eight threads meet that exchange over a transport, each by its number, when it is closed
    amid the first exchange, which `end` ends after that."""
    faults, transport._lock = [], Watched(transport._lock)

    def run(number):
        try:
            exchange(number)
        except tb.ClientError as fault:
            faults.append(type(fault))

    threads = [threading.Thread(target=run, args=(it,)) for it in range(1, 9)]
    for thread in threads:
        thread.start()
    until(lambda: len(transport._lock.came) == 8)
    closing = threading.Thread(target=transport.close)
    closing.start()
    until(lambda: closing.ident in transport._lock.came)
    end()
    for thread in (*threads, closing):
        thread.join()
    return sorted(faults, key=str)


def in_threads(count, work):
    """Calls `work` with 0, 1 and so on in threads that start together. Raises what one of them
    raised."""
    faults, start = [], threading.Barrier(count)

    def run(number):
        try:
            start.wait()
            work(number)
        except BaseException as fault:
            faults.append(fault)

    threads = [threading.Thread(target=run, args=(number,)) for number in range(count)]
    for it in threads:
        it.start()
    for it in threads:
        it.join()
    if faults:
        raise faults[0]


def status_in_a_child(call, lock):
    """What a forked child ends with that calls this while a thread of its parent has this lock: the
    call's number, 0 if it returns no number, 4 if it raises, and -SIGALRM if it does not return."""
    held, done = threading.Event(), threading.Event()

    def hold():
        with lock:
            held.set()
            done.wait()

    holder = threading.Thread(target=hold)
    holder.start()
    held.wait()
    child = os.fork()
    if not child:
        signal.alarm(SECONDS)
        try:
            os._exit(call() or 0)
        except BaseException:
            traceback.print_exc()
        finally:
            os._exit(4)
    status = os.waitpid(child, 0)[1]
    done.set()
    holder.join()
    return os.waitstatus_to_exitcode(status)


def closed_in_a_child(transport, lock):
    return status_in_a_child(transport.close, lock)
