"""Clients that move money, and never give a request up."""

import random
import threading
import time

import tb_client as tb
from tb_client import Account, Operation, Session, Socket, Transfer

from .processes import LIMIT

PAYER, PAYEE = 1, 2
TIMEOUT = 8.0  # seconds for which a client waits for a reply
OK, EXISTS = 0, tb.CreateTransferResult.exists


class Client(threading.Thread):
    """A client: it registers, and makes transfers of 1 one after another, each until it has the
    reply. If its session was evicted, it registers again, and makes the same transfer again."""

    def __init__(self, addresses, stop, pause=0.0, batch=1, tls=None):
        super().__init__(daemon=True)
        self.addresses, self.stop, self.pause, self.batch = addresses, stop, pause, batch
        self.tls = tls
        self.begun, self.made = 0, []  # how many transfers; the ids of those with a reply
        self.waits = []  # when a reply came, and how long it was waited for
        self.evictions = 0
        self.wrong = []  # replies that no ledger without a fault gives

    def run(self):
        try:
            session = self._registered()
            while not self.stop.is_set():
                session = self._step(session)
                time.sleep(self.pause)
        except Exception as error:  # it is a case that fails
            self.wrong.append(repr(error))

    def _registered(self):
        while True:
            try:
                it = Session.register(Socket(self.addresses, TIMEOUT, self.tls), pause=0.1)
                it.attempts = 3
                return it
            except (tb.ReplyLost, tb.CannotConnect, tb.Evicted):
                time.sleep(0.05)

    def _asked(self, session, operation, items):
        """The session, the results, and whether no eviction made it another request."""
        is_first = True
        session.prepare(operation, items)
        while True:
            try:
                return session, session.retry(), is_first
            except tb.Evicted:
                self.evictions += 1
                is_first = False
                session = self._registered()
                session.prepare(operation, items)
            except (tb.ReplyLost, tb.CannotConnect):
                time.sleep(0.02)

    def _step(self, session):
        more = [random.getrandbits(128) for _ in range(self.batch)]  # otherwise entries deflate
        transfers = [
            Transfer(tb.id(), PAYER, PAYEE, 1, user_data_128=it, ledger=700, code=10) for it in more
        ]
        began = time.monotonic()
        self.begun += self.batch
        session, results, is_first = self._asked(session, Operation.create_transfers, transfers)
        now = time.monotonic()
        self.waits.append((now, now - began))
        allowed = (OK,) if is_first else (OK, EXISTS)
        self.wrong += [str(it) for it in results if it.result not in allowed]
        self.made += [it.id for it in transfers]
        return session


class Watcher(Client):
    """A client that looks both accounts up, one time after another. What it is shown lies between
    what was acknowledged before it asked, and what was begun before it was answered."""

    def __init__(self, traffic, addresses, pause=0.3):
        super().__init__(addresses, traffic.stop, pause, tls=traffic.tls)
        self.traffic, self.looked = traffic, 0

    def _step(self, session):
        before, least = self.traffic.before, self.traffic.made
        session, found, _ = self._asked(session, Operation.lookup_accounts, [PAYER, PAYEE])
        most = self.traffic.begun
        shown = [found[0].debits_posted - before, found[1].credits_posted - before]
        if not least <= min(shown) == max(shown) <= most:
            self.wrong.append(f"shown are {shown}, not {least} to {most}")
        self.looked += 1
        return session


class Traffic:
    """Clients side by side, and one at each address that watches what they are shown."""

    def __init__(self, ports, count, pause=0.0, spread=False, batch=1, tls=None):
        addresses = [("127.0.0.1", it) for it in ports]
        self.addresses, self.stop, self.tls = addresses, threading.Event(), tls
        self.before = 0  # what the ledger had posted
        turned = [addresses[at:] + addresses[:at] for at in range(len(addresses))]
        self.clients = [
            Client(turned[it % len(turned) if spread else 0], self.stop, pause, batch, tls)
            for it in range(count)
        ]
        self.watchers = [Watcher(self, it) for it in turned]

    def open_accounts(self):
        session = Session.register(Socket(self.addresses, 30, self.tls))
        tb.require_ok(
            session.create_accounts([Account(it, ledger=700, code=10) for it in (PAYER, PAYEE)])
        )
        session.close()

    @property
    def all(self):
        return [*self.clients, *self.watchers]

    def start(self):
        self.before = self.posted()
        for it in self.all:
            it.start()

    def end(self, seconds=300):
        """Lets each client have its last reply."""
        self.stop.set()
        end = time.monotonic() + seconds
        for it in self.all:
            it.join(max(end - time.monotonic(), 0))
        return sum(it.is_alive() for it in self.all)

    @property
    def made(self):
        return sum(len(it.made) for it in self.clients)

    @property
    def begun(self):
        return sum(it.begun for it in self.clients)

    @property
    def looked(self):
        return sum(it.looked for it in self.watchers)

    @property
    def wrong(self):
        return [text for it in self.all for text in it.wrong]

    @property
    def evictions(self):
        return sum(it.evictions for it in self.all)

    def waits_between(self, start, end):
        """The longest wait of each client for a request that it had between these times."""
        return [
            max((wait for at, wait in it.waits if at - wait <= end and start <= at), default=0.0)
            for it in self.clients
        ]

    def posted(self):
        return posted_at(*(port for _, port in self.addresses), tls=self.tls)


def posted_at(*ports, seconds=LIMIT, tls=None):
    """What the ledger has posted, as the first of these ports that replies says."""
    transport = Socket([("127.0.0.1", it) for it in ports], seconds, tls)
    with Session.register(transport) as session:
        return session.lookup_accounts([PAYEE])[0].credits_posted
