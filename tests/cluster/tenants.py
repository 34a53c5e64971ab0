#!/usr/bin/env python3
"""Tenants of one listener, each with an address of its own: honest ones and greedy ones.

    tenants.py PORT SECONDS KIND:ADDRESS ..

An honest tenant has four sessions, and each makes one transfer after another. A greedy one is of a
kind of KINDS. Each comes again at once when its connection is closed, and does not know what it was
told. Prints a line for each tenant: its kind, the replies that it got, the connections that it
made, and the sessions that were lost.
"""
import asyncio
import contextlib
import os
import struct
import sys
import time

sys.path.insert(0, f"{os.path.dirname(os.path.abspath(__file__))}/../../clients/python/src")

from tb_client import Operation, Transfer  # noqa: E402
from tb_client.frames import request_frame  # noqa: E402

CREATE = Operation.create_transfers
SESSIONS, CALLERS = 4, 8  # of an honest tenant; connections of a greedy one
AT_ONCE, LARGEST = 64, 8190  # requests that are sent at once; items of a request
WITHIN = 20.0  # seconds for a reply of an honest tenant


class Tenant:
    """What one address does with a listener, until it is over."""

    def __init__(self, port, host, end):
        self.port, self.host, self.end = port, host, end
        self.replies = self.calls = self.lost = 0
        self.clients = int.from_bytes(os.urandom(8), "little") << 64

    def is_over(self):
        return time.monotonic() >= self.end

    async def call(self):
        self.calls += 1
        return await asyncio.open_connection("127.0.0.1", self.port, local_addr=(self.host, 0))

    async def reply(self, reader):
        """The next reply. Raises `EOFError` when the connection ends or a line comes."""
        header = await reader.readexactly(48)
        reply = header + await reader.readexactly(int.from_bytes(header[32:36], "little"))
        self.replies += 1
        return reply

    def new_client(self):
        self.clients += 1
        return self.clients

    async def session(self, reader, writer):
        client = self.new_client()
        writer.write(request_frame(client, 0, 0, Operation.register))
        return client, struct.unpack_from("<Q", await self.reply(reader), 16)[0]

    @staticmethod
    def transfers(client, number, count):
        """So many transfers with ids of their own."""
        first = client + (number << 24)
        items = (Transfer(first + (it << 40), 1, 2, 1, ledger=700, code=10) for it in range(count))
        return b"".join(it.to_bytes() for it in items)

    async def run(self, kind):
        if kind == "honest":
            await asyncio.gather(*(self.honest() for _ in range(SESSIONS)))
        else:
            await asyncio.gather(*(self.again(getattr(self, kind)) for _ in range(CALLERS)))

    async def again(self, greed):
        """Does it again, whatever comes of it, until it is over."""
        while not self.is_over():
            with contextlib.suppress(OSError, EOFError, asyncio.TimeoutError):
                async with self.called() as (reader, writer):
                    await asyncio.wait_for(greed(reader, writer), self.end - time.monotonic())

    @contextlib.asynccontextmanager
    async def called(self):
        reader, writer = await self.call()
        try:
            yield reader, writer
        finally:
            writer.transport.abort()

    async def honest(self):
        """A session, which comes later while it is refused, and keeps what it then has."""
        while not self.is_over():
            with contextlib.suppress(OSError, EOFError):
                async with self.called() as (reader, writer):
                    await self.moves(reader, writer, *await self.session(reader, writer))
                    return
            await asyncio.sleep(0.2)

    async def moves(self, reader, writer, client, session):
        """One transfer after another."""
        number = 0
        try:
            while not self.is_over():
                number += 1
                body = self.transfers(client, number, 1)
                writer.write(request_frame(client, session, number, CREATE, body))
                reply = await asyncio.wait_for(self.reply(reader), WITHIN)
                if len(reply) != 48 or reply[29]:
                    raise EOFError
        except (OSError, EOFError, asyncio.TimeoutError):
            self.lost += 1

    # kinds of greed

    async def registers(self, reader, writer):
        """One session after another."""
        while True:
            await self.session(reader, writer)

    async def connects(self, reader, writer):
        """Connections, of which nothing is asked."""
        await reader.read()

    async def asks(self, reader, writer):
        """Small requests, many at once."""
        client, session = await self.session(reader, writer)
        for number in range(1, 1 << 30):
            body = self.transfers(client, number, 1)
            writer.write(request_frame(client, session, number, CREATE, body))
            if not number % AT_ONCE:
                for _ in range(AT_ONCE):
                    await self.reply(reader)

    async def long(self, reader, writer):
        """The largest requests."""
        client, session = await self.session(reader, writer)
        body = self.transfers(client, 1, LARGEST)
        for number in range(1, 1 << 30):
            writer.write(request_frame(client, session, number, CREATE, body))
            await writer.drain()
            await self.reply(reader)

    async def looks_up(self, reader, writer):
        """The longest replies, most of which are not read."""
        client, session = await self.session(reader, writer)
        body = struct.pack("<QQ", 1, 0) * LARGEST
        for number in range(1, 1 << 30):
            writer.write(request_frame(client, session, number, Operation.lookup_accounts, body))
            await writer.drain()
            if number % 4:
                await self.reply(reader)

    async def unread(self, reader, writer):
        """Long requests, whose replies are not read."""
        writer.transport.pause_reading()
        client = self.new_client()
        body = struct.pack("<QQ", 1, 0) * LARGEST
        while True:
            writer.write(request_frame(client, 1, 1, Operation.lookup_accounts, body))
            await writer.drain()

    async def dribbles(self, reader, writer):
        """A long request, byte by byte."""
        frame = request_frame(self.new_client(), 1, 1, Operation.create_transfers, bytes(128 * 64))
        for at in range(len(frame)):
            writer.write(frame[at : at + 1])
            await asyncio.sleep(0.001)

    async def garbles(self, reader, writer):
        """What is no request."""
        writer.write(bytes(48))
        await reader.read()


KINDS = ("registers", "connects", "asks", "long", "looks_up", "unread", "dribbles", "garbles")


async def main():
    port, seconds = int(sys.argv[1]), float(sys.argv[2])
    end = time.monotonic() + seconds
    kinds = [it.split(":") for it in sys.argv[3:]]
    tenants = [Tenant(port, host, end) for _, host in kinds]
    await asyncio.gather(*(it.run(kind) for it, (kind, _) in zip(tenants, kinds)))
    for (kind, host), it in zip(kinds, tenants):
        print(kind, host, it.replies, it.calls, it.lost, flush=True)


if __name__ == "__main__":
    asyncio.run(main())
