"""Hostile peers of a listener over TLS, as a program of its own, so that the tenants that a test
measures share no thread with them.

    hostile.py PORT COUNT AUTHORITY CERTIFICATE KEY

A fifth of them each: say nothing after they have connected; send junk; connect and leave again and
again; send a request's body byte by byte; read no reply. The last two have a certificate. A peer
whose connection is closed comes again. Prints how many connected in each second until it is ended.
"""

import asyncio
import contextlib
import itertools
import os
import socket
import ssl
import sys

from tb_client import Operation, request_frame

PAUSE = 1.0  # seconds between the bytes of a slow writer
LONG = (1).to_bytes(16, "little") * 8190  # the ids of a long reply
RANGE = 2 << 64  # of the clients that the certificate has


class Peers:
    def __init__(self, port: int, context: ssl.SSLContext) -> None:
        self.port, self.context, self.count = port, context, 0
        self.clients = itertools.count(RANGE + 1)

    async def connected(self, number: int, is_certified: bool = False):
        """A connection from an address of its own, of which there are several hundred."""
        here = f"127.{1 + number // 250 % 250}.0.{1 + number % 250}"
        self.count += 1
        return await asyncio.open_connection(
            "127.0.0.1",
            self.port,
            local_addr=(here, 0),
            ssl=self.context if is_certified else None,
            server_hostname="localhost" if is_certified else None,
        )

    async def silent(self, number: int) -> None:
        reader, writer = await self.connected(number)
        await reader.read()
        writer.close()

    async def junk(self, number: int) -> None:
        reader, writer = await self.connected(number)
        writer.write(os.urandom(3000))
        await reader.read()
        writer.close()

    async def leaves(self, number: int) -> None:
        _, writer = await self.connected(number)
        writer.close()

    async def slow_writer(self, number: int) -> None:
        _, writer = await self.connected(number, is_certified=True)
        frame = request_frame(next(self.clients), 1, 1, Operation.create_transfers, bytes(1 << 17))
        writer.write(frame[:48])
        for at in range(48, len(frame)):
            writer.write(frame[at : at + 1])
            await writer.drain()
            await asyncio.sleep(PAUSE)

    async def slow_reader(self, number: int) -> None:
        _, writer = await self.connected(number, is_certified=True)
        writer.transport.pause_reading()
        client = next(self.clients)
        writer.write(request_frame(client, 1, 1, Operation.lookup_accounts, LONG))
        await asyncio.sleep(1000)

    async def again(self, number: int) -> None:
        kinds = (self.silent, self.junk, self.leaves, self.slow_writer, self.slow_reader)
        kind = kinds[number % len(kinds)]
        while True:
            with contextlib.suppress(OSError, asyncio.TimeoutError):
                await kind(number)
            await asyncio.sleep(0.01)


async def run(port: int, count: int, context: ssl.SSLContext) -> None:
    peers = Peers(port, context)
    tasks = [asyncio.ensure_future(peers.again(it)) for it in range(count)]
    while tasks:
        await asyncio.sleep(1)
        print(peers.count, flush=True)
        peers.count = 0


if __name__ == "__main__":
    socket.setdefaulttimeout(60)
    tls = ssl.create_default_context(cafile=sys.argv[3])
    tls.load_cert_chain(sys.argv[4], sys.argv[5])
    asyncio.run(run(int(sys.argv[1]), int(sys.argv[2]), tls))
