#!/usr/bin/env python3
"""Links between machines: TCP ports that pass on what comes, until they are cut.

    links.py PORT:PORT ..

Each pair of ports is a link: what comes to the first port goes to the second one. On standard
input: `cut N` closes the connections of link N and takes no more, `hold N` lets nothing through
and closes nothing, `slow N` lets each new connection wait for 1.5 s, `heal N` takes all back. N
counts from 0. Prints `ready`, then the answer `done` to each line.
"""
import asyncio
import contextlib
import sys


class Link:
    """A link, whose connections are cut together."""

    def __init__(self, port, target):
        self.port, self.target = port, target
        self.open, self.flows = set(), asyncio.Event()
        self.flows.set()
        self.is_cut = self.is_slow = False

    async def begin(self):
        await asyncio.start_server(self.take, "127.0.0.1", self.port)

    async def take(self, reader, writer):
        if self.is_cut:
            writer.transport.abort()
            return
        try:
            await self.flows.wait()
            await asyncio.sleep(1.5 if self.is_slow else 0)
            other, onward = await asyncio.open_connection("127.0.0.1", self.target)
        except OSError:
            writer.transport.abort()
            return
        self.open |= {writer, onward}
        ways = [
            asyncio.ensure_future(it)
            for it in (self.passed(reader, onward), self.passed(other, writer))
        ]
        await asyncio.wait(ways, return_when=asyncio.FIRST_COMPLETED)
        for it in ways:
            it.cancel()
        for it in (writer, onward):
            it.transport.abort()
        self.open -= {writer, onward}

    async def passed(self, reader, writer):
        with contextlib.suppress(OSError):
            while data := await reader.read(1 << 16):
                await self.flows.wait()
                writer.write(data)
                await writer.drain()

    def do(self, word):
        if word == "cut":
            self.is_cut = True
            for it in self.open:
                it.transport.abort()
        elif word == "hold":
            self.flows.clear()
        elif word == "slow":
            self.is_slow = True
        else:
            self.is_cut = self.is_slow = False
            self.flows.set()


async def main():
    links = [Link(*map(int, it.split(":"))) for it in sys.argv[1:]]
    for it in links:
        await it.begin()
    print("ready", flush=True)
    loop = asyncio.get_running_loop()
    while line := await loop.run_in_executor(None, sys.stdin.readline):
        word, number = line.split()
        links[int(number)].do(word)
        print("done", flush=True)


if __name__ == "__main__":
    asyncio.run(main())
