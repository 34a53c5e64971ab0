"""A host's name without an address when the options are read, and with one when the listener
listens: the address is held to the same rule. A name server of the test's answers, which
/etc/resolv.conf names in a mount namespace of the listener's."""

import os
import socket
import struct
import threading

import pytest

NAME = "ledger.example"
SERVER = ("127.0.0.77", 53)  # Go's resolver asks at no other port
ANY = bytes(4)  # 0.0.0.0, which is not loopback
A, AAAA, NO_NAME = 1, 28, 3
ASKS = ["unshare", "--mount", "sh", "-c", 'mount --bind "$0" /etc/resolv.conf && exec "$@"']

pytestmark = [
    pytest.mark.slow(reason="needs root, a mount namespace and a port", seconds=5),
    pytest.mark.skipif(os.geteuid() != 0, reason="only root may mount"),
]


def kind_of(query):
    """The name that a query asks for, the kind of its address, and the question's bytes."""
    labels, at = [], 12
    while query[at]:
        labels.append(query[at + 1 : at + 1 + query[at]].decode())
        at += 1 + query[at]
    return ".".join(labels), struct.unpack_from("!H", query, at + 1)[0], query[12 : at + 5]


class Names:
    """A name server: the name has no address until it was asked for both kinds, and later one."""

    def __init__(self):
        self.socket, self.asked = socket.socket(type=socket.SOCK_DGRAM), set()
        self.socket.bind(SERVER)
        threading.Thread(target=self.serve, daemon=True).start()

    def serve(self):
        while True:
            query, place = self.socket.recvfrom(4096)
            if not query:
                return
            self.socket.sendto(self.answer(query), place)

    def answer(self, query):
        name, kind, question = kind_of(query)
        is_known = name == NAME and {A, AAAA} <= self.asked
        if name == NAME:
            self.asked.add(kind)
        found = b""
        if is_known and kind == A:
            found = b"\xc0\x0c" + struct.pack("!HHIH", A, 1, 0, 4) + ANY
        flags = 0x8180 if is_known else 0x8180 | NO_NAME
        head = query[:2] + struct.pack("!5H", flags, 1, bool(found), 0, 0)
        return head + question + found

    def close(self):
        with socket.socket(type=socket.SOCK_DGRAM) as it:
            it.sendto(b"", SERVER)
        self.socket.close()


@pytest.fixture
def names(folder):
    """The words that run a program which asks the name server, and that server."""
    place = folder / "resolv.conf"
    place.write_text(f"nameserver {SERVER[0]}\n")
    it = Names()
    yield it, [*ASKS, str(place)]
    it.close()


def test_it_is_refused(names, launch):
    server, before = names
    listener = launch("--tcp", f"{NAME}:0", before=before).begun()
    assert listener.ended() == 2
    (line,) = listener.lines
    assert line.startswith("tb_listen: 0.0.0.0:")
    assert line.endswith(" is no loopback address: give --client-ca FILE\n")
    assert server.asked == {A, AAAA}


def test_it_is_allowed(names, launch):
    server, before = names
    server.asked = {A, AAAA}  # nobody asks before it listens
    listener = launch("--tcp", f"{NAME}:0", "--insecure", before=before).begun()
    assert listener.lines[0].startswith("tb_listen: listens on 0.0.0.0:")
    assert listener.end() == 0
