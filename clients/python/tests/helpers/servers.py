"""A server of one socket that gives what it is told."""

import socket
import threading


class Server:
    """Listens at a path, and gives each connection the next of some answers: bytes after a request,
    or None to close at once."""

    def __init__(self, path, *answers):
        self.path, self.answers, self.requests, self.left = path, answers, [], []
        self.socket = socket.socket(socket.AF_UNIX)
        self.socket.bind(path)
        self.socket.listen()
        self.thread = threading.Thread(target=self.serve)
        self.thread.start()

    def serve(self):
        for answer in self.answers:
            it, _ = self.socket.accept()
            with it:
                it.settimeout(10)
                self.requests.append(it.recv(48, socket.MSG_WAITALL))
                if answer is not None:
                    it.sendall(answer)
                    if not answer.startswith(b"tb_listen"):
                        self.left.append(it.recv(1))  # nothing, once the client has closed it

    def end(self):
        self.thread.join()
        self.socket.close()
