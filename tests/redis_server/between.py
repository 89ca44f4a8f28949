"""What stands at a port before a server."""

import contextlib
import socket
import threading


class Between:
    """Passes on what clients send and what the server answers, each as `change` makes it: of the bytes, of whether the
    server has sent them, and of a dict that is the connection's own. What it makes is bytes, or pieces that come one
    after the other."""

    def __init__(self, port, to, change):
        self.to, self.change = to, change
        self.listener = socket.create_server(("127.0.0.1", port))
        threading.Thread(target=self.accept, daemon=True).start()

    def __enter__(self):
        return self

    def __exit__(self, *_):
        self.listener.close()

    def accept(self):
        with contextlib.suppress(OSError):
            while True:
                client, _ = self.listener.accept()
                self.join(client)

    def join(self, client):
        """Both ways of one connection. A server that is not there ends it."""
        try:
            server = socket.create_connection(("127.0.0.1", self.to))
        except OSError:
            client.close()
            return
        link = {}
        for one, other, is_answer in ((client, server, False), (server, client, True)):
            threading.Thread(target=self.copy, args=(one, other, is_answer, link), daemon=True).start()

    def copy(self, one, other, is_answer, link):
        with contextlib.suppress(OSError):
            while data := one.recv(1 << 16):
                made = self.change(data, is_answer, link)
                for piece in [made] if isinstance(made, bytes) else made:
                    other.sendall(piece)
        with contextlib.suppress(OSError):
            other.shutdown(socket.SHUT_WR)


class Instead:
    """A change that gives another answer to each request with this name, once one is told to: bytes, or a function
    that makes bytes or pieces of the server's own answer."""

    def __init__(self):
        self.name, self.answer = None, b""

    def tell(self, name=None, answer=b""):
        self.name, self.answer = name, answer

    def __call__(self, data, is_answer, link):
        if not is_answer:
            link["is asked"] = self.name is not None and self.name in data.upper()
            return data
        if not link.get("is asked"):
            return data
        return self.answer if isinstance(self.answer, bytes) else self.answer(data)
