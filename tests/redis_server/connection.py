"""A client's connection to a server, by RESP2, and redis-servers that are started for a test."""

import socket
import subprocess
import time

SECONDS = 60


def encoded(words):
    return b"*%d\r\n" % len(words) + b"".join(b"$%d\r\n%s\r\n" % (len(word), word) for word in words)


class Connection:
    """Waits until somebody listens at the port. A reply is its mark with what it carries: bytes, a number, a list of
    replies, or None."""

    def __init__(self, port):
        until = time.monotonic() + SECONDS
        while True:
            try:
                self.socket = socket.create_connection(("127.0.0.1", port), timeout=SECONDS)
                break
            except ConnectionRefusedError:
                if time.monotonic() > until:
                    raise
                time.sleep(0.05)
        self.replies = self.socket.makefile("rb")

    def send(self, requests):
        self.socket.sendall(b"".join(map(encoded, requests)))

    def reply(self):
        line = self.replies.readline()
        if not line:
            raise SystemExit("a server ended the connection")
        mark, rest = line[:1].decode(), line[1:-2]
        if mark in "+-":
            return mark, rest
        if mark == ":" or int(rest) < 0:
            return mark, int(rest) if mark == ":" else None
        if mark == "$":
            return mark, self.replies.read(int(rest) + 2)[:-2]
        return mark, [self.reply() for _ in range(int(rest))]

    def ask(self, *words):
        self.send([[word if isinstance(word, bytes) else str(word).encode() for word in words]])
        return self.reply()


def started(port, folder, *more):
    """A redis-server of a cluster, which has no slots yet. More words are options of its own."""
    words = ["redis-server", "--port", str(port), "--bind", "127.0.0.1", "--dir", str(folder), "--save", ""]
    words += ["--cluster-enabled", "yes", "--cluster-config-file", f"nodes-{port}.conf", *more]
    return subprocess.Popen(words, stdout=subprocess.DEVNULL)


def serves(connection):
    """Waits until the server of a cluster serves all slots. Whether it does."""
    until = time.monotonic() + SECONDS
    while time.monotonic() < until:
        if b"cluster_state:ok" in connection.ask("CLUSTER", "INFO")[1]:
            return True
        time.sleep(0.1)
    return False
