#!/usr/bin/env python3
"""Clients that misbehave: tries servers with them, beside a client that does not.

usage: tests/try_hostile_clients.py PROGRAM [--connections C] [--seed S]

PROGRAM serves two nodes on loopback. C connections, 1,000 unless the words say otherwise, come one after the other, and
each does one bad thing: it leaves in the middle of a header, names a length of 2^63, sends 1,025 words, sends 8 MB
without a line end, is reset between its request and the reply, never reads, or sends one byte a second. Each is to get
what its kind gets: a fault's line and then the end, the end alone, or nothing, after which the next connection is
served. Beside them one client sends commands and compares each reply with the slow definitions in tests/hostile. No
request of a bad client is a call of a node, so the servers have to count exactly the good client's at their end.
Nothing is installed, and the same seed gives the same connections. The longest time that the good client waited is
printed. The last line is 'N passed, M failed', and the status is 1 where one failed."""

import argparse
import pathlib
import queue
import random
import socket
import struct
import subprocess
import sys
import threading
import time

sys.dont_write_bytecode = True
sys.path.insert(0, str(pathlib.Path(__file__).resolve().parent / "hostile"))

import scripts  # noqa: E402
import wire  # noqa: E402
from cluster import Cluster  # noqa: E402
from hash_slots import even_split, slot_of  # noqa: E402

NODES = 2
WORKERS = 16
SLOW_AT_ONCE = 6
FIRST_PORT, LAST_PORT, STEP = 17200, 17290, 10
SECONDS = 60
LONGEST = 10.0
PAUSE = 0.002
TOO_LARGE = b"-ERR Protocol error: 5 TooLarge\r\n"
NOT_ARRAY = b"-ERR Protocol error: 1 NotArray\r\n"
SHOWN = 5


def request(*words):
    return b"*%d\r\n" % len(words) + b"".join(b"$%d\r\n%s\r\n" % (len(word), word) for word in words)


def all_of(connection):
    """What comes until the other end closes."""
    found = b""
    try:
        while piece := connection.recv(65536):
            found += piece
    except ConnectionError:
        pass
    return found


def send(connection, text):
    """Sends as much as the other end takes."""
    try:
        connection.sendall(text)
    except ConnectionError:
        pass


def ends(connection):
    """Sends no more, and gives what comes until the other end closes."""
    try:
        connection.shutdown(socket.SHUT_WR)
    except OSError:
        pass
    return all_of(connection)


def leaves_in_a_header(connection, chance):
    whole = request(b"SET", b"b", b"1")
    send(connection, whole[:chance.randrange(1, len(whole) - 1)])
    return ends(connection) == b""


def names_a_long_text(connection, chance):
    send(connection, b"*1\r\n$%d\r\n" % (2 ** 63 + chance.randrange(100)))
    return all_of(connection) == TOO_LARGE


def sends_many_words(connection, chance):
    """What was sent and is not read may reset the connection before its reply came."""
    send(connection, request(*[b"x" * chance.randrange(9) for _ in range(1025)]))
    return all_of(connection) in (TOO_LARGE, b"")


def sends_no_line_end(connection, chance):
    begun = chance.choice([b"*", b"*1\r\n$", b"$", b"x"])
    send(connection, begun + chance.choice([b"1", b"x"]) * 8_000_000)
    found = all_of(connection)
    return found == b"" or found.startswith(b"-ERR Protocol error: ")


def is_reset(connection, chance):
    connection.setsockopt(socket.SOL_SOCKET, socket.SO_LINGER, struct.pack("ii", 1, 0))
    send(connection, request(b"PING", b"x" * chance.randrange(1000)))
    connection.close()
    return True


def never_reads(connection, chance):
    connection.setsockopt(socket.SOL_SOCKET, socket.SO_RCVBUF, 4096)
    connection.settimeout(0.05)
    try:
        for _ in range(chance.randrange(20, 60)):
            connection.sendall(request(b"PING", b"x" * 60_000))
    except (TimeoutError, ConnectionError):
        pass
    connection.close()
    return True


def sends_slowly(connection, chance):
    first, second = chance.choice([b"*1", b"*3", b"$1"])
    send(connection, bytes([first]))
    time.sleep(1)
    send(connection, bytes([second]))
    return ends(connection) == (NOT_ARRAY if first == ord("$") else b"")


def is_next_served(port):
    """Whether a connection that comes now is served."""
    with connected(port) as connection:
        connection.sendall(request(b"PING"))
        connection.shutdown(socket.SHUT_WR)
        return all_of(connection) == b"+PONG\r\n"


BAD = [leaves_in_a_header, names_a_long_text, sends_many_words, sends_no_line_end, is_reset, never_reads, sends_slowly]
# After these the next connection is looked at.
GONE = (is_reset, never_reads)


def connected(port):
    connection = socket.create_connection(("127.0.0.1", port), timeout=SECONDS)
    connection.setsockopt(socket.IPPROTO_TCP, socket.TCP_NODELAY, 1)
    return connection


def is_as_expected(port, bad, seed):
    with connected(port) as connection:
        is_right = bad(connection, random.Random(seed))
    return is_right and (bad not in GONE or is_next_served(port))


class Good:
    """A client that sends commands to both nodes until it is told to end, by a thread of its own."""

    def __init__(self, port, seed):
        self.connections = [connected(port + node) for node in range(NODES)]
        self.chance = random.Random(seed)
        self.owners = even_split(NODES)
        self.wanted = scripts.Rehearsal(Cluster(NODES, self.owners))
        self.calls, self.longest, self.wrong = 0, 0.0, []
        self.is_over = threading.Event()
        self.thread = threading.Thread(target=self.run)
        self.thread.start()

    def words(self):
        key = b"key:%d" % self.chance.randrange(40)
        value = b"%d" % self.chance.randrange(1000)
        return self.chance.choice([
            [b"SET", key, value], [b"GET", key], [b"INCR", key], [b"APPEND", key, b"1"], [b"DEL", key],
            [b"EXISTS", key], [b"STRLEN", key],
        ])

    def run(self):
        try:
            while not self.is_over.is_set():
                self.call(self.words())
                time.sleep(PAUSE)
        except Exception as error:
            self.wrong.append(f"the good client ended early: {error!r}")
        for connection in self.connections:
            connection.close()

    def call(self, words):
        node = self.owners[slot_of(words[1])]
        wanted = wire.encoded(self.wanted.answer(node, False, words))
        begun = time.monotonic()
        self.connections[node].sendall(request(*words))
        found = b""
        while len(found) < len(wanted) and (piece := self.connections[node].recv(65536)):
            found += piece
        self.longest = max(self.longest, time.monotonic() - begun)
        self.calls += 1
        if found != wanted:
            self.wrong.append(f"{words}: wanted {wanted!r}, answered {found!r}")

    def end(self):
        self.is_over.set()
        self.thread.join()


def slow_ones(given, wrong):
    """Ends connections that take their time, while others come."""
    while (it := given.get()) is not None:
        try_one(*it, wrong)


def try_one(port, bad, seed, wrong):
    try:
        if not is_as_expected(port, bad, seed):
            wrong.append(f"{bad.__name__}, with the seed {seed}: another end than wanted")
    except OSError as error:
        wrong.append(f"{bad.__name__}, with the seed {seed}: {error}")


def misbehave(port, connections, seed):
    """So many bad connections, the nodes in turn. What was wrong."""
    wrong, slow = [], queue.Queue(maxsize=1)
    threads = [threading.Thread(target=slow_ones, args=(slow, wrong)) for _ in range(SLOW_AT_ONCE)]
    for thread in threads:
        thread.start()
    for number in range(connections):
        bad = BAD[(number // NODES) % len(BAD)]
        it = (port + number % NODES, bad, seed * 1_000_003 + number)
        if bad is sends_slowly:
            slow.put(it)
        else:
            try_one(*it, wrong)
    for _ in threads:
        slow.put(None)
    for thread in threads:
        thread.join()
    return wrong


def free_port():
    """A port with its followers that nobody listens at."""
    for port in range(FIRST_PORT, LAST_PORT, STEP):
        try:
            for node in range(NODES):
                with socket.socket() as tried:
                    tried.setsockopt(socket.SOL_SOCKET, socket.SO_REUSEADDR, 1)
                    tried.bind(("127.0.0.1", port + node))
            return port
        except OSError:
            continue
    raise SystemExit("try_hostile_clients: no port is free")


def connections_each(connections):
    """How many connections come to each node: the bad ones, those after the ones that are gone, and the good one."""
    kinds = [BAD[number % len(BAD)] for number in range(connections // NODES)]
    return len(kinds) + sum(kind in GONE for kind in kinds) + 1


def tried(program, connections, seed):
    """How many of the connections and of the good client's calls were as they have to be, and what was not."""
    port = free_port()
    words = [program, "serve", "--nodes", str(NODES), "--base-port", str(port), "--workers", str(WORKERS)]
    words += ["--connections", str(connections_each(connections))]
    servers = subprocess.Popen(words, stdin=subprocess.DEVNULL, stdout=subprocess.PIPE, text=True)
    try:
        begun = servers.stdout.readline()
        if begun != f"serving {NODES} nodes from port {port}\n":
            return 0, [f"the servers did not begin: {begun!r}"]
        good = Good(port, seed)
        wrong = misbehave(port, connections, seed)
        good.end()
        ended, _ = servers.communicate(timeout=SECONDS)
    finally:
        servers.kill()
        servers.wait()
    print(f"{connections} bad connections beside {good.calls} calls, the longest of {good.longest:.3f} seconds")
    wrong += good.wrong
    if good.longest > LONGEST:
        wrong.append(f"the good client waited {good.longest:.3f} seconds")
    if ended != f"closed {good.calls} events\n" or servers.returncode != 0:
        wrong.append(f"wanted {good.calls} events, and the servers printed {ended!r}, status {servers.returncode}")
    return max(0, connections + good.calls + 1 - len(wrong)), wrong


def main():
    words = argparse.ArgumentParser(prog="tests/try_hostile_clients.py")
    words.add_argument("program")
    words.add_argument("--connections", type=int, default=1000)
    words.add_argument("--seed", type=int, default=1)
    given = words.parse_args()
    if given.connections % NODES:
        words.error(f"the connections have to be a multiple of {NODES}")
    right, wrong = tried(str(pathlib.Path(given.program).resolve()), given.connections, given.seed)
    print("\n".join(wrong[:SHOWN]), end="\n" if wrong else "")
    print(f"{right} passed, {len(wrong)} failed")
    return int(bool(wrong))


if __name__ == "__main__":
    sys.exit(main())
