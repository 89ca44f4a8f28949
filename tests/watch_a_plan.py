#!/usr/bin/env python3
"""Clients that count while a plan runs: servers of three nodes, and eight clients that count at 800 keys while a plan
moves 10,922 slots.

usage: tests/watch_a_plan.py PROGRAM [SECONDS]

Each client adds 1 to one of its keys after the other, goes where MOVED and ASK say, and compares each number that it is
answered with the one that has to come. They begin as soon as the ports are open, which is when the plan begins, and end
SECONDS (3 unless it is given) after it is done. What the servers print is printed, then how many replies were compared
and how many redirections were followed, while the plan ran and after it. The last line is 'N passed, M failed', a reply
each; the status is 1 where one was wrong."""

import argparse
import pathlib
import subprocess
import sys
import threading
import time

TESTS = pathlib.Path(__file__).resolve().parent
sys.dont_write_bytecode = True
sys.path.insert(0, str(TESTS / "redis_server"))

from connection import Connection  # noqa: E402

PLAN = TESTS.parent / "examples" / "thousands-of-slots.plan"
PORT = 17180
NODES = 3
CLIENTS = 8
KEYS_EACH = 100
SECONDS = 60


class Counting(threading.Thread):
    """A client that counts until it is told to end."""

    def __init__(self, number, is_done, is_over):
        super().__init__(daemon=True)
        self.keys = [b"key:%d:%d" % (number, key) for key in range(KEYS_EACH)]
        self.counts = dict.fromkeys(self.keys, 0)
        self.node = dict.fromkeys(self.keys, 0)
        self.is_done, self.is_over = is_done, is_over
        self.right, self.followed, self.wrong = [0, 0], [0, 0], []

    def run(self):
        nodes = [Connection(PORT + node) for node in range(NODES)]
        try:
            while not self.is_over.is_set():
                for key in self.keys:
                    self.count(nodes, key)
        except (OSError, SystemExit) as error:
            self.wrong.append(f"{error!r}")

    def count(self, nodes, key):
        after = int(self.is_done.is_set())
        reply, node, asks = self.sent(nodes, self.node[key], key, False), self.node[key], False
        while reply[0] == "-" and reply[1].split()[0] in (b"MOVED", b"ASK", b"TRYAGAIN"):
            self.followed[after] += 1
            if reply[1].startswith((b"MOVED", b"ASK")):
                node, asks = int(reply[1].rsplit(b":", 1)[1]) - PORT, reply[1].startswith(b"ASK")
            if reply[1].startswith(b"MOVED"):
                self.node[key] = node
            reply = self.sent(nodes, node, key, asks)
        self.counts[key] += 1
        if reply == (":", self.counts[key]):
            self.right[after] += 1
        else:
            self.wrong.append(f"{key}: wanted {self.counts[key]}, answered {reply}")
            self.counts[key] = reply[1] if reply[0] == ":" else self.counts[key]

    @staticmethod
    def sent(nodes, node, key, asking):
        requests = [[b"ASKING"]] * asking + [[b"INCR", key]]
        nodes[node].send(requests)
        return [nodes[node].reply() for _ in requests][-1]


def watch(program, seconds):
    words = [program, "serve", "--nodes", str(NODES), "--base-port", str(PORT), "--workers", "32", "--plan"]
    is_done, is_over = threading.Event(), threading.Event()
    clients = [Counting(number, is_done, is_over) for number in range(CLIENTS)]
    with PLAN.open() as plan:
        servers = subprocess.Popen(words, stdin=plan, stdout=subprocess.PIPE, text=True)
    try:
        for client in clients:
            client.start()
        begun = time.monotonic()
        for _ in range(3):
            print(servers.stdout.readline(), end="", flush=True)
        took = time.monotonic() - begun
        is_done.set()
        time.sleep(seconds)
        is_over.set()
        for client in clients:
            client.join(SECONDS)
    finally:
        servers.kill()
        servers.wait()
    for after, when in enumerate((f"in the {took:.1f} s up to the plan's end", f"in the {seconds} s after it")):
        right = sum(client.right[after] for client in clients)
        print(f"{when}: {right} replies, {sum(client.followed[after] for client in clients)} redirections")
    return sum(sum(client.right) for client in clients), [it for client in clients for it in client.wrong]


def main():
    reader = argparse.ArgumentParser(description=__doc__, formatter_class=argparse.RawDescriptionHelpFormatter)
    reader.add_argument("program", type=pathlib.Path)
    reader.add_argument("seconds", type=int, nargs="?", default=3)
    given = reader.parse_args()
    right, wrong = watch(given.program.resolve(), given.seconds)
    print("\n".join(wrong[:5]), end="\n" if wrong else "")
    print(f"{right} passed, {len(wrong)} failed")
    return int(bool(wrong) or not right)


sys.exit(main())
