#!/usr/bin/env python3
"""Replies beside a redis-server: sends commands by chance to one node of a program and to a redis-server, and compares
each pair of replies.

usage: tests/compare_with_redis.py PROGRAM [COUNT] [SEED]

Both are one node that owns all slots. All commands but ASKING and CLUSTER SLOTS are sent, most with keys of one slot,
some with keys of several, with a word too few or too many, or with a name in small letters. docs/SANDBOX.md says
which replies differ from Redis's, and what leads to one of those is not sent. What a set or a hash lists is compared
without its order. COUNT is 20,000 unless it is given, and SEED 1.

Nothing is installed: redis-server (Debian's package of that name) is used where it is, and else the comparison is
skipped. The last line is 'N passed, M failed', a reply each; the status is 1 where one differs."""

import pathlib
import subprocess
import sys
import tempfile

sys.dont_write_bytecode = True
sys.path.insert(0, str(pathlib.Path(__file__).resolve().parent / "redis_server"))

from commands import Commands, in_no_order  # noqa: E402
from comparing import main  # noqa: E402
from connection import Connection, serves, started  # noqa: E402

REDIS_PORT = 17160
NODE_PORT = 17161
AT_A_TIME = 50

KEYS = [b"key:%d{t}" % number for number in range(8)] + [b"x{t}y{u}"]
OTHER_KEYS = [b"a", b"b", b"{}x", b"{t", b"}t{", b"\x00\xff{t}"]


def without_order(words, reply):
    mark, carried = reply
    return (mark, in_no_order(words[0].upper(), carried)) if isinstance(carried, list) else reply


def compare(count, seed):
    """How many replies are equal, and how many are not."""
    redis, node = Connection(REDIS_PORT), Connection(NODE_PORT)
    commands = Commands(seed, KEYS, OTHER_KEYS, 0.04)
    equal = others = 0
    while equal + others < count:
        requests = [commands.next() for _ in range(AT_A_TIME)]
        redis.send(requests)
        node.send(requests)
        for words in requests:
            wanted, found = redis.reply(), node.reply()
            if without_order(words, wanted) == without_order(words, found):
                equal += 1
                continue
            others += 1
            if others <= 10:
                print(f"{words}: Redis answers {wanted}, and the node {found}")
    return equal, others


def compare_servers(program, count, seed):
    node = [program, "serve", "--nodes", "1", "--base-port", str(NODE_PORT)]
    begun = []
    with tempfile.TemporaryDirectory() as folder:
        try:
            begun.append(started(REDIS_PORT, folder))
            begun.append(subprocess.Popen(node, stdout=subprocess.DEVNULL))
            redis = Connection(REDIS_PORT)
            redis.ask("CLUSTER", "ADDSLOTSRANGE", 0, 16383)
            if not serves(redis):
                print("the redis-server serves no slots")
                return 0, 1
            return compare(count, seed)
        finally:
            for server in begun:
                server.kill()
                server.wait()


sys.exit(main(__doc__, "replies beside a redis-server", compare_servers, 20_000))
