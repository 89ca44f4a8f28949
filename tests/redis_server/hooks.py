"""What stands before servers and is asked before each request goes on, and what makes their bus slow."""

import contextlib
import functools
import random
import threading
import time
import traceback

from between import Between
from servers import BUS


def first_request(data):
    """The words of the first request, and where it ends; nothing where it is not whole. A line that is no array has no
    words."""
    if not data.startswith(b"*"):
        end = data.find(b"\n") + 1
        return ([], end) if end else None
    count, at = number_in(data, 0)
    words = []
    while at and len(words) < (count or 0):
        length, start = number_in(data, at)
        if not start or start + length + 2 > len(data):
            return None
        words.append(data[start:start + length])
        at = start + length + 2
    return (words, at) if at else None


def number_in(data, at):
    """The number behind the mark that lies there, and where its line ends; nothing where that has not come."""
    end = data.find(b"\r\n", at)
    return (int(data[at + 1:end]), end + 2) if end > at else (None, None)


class Hooks:
    """Stands at a port of its own before each of some servers: `ports` says by node which one, and which is the
    server's. A request goes on once `before`, a function of the node and the request's words, has returned. What it
    raises is kept in `wrong`, and the request goes on."""

    def __init__(self, ports):
        self.ports, self.stack, self.before, self.wrong = ports, contextlib.ExitStack(), None, []

    def __enter__(self):
        for node, (front, to) in self.ports.items():
            self.stack.enter_context(Between(front, to, functools.partial(self.change, node)))
        return self

    def __exit__(self, *_):
        self.before = None
        self.stack.close()

    def change(self, node, data, is_answer, link):
        return data if is_answer else self.passed_on(node, data, link)

    def passed_on(self, node, data, link):
        """The requests that have come whole, one after the other."""
        waiting = link.get("waiting", b"") + data
        while found := first_request(waiting):
            words, end = found
            self.ask(node, words)
            yield waiting[:end]
            waiting = waiting[end:]
        link["waiting"] = waiting

    def ask(self, node, words):
        before = self.before
        if before and words:
            try:
                before(node, words)
            except BaseException:
                self.wrong.append(traceback.format_exc())


class SlowBus:
    """Stands before the ports at which some servers hear each other, and passes on what comes in its order. What the
    nodes hear that are `late` takes up to `seconds`, and what comes back to those who ask them only where all
    are late. `ports` are those to announce, by node, and `to` is the first server's."""

    def __init__(self, ports, to, seed=0):
        self.ports, self.to, self.late, self.seconds = ports, to, set(), 0
        self.random, self.stack = random.Random(seed), contextlib.ExitStack()

    def __enter__(self):
        for node, port in self.ports.items():
            change = functools.partial(self.change, node)
            self.stack.enter_context(Between(port, self.to + node + BUS, change))
        return self

    def __exit__(self, *_):
        self.late = set()
        self.stack.close()

    def change(self, node, data, is_answer, _):
        if node in self.late and not (is_answer and len(self.late) < len(self.ports)):
            time.sleep(self.random.uniform(0, self.seconds))
        return data

    @contextlib.contextmanager
    def slow(self, late, seconds=0.04):
        self.late, self.seconds = set(late), seconds
        yield
        self.late = set()


# Where the sender's ID stands in a packet of the bus.
SENDER = slice(40, 80)


class HeldBus:
    """Stands before the ports at which servers hear each other, and holds back what one of them, the `hearer`, is to
    hear from another one, the `teller`, over either's connection, until that is let go. `ids` are the servers' IDs,
    once these have any; `ports` are those to announce, by node, and `to` is the first server's."""

    def __init__(self, ports, to):
        self.ports, self.to, self.ids, self.stack = ports, to, [], contextlib.ExitStack()
        self.pair, self.free = None, threading.Event()
        self.free.set()

    def __enter__(self):
        for node, port in self.ports.items():
            self.stack.enter_context(Between(port, self.to + node + BUS, functools.partial(self.change, node)))
        return self

    def __exit__(self, *_):
        self.let_go()
        self.stack.close()

    def change(self, node, data, is_answer, link):
        if not is_answer and data[:4] == b"RCmb":
            link["from"] = data[SENDER].decode(errors="replace")
        if self.pair and link.get("from") in self.ids:
            other = self.ids.index(link["from"])
            if ((other, node) if is_answer else (node, other)) == self.pair:
                self.free.wait(10)
        return data

    def hold(self, hearer, teller):
        self.pair = hearer, teller
        self.free.clear()

    def let_go(self):
        self.pair = None
        self.free.set()
