#!/usr/bin/env python3
"""Real clients: runs Redis's own clients, and clients of a Redis Cluster in several languages, against servers of a
program.

usage: tests/real_clients.py PROGRAM [WORD]

Nothing is installed: redis-cli and redis-benchmark (Debian's package redis-tools) and the clients of
tests/cluster_clients are used where they are, and a check whose client is missing is skipped, with a line that names
it. With a WORD, only the checks run whose names have it. The last line is 'N passed, M failed, K skipped'; the status
is 1 where a check failed."""

import pathlib
import shutil
import socket
import subprocess
import sys
import time

TESTS = pathlib.Path(__file__).resolve().parent
sys.dont_write_bytecode = True
sys.path[:0] = [str(TESTS / "cluster_clients"), str(TESTS / "redis_server")]

from clients import CLIENTS, KEYS, has_counted  # noqa: E402
from plans import round_of  # noqa: E402

SECONDS = 120
# For how long a client of a cluster counts.
COUNTED = 3
PLAN = "reshard-plan 1\nmove 0-4095 from n0 to n1 by 10\nend\n"


class Servers:
    """The program, which serves until it is told to end."""

    def __init__(self, program, port, *words, plan=None):
        words = [program, "serve", "--base-port", str(port), *words]
        if plan is not None:
            words.append("--plan")
        self.ran = subprocess.Popen(words, stdin=subprocess.PIPE, stdout=subprocess.PIPE, text=True)
        if plan is not None:
            self.ran.stdin.write(plan)
        self.ran.stdin.close()

    def __enter__(self):
        return self

    def __exit__(self, *_):
        self.ran.kill()
        self.ran.wait()

    def line(self):
        return self.ran.stdout.readline().rstrip("\n")


def client(port, lines, *words):
    """What redis-cli prints of these commands, a line each."""
    text = "".join(f"{line}\n" for line in lines)
    ran = subprocess.run(
        ["redis-cli", "-p", str(port), *words], input=text, capture_output=True, text=True, timeout=SECONDS
    )
    return [line for line in ran.stdout.splitlines() if not line.startswith("-> Redirected")]


def is_redirected(program):
    """redis-cli -c sets and gets keys of all nodes through one of them."""
    with Servers(program, 17100, "--nodes", "3") as servers:
        if servers.line() != "serving 3 nodes from port 17100":
            return False
        keys = [f"key:{number}" for number in range(60)]
        made = client(17100, [f"set {key} {key}" for key in keys], "-c")
        read = client(17102, [f"get {key}" for key in keys], "-c")
        return made == ["OK"] * len(keys) and [line.strip('"') for line in read] == keys


def follows_a_plan(program):
    """Each value is what was set last, while a plan moves its slot and afterwards."""
    with Servers(program, 17110, "--nodes", "3", "--workers", "8", plan=PLAN) as servers:
        said = [servers.line(), servers.line()]
        wrong = 0
        for turn in range(5):
            keys = [f"key:{number}" for number in range(200)]
            made = client(17110, [f"set {key} {turn}" for key in keys], "-c")
            read = client(17111, [f"get {key}" for key in keys], "-c")
            wrong += made != ["OK"] * len(keys)
            wrong += [line.strip('"') for line in read] != [str(turn)] * len(keys)
        done = servers.line()
        moved = client(17110, ["get b"])
        return (
            said == ["verified 24576 commands", "serving 3 nodes from port 17110"]
            and done.startswith("done ")
            and wrong == 0
            and any("MOVED 3300 127.0.0.1:17111" in line for line in moved)
        )


def ends_with_its_connections(program):
    """A program that accepts one connection ends with it, and reports its calls."""
    with Servers(program, 17120, "--nodes", "1", "--connections", "1") as servers:
        first = servers.line()
        made = client(17120, ["set b 1", "get b"])
        last = servers.line()
        status = servers.ran.wait(SECONDS)
        served = [first, last] == ["serving 1 nodes from port 17120", "closed 2 events"]
        return served and len(made) == 2 and status == 0


def hears_no_questions(program):
    """Without --answers-clients what clients ask beside their commands is unknown, and QUIT leaves the connection."""
    asked = ["hello 2", "info", "command count", "cluster nodes", "cluster myid", "client id", "readonly", "echo x"]
    with Servers(program, 17150, "--nodes", "2", "--workers", "1") as servers:
        servers.line()
        said = [line for line in client(17150, [*asked, "cluster countkeysinslot 1", "ping"]) if line]
        own = ["ERR this command belongs to the administrator's seat", "PONG"]
        return said == ["ERR unknown command"] * len(asked) + own and quit_leaves(17150)


def quit_leaves(port):
    """Whether a request behind QUIT is answered, too."""
    with socket.create_connection(("127.0.0.1", port), SECONDS) as plain:
        plain.sendall(b"*1\r\n$4\r\nQUIT\r\n*1\r\n$4\r\nPING\r\n")
        said = b""
        while not said.endswith(b"PONG\r\n"):
            piece = plain.recv(4096)
            if not piece:
                break
            said += piece
    return said == b"-ERR unknown command\r\n+PONG\r\n"


def outlives_strangers(program):
    """Half a request, garbage and a client that goes away at once leave the worker to the next client."""
    with Servers(program, 17130, "--nodes", "1", "--workers", "1") as servers:
        servers.line()
        for text in (b"*2\r\n$3\r\nGE", b"no request\r\n", b""):
            with_socket(17130, text)
        return client(17130, ["set b 1"]) == ["OK"]


def with_socket(port, text):
    with socket.create_connection(("127.0.0.1", port), SECONDS) as stranger:
        stranger.sendall(text)


def is_measured(program):
    """redis-benchmark comes to its end at one node."""
    with Servers(program, 17140, "--nodes", "1", "--workers", "16") as servers:
        servers.line()
        words = ["redis-benchmark", "-p", "17140", "-t", "set,get,incr,lpush,hset,sadd"]
        words += ["-n", "100000", "-c", "16", "-q"]
        ran = subprocess.run(words, capture_output=True, text=True, timeout=SECONDS)
        return ran.returncode == 0 and ran.stdout.count("requests per second") == 6


def cluster(program, port, nodes, moved):
    """Servers that answer what clients of a cluster ask first, while each node's first slots move to the next node."""
    words = ["--nodes", str(nodes), "--workers", "32", "--answers-clients"]
    return Servers(program, port, *words, plan=round_of(nodes, moved))


def is_served(servers, nodes):
    """Whether the servers print that the plan was verified, and then that they serve."""
    said = [servers.line(), servers.line()]
    return said[0].startswith("verified ") and said[1].startswith(f"serving {nodes} nodes")


def counts(counting, nodes, port):
    """The client counts right from before the plan's first move until after its last one."""

    def check(program):
        started = counting.start(port, COUNTED)
        try:
            with cluster(program, port, nodes, counting.moved) as servers:
                is_done = is_served(servers, nodes) and servers.line().startswith("done ")
                still_counts = started.poll() is None
                return has_counted(started) and is_done and still_counts
        finally:
            started.kill()
            started.wait()

    return check


def redis_cli_counts(nodes, port):
    """redis-cli -c counts right, round after round, while slots move."""
    keys = [f"{name}:{number}" for name in ("count", "{counts}") for number in range(KEYS // 2)]
    rounds = 20

    def check(program):
        with cluster(program, port, nodes, 2048) as servers:
            served = is_served(servers, nodes)
            told = [client(port, [f"incr {key}" for key in keys], "-c") for _ in range(rounds)]
            is_done = servers.line().startswith("done ")
            read = client(port, [f"get {key}" for key in keys], "-c")
        right = all(said == [str(number)] * len(keys) for number, said in enumerate(told, 1))
        return served and is_done and right and [line.strip('"') for line in read] == [str(rounds)] * len(keys)

    return check


def redis_benchmark_counts(nodes, port):
    """redis-benchmark --cluster comes to its end while slots move, and meets no error afterwards. It does not send
    again what was redirected, so errors are looked for once the plan is done; it takes no cluster of one node."""

    def count():
        words = ["redis-benchmark", "-p", str(port), "-t", "incr", "-r", "1000", "-e"]
        words += ["-n", "20000", "-c", "8", "-q", *["--cluster"] * (nodes > 1)]
        ran = subprocess.run(words, capture_output=True, text=True, timeout=SECONDS)
        if ran.returncode or "requests per second" not in ran.stdout:
            print(f"  status {ran.returncode}: {ran.stdout[-500:]}{ran.stderr[-500:]}")
            return None
        return "Error" not in ran.stdout + ran.stderr

    def check(program):
        with cluster(program, port, nodes, 2048) as servers:
            beside = is_served(servers, nodes) and count() is not None
            return beside and servers.line().startswith("done ") and count() is True

    return check


def named(name, check):
    check.__name__ = name
    return check


def checks():
    """Each check with the name of its client, Debian's package that has it, and whether it is there."""
    tools = [
        ("redis-cli", is_redirected),
        ("redis-cli", follows_a_plan),
        ("redis-cli", ends_with_its_connections),
        ("redis-cli", outlives_strangers),
        ("redis-cli", hears_no_questions),
        ("redis-benchmark", is_measured),
    ]
    port = 18100
    for nodes in (1, 8):
        told, measured = redis_cli_counts(nodes, port), redis_benchmark_counts(nodes, port + 10)
        tools.append(("redis-cli", named(f"redis_cli_counts_at_{nodes}", told)))
        tools.append(("redis-benchmark", named(f"redis_benchmark_counts_at_{nodes}", measured)))
        port += 20
    for tool, check in tools:
        yield tool, "redis-tools", shutil.which(tool) is not None, check
    for counting in CLIENTS:
        is_there = counting.is_there()
        for nodes in (1, 8):
            name = f"{counting.name.replace('-', '_')}_counts_at_{nodes}"
            yield counting.name, counting.package, is_there, named(name, counts(counting, nodes, port))
            port += 10


def main():
    if len(sys.argv) not in (2, 3):
        print("usage: tests/real_clients.py PROGRAM [WORD]", file=sys.stderr)
        return 2
    program = str(pathlib.Path(sys.argv[1]).resolve())
    word = sys.argv[2] if len(sys.argv) > 2 else ""
    passed = failed = skipped = 0
    for tool, package, is_there, check in checks():
        if word not in check.__name__:
            continue
        if not is_there:
            skipped += 1
            print(f"skipped {check.__name__}: {tool} is not installed (Debian's package {package})")
            continue
        began = time.monotonic()
        try:
            well = check(program)
        except (OSError, subprocess.SubprocessError, SystemExit) as error:
            print(f"  {error}")
            well = False
        passed += well
        failed += not well
        print(f"{'passed' if well else 'FAILED'} {check.__name__} in {time.monotonic() - began:.1f} s", flush=True)
    print(f"{passed} passed, {failed} failed, {skipped} skipped")
    return 1 if failed else 0


if __name__ == "__main__":
    sys.exit(main())
