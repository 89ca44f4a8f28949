"""Clients of a Redis Cluster that count: how each is run, and what it has to tell."""

import dataclasses
import os
import pathlib
import re
import subprocess
import sys
import tempfile

HERE = pathlib.Path(__file__).resolve().parent
KEYS = 200
SECONDS = 60
TOLD = re.compile(r"(\d+) rounds, (\d+) wrong, (\d+) held")


@dataclasses.dataclass(frozen=True)
class Client:
    """A client by name, Debian's package that has it, the words that run it, and words that succeed where it is there.
    So many slots of each node move while it counts at eight nodes."""

    name: str
    package: str
    words: tuple
    probe: tuple
    variables: tuple = ()
    moved: int = 2048

    def environment(self):
        return {**os.environ, **dict(self.variables)}

    def is_there(self):
        try:
            ran = subprocess.run(self.probe, env=self.environment(), capture_output=True, timeout=SECONDS)
        except (OSError, subprocess.SubprocessError):
            return False
        return ran.returncode == 0

    def start(self, port, seconds):
        """The client, which says that it is ready, and then waits for servers at the port."""
        words = [*self.words, str(port), str(seconds)]
        pipe = subprocess.PIPE
        # Without a buffer nothing is lost between the first line and the rest.
        started = subprocess.Popen(words, env=self.environment(), stdout=pipe, stderr=pipe, bufsize=0)
        if started.stdout.readline() != b"ready\n":
            started.kill()
            raise OSError(f"{self.name} does not start: {started.communicate()[1].decode()}")
        return started


def has_counted(started):
    """Whether the client counted to its end, and each number that it saw was right."""
    told, faults = (text.decode(errors="replace") for text in started.communicate(timeout=SECONDS))
    found = TOLD.fullmatch(told.rstrip("\n"))
    if started.returncode != 0 or not found:
        print(f"  status {started.returncode}: {told}{faults[-1000:]}")
        return False
    rounds, wrong, held = map(int, found.groups())
    if wrong or not rounds or held != rounds * KEYS:
        print(f"  {told.rstrip()}")
        return False
    return True


def script(name):
    return str(HERE / name)


# What Go's compiler makes goes there, and goes with the end of the tests.
MADE = tempfile.TemporaryDirectory()
GO = (("GO111MODULE", "off"), ("GOPATH", "/usr/share/gocode"), ("GOCACHE", f"{MADE.name}/cache"), ("GOFLAGS", ""))
PHP = ("php", "-d", "display_errors=stderr")
NODE = (("NODE_PATH", "/usr/share/nodejs:/usr/lib/nodejs"),)
PYTHON = "/usr/bin/python3" if pathlib.Path("/usr/bin/python3").exists() else sys.executable

CLIENTS = [
    Client("redis-py", "python3-redis", (PYTHON, script("redis_py.py")), (PYTHON, "-c", "import redis.cluster")),
    Client(
        "phpredis",
        "php-redis",
        (*PHP, script("phpredis.php")),
        ("php", "-r", "exit(class_exists('RedisCluster') ? 0 : 1);"),
        # It crashes (SIGSEGV) in some runs in which all slots move within a second, whatever else it is answered.
        moved=20,
    ),
    Client(
        "predis",
        "php-predis",
        (*PHP, script("predis.php")),
        ("php", "-r", "exit((@include 'Predis/Autoloader.php') ? 0 : 1);"),
    ),
    Client(
        "node-redis",
        "node-redis",
        ("node", script("node_redis.js")),
        ("node", "-e", "process.exit(require('redis').createCluster ? 0 : 1)"),
        NODE,
    ),
    Client("redis-rb", "ruby-redis", ("ruby", script("redis_rb.rb")), ("ruby", "-r", "redis", "-e", "Redis::Cluster")),
    Client(
        "redisc",
        "golang-github-mna-redisc-dev, and golang-go",
        (f"{MADE.name}/redisc",),
        ("go", "build", "-o", f"{MADE.name}/redisc", script("redisc.go")),
        GO,
    ),
]
