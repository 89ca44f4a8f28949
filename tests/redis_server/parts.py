"""Tests of the program at clusters of redis-servers, in parts: each starts servers of its own, and tells what was
checked."""

import argparse
import contextlib
import os
import pathlib
import re
import shutil
import signal
import subprocess
import tempfile
import time
import traceback

from servers import Servers, keys_in

PORTS_A_PART = 12
SECONDS = 300
ENVIRONMENT = {name: value for name, value in os.environ.items()
               if not name.startswith("RESHARD_") and name != "REDISCLI_AUTH"}


def plan_of(*lines, version=1):
    return "".join(f"{line}\n" for line in [f"reshard-plan {version}", *lines, "end"])


def wait_until(holds, seconds=60):
    """Whether it holds before the time is up."""
    until = time.monotonic() + seconds
    while time.monotonic() < until:
        if holds():
            return True
        time.sleep(0.02)
    return False


class Ran:
    """A run of the program: its status and what it printed."""

    def __init__(self, status, out, err):
        self.status, self.out, self.err = status, out, err

    def __str__(self):
        return f"status {self.status}, {self.out[-300:]!r}, {self.err[-300:]!r}"


class Running:
    """The program while it runs, with its outputs in files."""

    def __init__(self, program, folder, words, plan, environment, errors):
        self.out, self.err = folder / "standard-output", folder / "standard-error"
        self.peak = 0
        given = folder / "plan"
        given.write_text(plan)
        with given.open() as plan, self.out.open("w") as out, self.err.open("w") as err:
            self.process = subprocess.Popen(
                [program, *map(str, words)], stdin=plan, stdout=out, stderr=err if errors is None else errors,
                env={**ENVIRONMENT, **environment},
            )

    def is_running(self):
        with contextlib.suppress(OSError):
            status = pathlib.Path(f"/proc/{self.process.pid}/status").read_text()
            peak = re.search(r"VmHWM:\s+(\d+) kB", status)
            self.peak = max(self.peak, int(peak.group(1)) if peak else 0)
        return self.process.poll() is None

    def end(self, seconds=SECONDS):
        until = time.monotonic() + seconds
        while self.is_running() and time.monotonic() < until:
            time.sleep(0.02)
        return self.kill()

    def kill(self):
        """Ends the program at once, if it runs."""
        if self.process.poll() is None:
            self.process.kill()
        return Ran(self.process.wait(), self.out.read_text(), self.err.read_text())


class Part:
    """One part: the program, where it works, and what was checked."""

    def __init__(self, program, folder, port):
        self.program, self.folder, self.port = program, folder, port
        self.right, self.wrong = 0, []

    def check(self, what, holds, seen=""):
        if holds:
            self.right += 1
        else:
            self.wrong.append(f"{what}: {seen}" if str(seen) else what)

    def servers(self, first=0, **more):
        return Servers(self.folder, self.port + first, **more)

    @contextlib.contextmanager
    def servers_with(self, slots, each, **more):
        """Servers with so many keys in each of the slots, and these keys with their values."""
        values = keys_in(slots, each)
        with self.servers(**more) as servers:
            servers.put(values)
            yield servers, values

    def start(self, words, plan="", environment=None, errors=None):
        return Running(self.program, self.folder, words, plan, environment or {}, errors)

    def run(self, *words, plan="", environment=None, errors=None):
        return self.start(words, plan, environment, errors).end()

    def left(self, servers, wanted, what):
        """What has to be so after each plan."""
        self.check(f"{what}: redis-cli says that all is well", servers.is_checked())
        wrong = servers.differences(wanted)
        self.check(f"{what}: every key lies at one node, with its value", not wrong, f"{len(wrong)}, as {wrong[:2]}")

    def has_printed(self, ran, status, last, what):
        """The status, and the last line on standard output by its form."""
        lines = ran.out.splitlines() or [""]
        self.check(f"{what}: status {status} and {last!r}",
                   ran.status == status and re.fullmatch(last, lines[-1]), ran)

    def is_done(self, ran, servers, before, what):
        """A plan that has run to its end tells how many commands that took, as the servers count them too."""
        self.has_printed(ran, 0, r"done \d+ commands", what)
        told = re.search(r"done (\d+) commands", ran.out)
        counted = servers.moves() - before
        self.check(f"{what}: as many commands as the servers executed", told and int(told[1]) == counted,
                   f"{ran}, and the servers {counted}")

    def applied(self, servers, plan, what, *words, **more):
        """Runs a plan to its end."""
        before = servers.moves()
        ran = self.run("apply", "--cluster", servers.address(0), *words, plan=plan, **more)
        self.is_done(ran, servers, before, what)
        return ran

    def refused(self, servers, ran, what, pattern=r"survey refused: .+"):
        """Status 1, and one line."""
        self.has_printed(ran, 1, pattern, what)
        self.check(f"{what}: one line", len(ran.out.splitlines()) == 1, ran)


class Parts:
    """The parts of a test by their names, in their order."""

    def __init__(self, what):
        self.what, self.checks, self.alone, self.by_name, self.given = what, {}, set(), set(), None

    def part(self, check):
        self.checks[check.__name__] = check
        return check

    def part_alone(self, check):
        """A part that starts no servers."""
        self.alone.add(check.__name__)
        return self.part(check)

    def part_by_name(self, check):
        """A part that is tried only where the command line names it."""
        self.by_name.add(check.__name__)
        return self.part(check)

    def tried(self, program, name, port):
        """What a part checked, and whether it ended."""
        with tempfile.TemporaryDirectory() as folder:
            it = Part(program, pathlib.Path(folder), port)
            began = time.monotonic()
            try:
                self.checks[name](it)
            except KeyboardInterrupt:
                raise
            except BaseException:
                it.wrong.append(traceback.format_exc())
            print(f"{name}: {it.right} right, {len(it.wrong)} wrong, {time.monotonic() - began:.1f} s", flush=True)
            for wrong in it.wrong:
                print(f"  {wrong}", flush=True)
            return it.right, len(it.wrong)

    def main(self, about, port, options=lambda reader: None, ports=lambda given: PORTS_A_PART):
        """Tries the parts that the command line names, or all but those that have to be named. The status that the test
        ends with. More options may be read, and how many ports a part has may be by them."""
        reader = argparse.ArgumentParser(description=about, formatter_class=argparse.RawDescriptionHelpFormatter)
        reader.add_argument("program", type=pathlib.Path)
        reader.add_argument("parts", nargs="*", metavar="PART")
        reader.add_argument("--port", type=int, default=port)
        options(reader)
        given = self.given = reader.parse_args()
        if unknown := set(given.parts) - set(self.checks):
            reader.error(f"no part is called {' or '.join(sorted(unknown))}: there are {', '.join(self.checks)}")
        wanted = set(given.parts or self.checks.keys() - self.by_name)
        missing = [] if wanted <= self.alone else [
            name for name in ("redis-server", "redis-cli") if not shutil.which(name)]
        signal.signal(signal.SIGTERM, signal.default_int_handler)
        passed = failed = 0
        for number, name in enumerate(self.checks):
            if name in wanted and (not missing or name in self.alone):
                right, wrong = self.tried(str(given.program.resolve()), name, given.port + number * ports(given))
                passed, failed = passed + right, failed + wrong
        if missing:
            print(f"skipped {self.what}: there is no {' and no '.join(missing)}"
                  " (Debian's redis-server and redis-tools)")
        print(f"{passed} passed, {failed} failed{', 1 skipped' if missing else ''}")
        return 1 if failed else 0
