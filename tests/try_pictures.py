#!/usr/bin/env python3
"""Pictures of plans: has a program draw plans, and looks at the drawings with an XML reader and with a browser.

usage: tests/try_pictures.py PROGRAM

Each plan is drawn from an even split. What has to be on the drawing is reckoned here, from the plan's own lines: each
range of slots with one owner before and one after stands once in the band of the one and once in the band of the other,
with its own width, and has a ribbon where the two differ. The elements of the file are compared with that, and then the
boxes that a headless Chromium (Debian's package chromium) computes of them; without Chromium that part is skipped by
name. Refused plans have to leave no drawing. The last line is 'N passed, M failed' or 'N passed, M failed, K skipped',
a check each; the status is 1 where one failed."""

import itertools
import json
import pathlib
import re
import shutil
import subprocess
import sys
import tempfile
import xml.etree.ElementTree as xml

sys.dont_write_bytecode = True
sys.path.insert(0, str(pathlib.Path(__file__).resolve().parent / "hostile"))

from hash_slots import even_split  # noqa: E402

SECONDS = 60
SVG = "{http://www.w3.org/2000/svg}"
FETCHING = re.compile(r"(?:href|src|@import|url\((?!#)|<script|javascript:|on[a-z]+=)", re.IGNORECASE)
PAGE = """<!doctype html><meta charset="utf-8"><body>{svg}<img id="file" src="{path}"><pre id="boxes"></pre><script>
window.addEventListener("load", () => {{
  const boxes = [...document.querySelectorAll("rect[data-when]")].map(rect => {{
    const box = rect.getBBox(), seen = rect.getBoundingClientRect();
    return [rect.dataset.when, +rect.dataset.node.slice(1), box.x, box.width, seen.width, getComputedStyle(rect).fill];
  }});
  const file = document.getElementById("file");
  document.getElementById("boxes").textContent = JSON.stringify({{boxes, width: file.naturalWidth}});
}});
</script>"""


class Checks:
    def __init__(self):
        self.passed = self.failed = self.skipped = 0

    def check(self, name, holds, shown=""):
        if holds:
            self.passed += 1
        else:
            self.failed += 1
            print(f"failed: {name}: {str(shown)[:400]}")

    def skip(self, name):
        self.skipped += 1
        print(f"skipped {name}")

    def close(self):
        skipped = f", {self.skipped} skipped" if self.skipped else ""
        print(f"{self.passed} passed, {self.failed} failed{skipped}")
        return 1 if self.failed else 0


def owners_after(owners, plan):
    """The owners once the plan's lines are done: the last node that anybody was told."""
    owners = list(owners)
    for line in plan.splitlines():
        words = line.split()
        if words[:1] == ["move"]:
            first, _, last = words[1].partition("-")
            for slot in range(int(first), int(last or first) + 1):
                owners[slot] = int(words[5][1:])
        elif words[:1] == ["setslot"] and words[2] == "node":
            owners[int(words[1])] = int(words[3][1:])
    return owners


def ranges_of(before, after):
    """Each longest range of slots with one owner before and one after: its owners, first slot and last."""
    slot = 0
    for pair, run in itertools.groupby(zip(before, after)):
        count = len(list(run))
        yield *pair, slot, slot + count - 1
        slot += count


def move_lines(owners, wanted):
    """A plan that brings each slot to its wanted owner."""
    lines = [f"move {first}-{last} from n{source} to n{target} by 10"
             for source, target, first, last in ranges_of(owners, wanted) if source != target]
    return "\n".join(["reshard-plan 1", *lines, "end", ""])


def plans():
    """Plans by name, with the nodes of the cluster and those that own slots before."""
    yield "one move", 3, 3, "reshard-plan 1\nmove 3300 from n0 to n1 by 10\nend\n"
    yield "an empty plan", 3, 3, "reshard-plan 1\nend\n"
    yield "one node", 1, 1, "reshard-plan 1\nend\n"
    yield "a slot that moves twice", 3, 3, \
        "reshard-plan 2\nmove 24 from n0 to n1 by 10\nmove 24 from n1 to n2 by 10\nend\n"
    yield "slots that come back", 3, 3, \
        "reshard-plan 2\nmove 0-99 from n0 to n1 by 10\nmove 0-99 from n1 to n0 by 10\nend\n"
    yield "three nodes grow to eight", 8, 3, move_lines(even_split(3), even_split(8))
    yield "a node gives all", 3, 3, "reshard-plan 1\nmove 0-5460 from n0 to n2 by 100\nend\n"
    yield "ends of the slots", 2, 2, "reshard-plan 1\nmove 0 from n0 to n1 by 1\nmove 16383 from n1 to n0 by 1\nend\n"
    every_other = "".join(f"move {slot} from n0 to n1 by 10\n" for slot in range(0, 8192, 2))
    yield "every other slot", 2, 2, f"reshard-plan 1\n{every_other}end\n"


def drawn(program, plan, nodes, owning):
    words = [program, "draw", "--nodes", str(nodes), "--even", str(owning)]
    return subprocess.run(words, input=plan.encode(), capture_output=True, timeout=SECONDS)


def numbers(element, *names):
    return tuple(int(element.get(name).removeprefix("n")) for name in names)


def look_at_file(checks, name, text, before, after, nodes):
    """What the elements of the file say."""
    root = xml.fromstring(text)
    ranges = list(ranges_of(before, after))
    checks.check(f"{name}: an SVG", root.tag == f"{SVG}svg", root.tag)
    fetched = FETCHING.search(text.decode())
    checks.check(f"{name}: nothing is fetched or run", not fetched, fetched)
    told = [root.find(f"{SVG}{part}") for part in ("title", "desc")]
    checks.check(f"{name}: a title and a description", all(part is not None and part.text for part in told))
    for when, place in (("before", 0), ("after", 1)):
        rects = [rect for rect in root.iter(f"{SVG}rect") if rect.get("data-when") == when]
        found = [numbers(rect, "data-node", "data-first", "data-last") for rect in rects]
        wanted = [(one[place], one[2], one[3]) for one in ranges]
        checks.check(f"{name}: each range once {when}", sorted(found) == sorted(wanted), (found[:5], wanted[:5]))
        sizes = all(numbers(rect, "x", "width") == (first, last - first + 1)
                    for rect, (_, first, last) in zip(rects, found))
        checks.check(f"{name}: of its own width {when}", sizes)
        places = {(rect.get("data-node"), rect.get("y")) for rect in rects}
        checks.check(f"{name}: a band for each node {when}", len(places) == len({place[0] for place in places})
                     == len({place[1] for place in places}), places)
    ribbons = [one for one in root.iter() if one.get("data-source") is not None]
    found = [numbers(one, "data-source", "data-target", "data-first", "data-last") for one in ribbons]
    wanted = [one for one in ranges if one[0] != one[1]]
    checks.check(f"{name}: a ribbon for each move", sorted(found) == sorted(wanted), (found[:5], wanted[:5]))
    counts = [f"n{node}" in told[1].text for node in range(nodes)]
    checks.check(f"{name}: each node is described", all(counts), told[1].text)
    if not wanted:
        checks.check(f"{name}: says that nothing changes", b"The plan changes no owner." in text)


def look_in_browser(checks, name, text, before, after, browser):
    """What the browser makes of it."""
    with tempfile.TemporaryDirectory() as folder:
        picture, page = pathlib.Path(folder, "plan.svg"), pathlib.Path(folder, "page.html")
        picture.write_bytes(text)
        page.write_text(PAGE.format(svg=text.decode(), path=picture.as_uri()))
        words = [browser, "--headless", "--no-sandbox", "--disable-gpu", "--allow-file-access-from-files",
                 f"--user-data-dir={folder}/profile", "--dump-dom", page.as_uri()]
        shown = subprocess.run(words, capture_output=True, text=True, timeout=SECONDS)
    found = re.search(r'<pre id="boxes">(.*?)</pre>', shown.stdout, re.DOTALL)
    if not found or not found[1]:
        checks.check(f"{name}: shown by a browser", False, shown.stderr[-300:])
        return
    told = json.loads(found[1].replace("&quot;", '"').replace("&amp;", "&"))
    checks.check(f"{name}: shown as a picture of its own", told["width"] > 0)
    ranges = list(ranges_of(before, after))
    for when, place in (("before", 0), ("after", 1)):
        boxes = sorted((box[2], box[3], box[1]) for box in told["boxes"] if box[0] == when)
        wanted = sorted((one[2], one[3] - one[2] + 1, one[place]) for one in ranges)
        checks.check(f"{name}: the boxes {when} are the plan's ranges", boxes == wanted, (boxes[:3], wanted[:3]))
        widths = sum(box[4] for box in told["boxes"] if box[0] == when)
        checks.check(f"{name}: the boxes {when} are as wide as the band", 850 < widths < 1000, widths)
    fills = {}
    for box in told["boxes"]:
        fills.setdefault(box[1], set()).add(box[5])
    checks.check(f"{name}: each node has one colour of its own",
                 all(len(one) == 1 for one in fills.values()) and
                 len({min(one) for one in fills.values()}) == len(fills), fills)


def main():
    if len(sys.argv) != 2:
        sys.exit(__doc__)
    program, checks = sys.argv[1], Checks()
    browser = shutil.which("chromium")
    for name, nodes, owning, plan in plans():
        ran = drawn(program, plan, nodes, owning)
        checks.check(f"{name}: drawn", (ran.returncode, ran.stderr) == (0, b""), ran)
        if ran.returncode:
            continue
        before = even_split(owning)
        after = owners_after(before, plan)
        look_at_file(checks, name, ran.stdout, before, after, nodes)
        if browser:
            look_in_browser(checks, name, ran.stdout, before, after, browser)
    if not browser:
        checks.skip("the drawings in a browser: no chromium")
    for name, lines in (("no plan", ""), ("a plan that is not legal", "move 1 from n2 to n1 by 1\nend\n")):
        ran = drawn(program, f"reshard-plan 1\n{lines}", 3, 3)
        checks.check(f"{name}: no drawing", (ran.returncode, ran.stdout) == (1, b""), ran)
        checks.check(f"{name}: why", ran.stderr.startswith(b"refused: "), ran)
    return checks.close()


if __name__ == "__main__":
    sys.exit(main())
