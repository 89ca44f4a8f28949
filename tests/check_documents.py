#!/usr/bin/env python3
"""Documents: checks README.md, CHANGELOG.md and the pages of docs/ and examples/.

usage: tests/check_documents.py [PROGRAM]

- Links: the file and the heading of each link exist.
- Citations: what stands in backticks exists. Those are paths that begin with a folder of the repository (a word in
  capitals is a placeholder), rows as `commands/get-*`, the definitions in `crate Name` and `crate` Name and Other, a
  `name` of `crate`, the modules in `node_tests` (slots), parts as part "moves" of `tests/real_servers.py`, what a link
  into crates/ names in its file, and identifiers of more than one word, as `serve_session` or `Node::client`. The table
  of TESTING.md has the parts of .ci/run, and no others, and each part's program begins with its name. A page that a
  script cites exists.
- Options: docs/COMMAND_LINE.md has each command and option of --help, the numbers that stand there beside an option
  too. The help is PROGRAM's, or that of tests/rows/command-line, and an option of the page that no help has is told.
- Words: 'behind' for after, 'so many', 'gone on with', and 'stands' for is. Where they are meant as they are in
  English, as in 'behind a proxy' and 'stands for', they may stay. PROOF_NOTES.md may have them.
- Sentences: none of the operators' pages has one of more than 35 words. Code in backticks is one word, a table goes
  cell by cell, and blocks of code don't count.

Each finding is a line. The last line is 'N passed, M failed', and the status is 1 where one failed."""

import pathlib
import re
import subprocess
import sys

TOP = pathlib.Path(__file__).resolve().parent.parent
ROWS = TOP / "tests" / "rows"
FOLDERS = ("crates/", "tests/", "bench/", "docs/", "examples/", "wrong-bodies/", ".ci/")
OPERATORS = ("README.md", "docs/README.md") + tuple(f"docs/{name}.md" for name in (
    "GETTING_STARTED", "OPERATING", "RECOVERY", "MESSAGES", "COMMAND_LINE", "PLAN_FORMAT", "REQUIREMENTS",
    "FROM_REDIS_CLI", "SANDBOX"))
CRATES = {path.name for path in (TOP / "crates").iterdir()}
WORDS = 35
HABITS = {
    "'behind' for after": r"\bbehind\b(?! ((an?|the|one) )?(proxy|NAT|firewall|pointer|lock|socket)\b)",
    "'so many'": r"\bso many\b",
    "'gone on with'": r"\bgone\s+on\s+with\b",
    "'stands' for is": r"\bst(ands?|ood|anding)\b(?!-|\s+for\b)",
}
FENCE = re.compile(r"^( *```)[^\n]*\n.*?^ *```[^\n]*$", re.DOTALL | re.MULTILINE)
SPAN = re.compile(r"`([^`]+)`")
LINK = re.compile(r"!?\[([^\]]*)\]\(([^()\s]+)\)")
TOOLS = {"callgrind_annotate"}
NAMES = r"([A-Z]\w+(?:(?:,\s+and\s+|,\s+|\s+and\s+)[A-Z]\w+)*)"


class Findings:
    """What was found, and how much was looked at."""

    def __init__(self):
        self.passed = self.failed = 0

    def check(self, is_right, page, place, text):
        if is_right:
            self.passed += 1
        else:
            self.failed += 1
            print(f"{page.name}:{page.line_of(place)}: {text}")


class Page:
    """A page, with its blocks of code apart."""

    def __init__(self, path):
        self.path, self.name = path, str(path.relative_to(TOP))
        self.text = path.read_text()
        self.prose = FENCE.sub(lambda block: re.sub(r"[^\n]", " ", block[0]), self.text)

    def line_of(self, place):
        return self.text.count("\n", 0, place) + 1

    def anchors(self):
        """The anchors of the headings, as GitHub makes them."""
        found, times = set(), {}
        for heading in re.findall(r"^#+ +(.*?) *#*$", self.prose, re.MULTILINE):
            anchor = re.sub(r"[^\w\- ]", "", LINK.sub(r"\1", heading).lower()).replace(" ", "-")
            times[anchor] = times.get(anchor, -1) + 1
            found.add(f"{anchor}-{times[anchor]}" if times[anchor] else anchor)
        return found

    def blocks(self):
        """Paragraphs, items, headings and rows of tables, each with its place."""
        start = 0
        for match in re.finditer(r"\n(?=\s*\n|\s*[-*] |\s*[|#>]|\s*\d+\. )|\Z", self.prose):
            text = self.prose[start:match.start()]
            if text.strip():
                yield start + len(text) - len(text.lstrip()), text.strip()
            start = match.start()


def vocabulary():
    """All words of the code, the definitions, the proofs and the scripts, and the names of wrong bodies."""
    words = TOOLS | {path.stem for folder in ("wrong-bodies", "crates") for path in TOP.glob(f"{folder}/**/*edit")}
    files = [path for folder in ("src", "specs", "proofs") for path in TOP.glob(f"crates/*/{folder}/**/*.*t*")]
    files += [path for folder in ("tests", "bench", ".ci") for path in (TOP / folder).glob("*")]
    files += [path for path in TOP.glob("tests/*/*.py")] + [TOP / "crates.txt", TOP / "HANDLES", TOP / "reshard"]
    for path in files:
        if path.is_file() and path != pathlib.Path(__file__).resolve():
            words.update(re.findall(r"[A-Za-z_]\w*", path.read_text(errors="replace")))
    return words


def has_word(path, word):
    files = [path] if path.is_file() else [file for file in path.rglob("*.*t")]
    return any(re.search(rf"(?<!\w){re.escape(word)}(?!\w)", file.read_text()) for file in files)


def has_path(word):
    """Whether a path is there; a word in capitals stands for any, and what is built need not be there."""
    word = re.sub(r"[\[\]'\"]", "", word).rstrip(".,:;)")
    if re.match(r"crates/\w+/out\b", word):
        word = "/".join(word.split("/")[:2])
    word = re.sub(r"(?<![\w.])[A-Z]+(?=$|[/.])", "*", word)
    return re.search(r"[{}<>$]|\.\.", word) is not None or any(True for _ in TOP.glob(word.rstrip("/")))


def check_links(page, findings):
    for link in LINK.finditer(page.prose):
        text, (target, _, anchor) = link[1], link[2].partition("#")
        if re.match(r"\w+:", link[2]):
            continue
        path = (page.path.parent / target).resolve() if target else page.path
        is_there = path.exists() and TOP in [path, *path.parents]
        findings.check(is_there, page, link.start(), f"dead link: {link[2]}")
        if not is_there:
            continue
        if anchor and path.suffix == ".md":
            findings.check(anchor in Page(path).anchors(), page, link.start(), f"no such heading: {link[2]}")
        if TOP / "crates" not in path.parents:
            continue
        for span in SPAN.findall(text):
            name = re.split(r"::|\.|<", span)[-1].strip()
            is_right = span.startswith(FOLDERS) or has_word(path, name)
            findings.check(is_right, page, link.start(), f"no `{name}` in {link[2]}")
        named = re.fullmatch(r"(\w+)\s+(\w+)", text)
        if named and named[1] in CRATES:
            wanted = TOP / "crates" / named[1]
            is_right = path in (wanted / "specs" / f"{named[2]}.antt", wanted / "src" / f"{named[2]}.rt")
            findings.check(is_right, page, link.start(), f"{' '.join(named.groups())} is not {link[2]}")


def check_citations(page, words, findings):
    def says(is_right, place, text):
        findings.check(is_right, page, place, text)

    for token in re.finditer(r"[^\s`|(]+", LINK.sub(lambda link: re.sub(r"[^\n]", " ", link[0]), page.text)):
        if token[0].removeprefix("./").startswith(FOLDERS):
            says(has_path(token[0].removeprefix("./")), token.start(), f"no such path: {token[0]}")
    for span in SPAN.finditer(page.prose):
        name, place = " ".join(span[1].split()), span.start()
        after = page.prose[span.end():span.end() + 200]
        row = re.fullmatch(r"([\w-]+)/([\w*-]+)", name)
        if row and (ROWS / row[1]).is_dir():
            says(any(ROWS.glob(f"{name}.*")) or any(ROWS.glob(name)), place, f"no such row: {name}")
        specs = re.match(r"\s+" + NAMES, after)
        if specs and name in CRATES:
            for spec in re.findall(r"[A-Z]\w+", specs[1]):
                says((TOP / f"crates/{name}/specs/{spec}.antt").is_file(), place, f"no definitions {spec} in {name}")
        elif specs and "_" in name and page.prose[:place].rstrip()[-1:] in ("(", ";"):
            says(False, place, f"no crate {name}")
        home = re.match(r"\s+of\s+`(\w+)`", after)
        if home and home[1] in CRATES and re.fullmatch(r"[A-Za-z_]\w*", name) and name not in CRATES:
            folders = [TOP / "crates" / home[1] / folder for folder in ("src", "specs", "proofs")]
            says(any(has_word(folder, name) for folder in folders), place, f"nothing in {home[1]} is called `{name}`")
        modules = re.match(r"\s+\(((?:[a-z_]+(?:, | and )?)+)\)", after)
        if modules and name in CRATES and name.endswith("_tests"):
            for module in re.split(r", | and ", modules[1]):
                says((TOP / f"crates/{name}/src/{module}.rt").is_file(), place, f"no module {module} in {name}")
        if page.name in OPERATORS or page.name.endswith("PROOF_NOTES.md"):
            continue
        parts = name.removesuffix("()").split("::")
        if all(re.fullmatch(r"[A-Za-z]\w*", part) for part in parts) and (
                len(parts) > 1 or re.search(r"[a-z0-9]_|[a-z][A-Z]", name)) and name not in CRATES:
            says(all(part in words for part in parts), place, f"nothing is called `{name}`")
    for parts in re.finditer(r"\bparts? (\"\w+\"(?:(?:, | and |\s+)\"\w+\")*)\s+of\s+`tests/([\w.]+)", page.prose):
        script = (TOP / "tests" / parts[2]).read_text()
        for part in re.findall(r"\w+", parts[1].replace(" and ", " ")):
            is_there = re.search(rf"^def {part}\b", script, re.MULTILINE)
            says(is_there, parts.start(), f"no part {part} of tests/{parts[2]}")


def check_scripts(findings):
    """The pages that scripts cite."""
    files = [path for folder in ("tests", "bench", ".ci") for path in (TOP / folder).glob("*")]
    for path in sorted(path for path in [TOP / "reshard", *files] if path.is_file()):
        script = Page(path)
        for cited in re.finditer(r"\bdocs/[A-Z_]+\.md", script.text):
            findings.check((TOP / cited[0]).is_file(), script, cited.start(), f"no such page: {cited[0]}")


def check_parts(findings):
    """The parts of the gate, which TESTING.md and the programs call by their names in .ci/run."""
    page = Page(TOP / "docs" / "TESTING.md")
    told = dict((cell[1].strip(), cell.start()) for cell in re.finditer(r"^\| ([^|`]+) \|", page.prose, re.MULTILINE))
    parts = dict(re.findall(r'^(?:part|in_turn \d) "([^"]+)" (\S+)', (TOP / ".ci/run").read_text(), re.MULTILINE))
    for part, program in parts.items():
        findings.check(part in told, page, 0, f"the gate's part '{part}' is not told")
        if (TOP / program).is_file():
            script = Page(TOP / program)
            is_called = script.text.split("\n")[1].lstrip('# "').lower().startswith(f"{part}: ")
            findings.check(is_called, script, 0, f"it does not begin with the name of its part, '{part}'")
    for name in told.keys() - parts.keys() - {"Part"}:
        findings.check(False, page, told[name], f"the gate has no part '{name}'")


def helps(program):
    """The help of each command."""
    if program is None:
        for path in sorted((ROWS / "command-line").glob("help-on-*.out")):
            yield path.stem.removeprefix("help-on-"), path.read_text()
        return
    top = subprocess.run([program, "--help"], capture_output=True, text=True, check=True, timeout=60).stdout
    for command in re.findall(r"^  ([a-z][a-z-]*)  ", top, re.MULTILINE):
        if command != "help":
            yield command, subprocess.run([program, command, "--help"], capture_output=True, text=True, check=True,
                                          timeout=60).stdout


def numbers_in(text):
    text = re.sub(r"(?<=\d),(?=\d{3}\b)", "", text)
    return set(re.findall(r"(?<![\w.:])(?<!\d,)\d+(?![\w:]|[.,]\d)", text))


def check_options(program, findings):
    path = TOP / "docs" / "COMMAND_LINE.md"
    if not path.is_file():
        print("docs/COMMAND_LINE.md: there is no such page")
        findings.failed += 1
        return
    page, known = Page(path), {"--help", "--version", "--build"}
    blocks = [text for _, text in page.blocks()]
    for command, text in helps(program):
        is_there = re.search(rf"`(\./)?(reshard )?{command}\b", page.prose)
        findings.check(is_there, page, 0, f"the command {command} is missing")
        for option, told in re.findall(r"^ +(?:-\w, )?(--[a-z-]+)(?: <[^>]*>)?\s+(.*)", text, re.MULTILINE):
            known.add(option)
            lines = [block for block in blocks if re.search(rf"`{option}(?![\w-])", block)]
            findings.check(lines, page, 0, f"{option} of {command} is missing")
            if lines and option not in ("--help", "--version"):
                lacks = numbers_in(told) - numbers_in(" ".join(lines))
                findings.check(not lacks, page, 0, f"{option} of {command}: {', '.join(sorted(lacks))} is missing")
    for option in re.finditer(r"`(--[a-z-]+)", page.prose):
        findings.check(option[1] in known, page, option.start(), f"no command has {option[1]}")


def check_words(page, findings):
    plain = SPAN.sub(lambda span: re.sub(r"[^\n]", "_", span[0]), page.prose)
    for habit, pattern in HABITS.items():
        found = list(re.finditer(pattern, plain, re.IGNORECASE))
        findings.check(not found, page, found[0].start() if found else 0, f"{habit}, {len(found)} times")
        for match in found[1:]:
            findings.check(False, page, match.start(), habit)


def check_sentences(page, findings):
    for place, block in page.blocks():
        block = SPAN.sub(lambda span: "Code" + "\n" * span[0].count("\n"), LINK.sub(r"\1", block))
        for cell in block.strip("|").split("|") if block.startswith("|") else [block]:
            for sentence in re.split(r"(?<=[.!?])[\"')*_]*\s+(?=[^a-z\s])", cell):
                count = sum(1 for word in sentence.split() if re.search(r"\w", word))
                if count > 0:
                    start = " ".join(sentence.split()[:6])
                    findings.check(count <= WORDS, page, place, f"a sentence of {count} words: {start} ..")


def main():
    program = sys.argv[1] if len(sys.argv) > 1 else None
    findings, words = Findings(), vocabulary()
    paths = [TOP / "README.md", TOP / "CHANGELOG.md", *TOP.glob("docs/*.md"), *TOP.glob("examples/*.md")]
    for page in [Page(path) for path in sorted(paths) if path.is_file()]:
        check_links(page, findings)
        check_citations(page, words, findings)
        if page.name.startswith(("README", "CHANGELOG", "docs/")) and not page.name.endswith("PROOF_NOTES.md"):
            check_words(page, findings)
        if page.name in OPERATORS:
            check_sentences(page, findings)
    check_scripts(findings)
    check_parts(findings)
    if program is not None and not pathlib.Path(program).is_file():
        print(f"{program}: there is no such program")
        findings.failed, program = findings.failed + 1, None
    check_options(program, findings)
    print(f"{findings.passed} passed, {findings.failed} failed")
    return 1 if findings.failed else 0


if __name__ == "__main__":
    sys.exit(main())
