#!/usr/bin/env python3
# The tests of tests/quick.
import os
import re
import shlex
import shutil
import signal
import subprocess
import sys
import tempfile
import time
from pathlib import Path

sys.dont_write_bytecode = True
import runs  # noqa: E402

TOP = Path(__file__).resolve().parent.parent.parent
JOBS = int(os.environ.get("JOBS", "3"))
WORDS = sys.argv[1:]

# Rows of crates/vectors on texts of great lengths. Together they would take `rt try` minutes.
LARGE = re.compile(r"^.*\*\d{6,}\].*\n", re.M)
SCRIPTS = ("tests/examples", "tests/unused")

# Faults of docs/VERS.md that no run has: the words, the input and the status. Nothing is written.
FAULTS = (
    (["foo"], "", 2),
    (["cmp", "1.2.3"], "", 2),
    (["match"], "", 2),
    (["match", ">=1.0,"], "1.0\n", 1),
    (["sort"], "1\n1 2\n.\n", 1),
)

CASE = re.compile(r"^case=(\S+) run=(\S+) status=(\d+) .*output=(\S+)", re.M)
COUNT = re.compile(r"(\d+) passed, (\d+) failed\n\Z")


def examples_of_page():
    """The examples of docs/VERS.md with a prompt: the words, the input and the output."""
    page = (TOP / "docs/VERS.md").read_text()
    shown = re.search(r"```text\n(\$ .*?)```", page, re.S)[1]
    for command, output in re.findall(r"^\$ (.*)\n((?:(?!\$ ).*\n)*)", shown, re.M):
        words = shlex.split(command)
        given = ""
        if words[0] == "printf":
            given = words[1].replace("\\n", "\n")
            words = words[3:]
        yield words[1:], given, output


def cases_of_runs(*those):
    for at, it in enumerate(those, 1):
        yield f"run_{at}", shlex.split(it.words), it.given, it.output, it.status


def cases_of_vers():
    """A name, words, input, output and status for each case."""
    for at, (words, given, output) in enumerate(examples_of_page(), 1):
        yield f"page_{at}", words, given, output, 0
    for at, (words, given, status) in enumerate(FAULTS, 1):
        yield f"fault_{at}", words, given, "", status
    own = TOP / "crates/vers"
    yield "file", [], (own / "stdin").read_text(), (own / "stdout").read_text(), 0
    yield from cases_of_runs(*runs.VERS, *runs.VERS_WITHOUT_MEMORY)


def cases_of_vectors():
    """The rows but for those of great lengths, which the last line of the output counts too."""
    own = TOP / "crates/vectors"
    given, left = LARGE.subn("", (own / "stdin").read_text())
    output = re.sub(r"\d+\n\Z", lambda count: f"{int(count[0]) - left}\n", (own / "stdout").read_text())
    yield "rows", [], given, output, 0


def left_to_the_gate():
    """What the gate runs and this does not."""
    scripts = dict.fromkeys(re.findall(r"\btests/\w+\b(?!/)", (TOP / ".ci/run").read_text()))
    others = [name for name in scripts if name not in (*SCRIPTS, "tests/quick")]
    return ["every proof, and the must-fail edits", *others, "the rows of vectors on great lengths"]


class Cases:
    """A program on many inputs."""

    def __init__(self, copy, crate, cases):
        self.name = crate
        self.folder = copy / "crates" / crate
        self.wanted = {}
        inputs = copy / f"cases_of_{crate}"
        inputs.mkdir()
        for name, words, given, output, status in cases:
            (inputs / name).write_text(given)
            (inputs / f"{name}.args").write_text("".join(f"{word}\n" for word in words))
            (inputs / f"{name}.stdout").write_text(output)
            self.wanted[name] = ["ended", str(status), "expected"]
        self.command = ["rt", "try", "--cases", str(inputs)]

    def counts(self, said, status):
        found = {name: rest for name, *rest in CASE.findall(said)}
        differing = [name for name, wanted in self.wanted.items() if found.get(name) != wanted]
        for name in differing:
            print(f"FAILED: {self.name}, {name}: {found.get(name)}, expected {self.wanted[name]}")
        return len(self.wanted) - len(differing), max(len(differing), int(status != 0))


class FirstCommand:
    """README's first command, as it stands there. The other two are this script and the gate, which runs it."""

    name = "README.md"

    def __init__(self, copy):
        section = re.search(r"^## Try it\n(.*?)^## ", (TOP / "README.md").read_text(), re.M | re.S)[1]
        block, *self.others = re.findall(r"^```sh\n(.*?)^```$", section, re.M | re.S)
        self.wanted = re.findall("`(.*?)`", re.search("It prints (.*):$", section, re.M)[1])
        self.folder = copy
        self.command = ["bash", "-c", f"set -o pipefail; {block.strip()} | sed 's/^/printed: /'"]

    def counts(self, said, status):
        printed = re.findall("^printed: (.*)$", said, re.M)
        passed = (status == 0 and printed == self.wanted) + (self.others == ["tests/quick\n", ".ci/run\n"])
        return passed, 2 - passed


class Script:
    """A script that ends with its own count."""

    def __init__(self, name):
        self.name = name
        self.folder = TOP
        self.command = [str(TOP / name)]

    def counts(self, said, status):
        count = COUNT.search(said)
        passed, failed = map(int, count.groups()) if count else (0, 1)
        return passed, max(failed, int(status != 0))


def start(part):
    part.began = time.monotonic()
    part.said = tempfile.TemporaryFile("w+", errors="replace")
    how = {"stdin": subprocess.DEVNULL, "stdout": part.said, "stderr": subprocess.STDOUT}
    part.process = subprocess.Popen(part.command, cwd=part.folder, **how)


def end(part):
    part.said.seek(0)
    said = part.said.read()
    passed, failed = part.counts(said, part.process.returncode)
    print(f"{part.name}: {passed} passed, {failed} failed, {time.monotonic() - part.began:.0f} s", flush=True)
    if failed:
        print(said, flush=True)
    return passed, failed


def run(parts):
    """Runs the parts, JOBS at the same time."""
    passed = failed = 0
    waiting, running = list(parts), []
    try:
        while waiting or running:
            while waiting and len(running) < JOBS:
                running.append(waiting.pop(0))
                start(running[-1])
            time.sleep(0.1)
            for part in [it for it in running if it.process.poll() is not None]:
                running.remove(part)
                counts = end(part)
                passed, failed = passed + counts[0], failed + counts[1]
    finally:
        for part in running:
            part.process.terminate()
            part.process.wait()
    return passed, failed


def main(copy):
    shutil.copytree(TOP / "crates", copy / "crates", ignore=shutil.ignore_patterns("out"))
    shutil.copy(TOP / "crates.txt", copy)

    # The longest parts come first, so that the processors end together.
    parts = []
    if WORDS != ["rest"]:
        parts += [Cases(copy, "vectors", cases_of_vectors())]
        parts += [Cases(copy, "versions_program", cases_of_runs(*runs.VERSIONS, *runs.SHOWN, *runs.MISSPELT))]
        parts += [Cases(copy, "vers", cases_of_vers())]
    parts += [Script(SCRIPTS[0]), FirstCommand(copy), Script(SCRIPTS[1])]
    passed, failed = run(parts)
    print("left to the gate:", *left_to_the_gate(), sep="\n  ")
    return passed, failed


if __name__ == "__main__":
    if WORDS not in ([], ["rest"]):
        sys.exit("usage: tests/quick [rest]")
    print("Nothing is proved by this.", flush=True)
    signal.signal(signal.SIGTERM, lambda *_: sys.exit(143))
    with tempfile.TemporaryDirectory() as folder:
        passed, failed = main(Path(folder))
    print(f"{passed} passed, {failed} failed")
    sys.exit(1 if failed else 0)
