"""What the scripts of tests/ that are written in Python share: what they need, how they count, and how they end."""
import importlib
import os
import shutil
import subprocess
import sys
import zipfile
from pathlib import Path

TOP = Path(__file__).resolve().parent.parent.parent
_counts = {True: 0, False: 0}


def stop(sentence):
    """Ends a script that can't run."""
    script = Path(sys.argv[0]).name
    print(f"tests/{script}: {sentence}", file=sys.stderr)
    print("0 passed, 1 failed")
    sys.exit(1)


def needs_tools(**packages):
    """Stops where a tool isn't there, and names Debian's package. An underscore stands for a hyphen."""
    for tool, package in packages.items():
        if shutil.which(tool.replace("_", "-")) is None:
            stop(f"there is no {tool.replace('_', '-')} here (Debian has it in the package {package})")


def built(*command):
    """Runs a command that builds something, and returns what it says."""
    done = subprocess.run(command, stdout=subprocess.PIPE, text=True)
    if done.returncode != 0:
        stop(f"{Path(command[0]).name} failed")
    return done.stdout.strip()


def needs_program(name, crate):
    """The path of a crate's program, which a variable names, and which is proved and built first where it isn't set."""
    return str(Path(os.environ.get(name) or built(TOP / "tests/support/build", crate)).resolve())


def needs_vers():
    """The path of the program `vers`."""
    return needs_program("VERS", "vers")


def needs_library(work):
    """The folder of c/build that C_LIBRARY names. Where that isn't set, it is made in the folder `work`."""
    folder = os.environ.get("C_LIBRARY")
    if not folder:
        folder = os.path.join(work, "library")
        built(TOP / "c/build", folder)
    return str(Path(folder).resolve())


def built_package(folder):
    """The package for Python, built into a folder by the library that C_LIBRARY names."""
    with zipfile.ZipFile(built(TOP / "python/build-wheel", folder)) as wheel:
        wheel.extractall(f"{folder}/package")
    sys.path.insert(0, f"{folder}/package")
    return importlib.import_module("versions")


def check(name, holds, *said):
    _counts[bool(holds)] += 1
    if not holds:
        print(f"FAILED: {name}", *said, sep="\n", flush=True)


def add_counts(passed, failed):
    _counts[True] += passed
    _counts[False] += failed


def conclude():
    """The last line, and the status."""
    print(f"{_counts[True]} passed, {_counts[False]} failed")
    sys.exit(0 if _counts[True] and not _counts[False] else 1)
