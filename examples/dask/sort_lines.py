"""Sorts lines of versions in many files on a cluster of dask workers, in the order of `vers sort`:

    sort_lines.py [--scheduler ADDRESS | --workers N] [--ranges N] [--vers PROGRAM] FOLDER FILE..

`vers sort` sorts each file. The sorted files are cut at the same versions. For each range, `vers sort` sorts the pieces
of all files, and writes them to a file of a new folder: 00000, 00001 and so on. These files, one after another, are the
output of `vers sort` for all input files. If a line is not a version, that is an error, and nothing is written.

Without a scheduler's address, the workers are N processes on this machine, by default 4.
"""

from __future__ import annotations

import argparse
import os
import shutil
import signal
import subprocess
import sys
import time
from mmap import ACCESS_READ, mmap
from pathlib import Path
from typing import Iterable, Optional

import dask
import versions
from dask.distributed import Client

# A sorted file has one sample for this many bytes.
BYTES_PER_SAMPLE = 4096

# The memory limit of a worker on this machine. `vers sort` needs its own memory: about seven times the bytes it sorts.
MEMORY_PER_WORKER = "700MiB"


class Sorted:
    """A sorted file, mapped into memory."""

    def __init__(self, path: Path) -> None:
        # An empty file cannot be mapped.
        with path.open("rb") as file:
            self.lines = mmap(file.fileno(), 0, access=ACCESS_READ) if path.stat().st_size else b""

    def line_start(self, place: int, low: int = 0) -> int:
        """The start of the line that contains a place; low is the start of that line or of an earlier line."""
        return max(low, self.lines.rfind(b"\n", low, place) + 1)

    def line_end(self, start: int) -> int:
        """The place of the line feed of the line that starts at a place."""
        return self.lines.find(b"\n", start)

    def samples(self) -> bytes:
        """Lines at equal distances; at least one unless the file is empty."""
        first = min(BYTES_PER_SAMPLE, len(self.lines)) // 2
        starts = (self.line_start(place) for place in range(first, len(self.lines), BYTES_PER_SAMPLE))
        return b"".join(self.lines[start : self.line_end(start) + 1] for start in starts)

    def end_of(self, bound: Optional[str]) -> int:
        """The start of the first line after a version by precedence; the end of the file if there is no bound."""
        low, high = 0, len(self.lines)
        while bound is not None and low < high:
            start = self.line_start((low + high) // 2, low)
            end = self.line_end(start)
            if versions.compare(self.lines[start:end].decode("ascii"), bound) > 0:
                high = start
            else:
                low = end + 1
        return low if bound is not None else high


def sort_file(vers: Path, path: Path, sorted_path: Path) -> bytes:
    """Sorts the lines of a file into another file, and returns samples of them."""
    with path.open("rb") as lines, sorted_path.open("wb") as written:
        done = subprocess.run([vers, "sort"], stdin=lines, stdout=written, stderr=subprocess.PIPE, check=False)
    if done.returncode != 0:
        raise ValueError(f"{path}: {done.stderr.decode(errors='replace').strip()}")
    return Sorted(sorted_path).samples()


def bounds_of(vers: Path, samples: Iterable[bytes], ranges: int) -> list[str]:
    """The greatest version of each range but the last, with equally many samples in each range."""
    done = subprocess.run([vers, "sort"], input=b"".join(samples), stdout=subprocess.PIPE, check=True)
    lines = done.stdout.decode("ascii").splitlines()
    return [lines[len(lines) * n // ranges] for n in range(1, ranges)] if lines else []


def write_range(vers: Path, path: Path, files: list[Path], low: Optional[str], high: Optional[str]) -> int:
    """Writes the lines of all sorted files after one version and up to another. Returns their number of bytes."""
    with path.open("wb") as written:
        process = subprocess.Popen([vers, "sort"], stdin=subprocess.PIPE, stdout=written)
        with process.stdin as lines:
            for file in map(Sorted, files):
                start = file.end_of(low) if low is not None else 0
                lines.write(memoryview(file.lines)[start : file.end_of(high)])
        if process.wait() != 0:
            raise ValueError(f"{path}: vers sort ended with status {process.returncode}")
    return path.stat().st_size


def sort(vers: Path, paths: list[Path], folder: Path, ranges: int) -> tuple[int, ...]:
    """Sorts files into a folder with the workers of the current client. Returns the number of bytes of each range.

    All files are sorted before a range is written, since each range has a piece of each file. The sorted files are kept
    in a folder beside it.
    """
    waiting = folder.with_name(folder.name + ".sorting")
    waiting.mkdir()
    try:
        files = [waiting / str(number) for number in range(len(paths))]
        samples = dask.compute(*(dask.delayed(sort_file)(vers, *pair) for pair in zip(paths, files)))
        bounds = [None, *bounds_of(vers, samples, ranges), None]
        folder.mkdir()
        return dask.compute(
            *(
                dask.delayed(write_range)(vers, folder / f"{n:05}", files, low, high)
                for n, (low, high) in enumerate(zip(bounds, bounds[1:]))
            )
        )
    finally:
        shutil.rmtree(waiting, ignore_errors=True)


def client_of(scheduler: Optional[str], workers: int) -> Client:
    if scheduler is not None:
        return Client(scheduler)
    return Client(n_workers=workers, threads_per_worker=1, memory_limit=MEMORY_PER_WORKER, dashboard_address=None)


def count(word: str) -> int:
    """A number of workers or of ranges."""
    if not word.isdecimal() or int(word) == 0:
        raise argparse.ArgumentTypeError(f"{word} is not a number from 1 on")
    return int(word)


def main() -> None:
    words = argparse.ArgumentParser(description=__doc__, formatter_class=argparse.RawDescriptionHelpFormatter)
    words.add_argument("--scheduler")
    words.add_argument("--workers", type=count, default=4)
    words.add_argument("--ranges", type=count, default=16)
    words.add_argument("--vers", default=os.environ.get("VERS", "vers"))
    words.add_argument("folder", type=Path)
    words.add_argument("files", type=Path, nargs="+")
    given = words.parse_args()
    vers = shutil.which(given.vers)
    if vers is None:
        sys.exit(f"{given.vers}: program not found")
    # A signal also closes the workers.
    signal.signal(signal.SIGTERM, lambda *_: sys.exit(1))
    folder = given.folder.resolve()
    if folder.exists():
        sys.exit(f"{folder}: already exists")
    with client_of(given.scheduler, given.workers):
        begun = time.monotonic()
        try:
            sizes = sort(Path(vers).resolve(), [path.resolve() for path in given.files], folder, given.ranges)
        except (OSError, ValueError) as error:
            sys.exit(str(error))
        print(f"sorted in {time.monotonic() - begun:.1f} s, without the start of the workers")
        print(f"ranges: {len(sizes)}, bytes in each: {min(sizes)} to {max(sizes)}")


if __name__ == "__main__":
    main()
