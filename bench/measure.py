"""What the benches share: a run of a program on an input, its status, its output, and what it took."""

import hashlib
import os
import pathlib
import subprocess
import sys
import tempfile
import time
from typing import NamedTuple

HERE = pathlib.Path(__file__).resolve().parent
ROOT = HERE.parent


class Run(NamedTuple):
    """One run: processor and wall seconds, peak resident size in kilobytes (not less than that of the bench itself, some 20,000), and the
    digest of what it wrote."""

    processor: float
    wall: float
    peak: int
    digest: str


def once(words: list[str], source: pathlib.Path | None) -> Run:
    """Runs a program, and stops the whole bench where it fails."""
    with tempfile.TemporaryFile() as out, tempfile.TemporaryFile() as err, open(source or os.devnull, "rb") as text:
        start = time.monotonic()
        child = subprocess.Popen(words, stdin=text, stdout=out, stderr=err)
        _, status, used = os.wait4(child.pid, 0)
        wall = time.monotonic() - start
        child.returncode = os.waitstatus_to_exitcode(status)
        if child.returncode != 0:
            err.seek(0)
            sys.exit(f"{' '.join(words)} < {source}: status {child.returncode}\n{err.read().decode(errors='replace')}")
        out.seek(0)
        digest = hashlib.sha256()
        for piece in iter(lambda: out.read(1 << 20), b""):
            digest.update(piece)
    return Run(used.ru_utime + used.ru_stime, wall, used.ru_maxrss, digest.hexdigest())


def best(words: list[str], source: pathlib.Path | None, times: int, key: str = "processor") -> Run:
    """The least of some runs, which must all write the same."""
    runs = [once(words, source) for _ in range(times)]
    if len({run.digest for run in runs}) > 1:
        sys.exit(f"{' '.join(words)} < {source}: runs differ")
    return min(runs, key=lambda run: getattr(run, key))


def compiled(source: pathlib.Path, folder: str) -> str | None:
    """A yardstick in plain Rust, where there is a compiler."""
    program = str(pathlib.Path(folder) / source.stem)
    try:
        subprocess.run(["rustc", "-O", "-o", program, str(source)], check=True)
    except FileNotFoundError:
        return None
    return program
