"""Builds a program of one crate for the benchmarks that measure it alone."""

import subprocess
import sys

import measuring


def crates_below(program):
    """The crates of crates.txt that the program stands on, itself among them."""
    below = {}
    for line in (measuring.ROOT / "crates.txt").read_text().splitlines():
        crate, _, words = line.partition("#")[0].partition(":")
        if crate.strip():
            below[crate.split()[0]] = words.split()
    found, left = set(), [program]
    while left:
        crate = left.pop()
        if crate in below and crate not in found:
            found.add(crate)
            left += below[crate]
    return found


def is_built(crate, program):
    if not program.exists():
        return False
    made = program.stat().st_mtime
    parts = (measuring.ROOT / "crates" / below / part
             for below in crates_below(crate) for part in ("src", "specs", "proofs"))
    sources = (path for part in parts for path in (part, *part.rglob("*")) if path.exists())
    return all(path.stat().st_mtime <= made for path in sources)


def build(crate):
    """Proves and builds the crate's program where it is missing or older than a source."""
    folder = measuring.ROOT / "crates" / crate
    program = folder / "out" / crate
    if not is_built(crate, program):
        print(f"{crate}: proving and building, some minutes the first time", file=sys.stderr)
        done = subprocess.run(["rt", "run"], cwd=folder, stdin=subprocess.DEVNULL,
                              capture_output=True)
        if done.returncode != 0 or not program.exists():
            measuring.fail(f"{crate} couldn't be built: {done.stderr.decode()[-2000:]}")
    return program
