"""The crates of this repository, by crates.txt. Used by tools/made, tools/proved and tools/trusted."""
from functools import cache
from pathlib import Path

TOP = Path(__file__).resolve().parent.parent


@cache
def uses():
    """The libraries that each crate uses, by its name, in the order of crates.txt."""
    lines = (line.split("#")[0].partition(":") for line in (TOP / "crates.txt").read_text().splitlines())
    return {name.split()[0]: libraries.split() for name, _, libraries in lines if name.strip()}
