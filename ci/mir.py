"""The MIR that was proved: what `rt ci`, or `rt lib` in a crate's folder, leaves of each library in its out/ folder

A program or a static library leaves none. The MIR is nested lists and dictionaries; `shapes` and `functions` read of it
what ci/layout.py and ci/widths.py ask.
"""
import json
import sys
from pathlib import Path


def below(*names):
    """The libraries that these crates of the repository stand on, lowest first; a crate's line is in crates.txt."""
    rows = [line.split("#")[0].partition(":") for line in Path("crates.txt").read_text(encoding="utf-8").splitlines()]
    named = {left.split()[0]: right.split() for left, _, right in rows if left.strip()}
    found, left = set(), list(names)
    while left:
        new = set(named[left.pop()]) & set(named) - found
        found |= new
        left += new
    return [crate for crate in named if crate in found]


def has(crate):
    return place(crate).is_file()


def place(crate):
    return Path(f"crates/{crate}/out/rlib/{crate}.rlib/toolchain/mir.json")


def functions(crates):
    """The MIR of each function, by its path, with the names of the types that it reaches."""
    found = {}
    for crate in crates:
        if not has(crate):
            sys.exit(f"mir: no proved library of {crate}: run rt ci, or rt lib in crates/{crate}")
        found |= dict(json.loads(place(crate).read_text(encoding="utf-8")))
    return found


def shapes(functions):
    """The types of the fields of each struct."""
    types = (kind for function in functions.values() for kind in function["types"])
    return {kind["name"]: kind["shape"]["Fields"] for kind in types if "Fields" in kind["shape"]}
