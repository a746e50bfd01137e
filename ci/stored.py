#!/usr/bin/env python3
"""A stored session and its replies: ci/stored.py NAME prints the replies to crates/vectors/data/NAME

crates/vectors/stdout has the answers to each file that the args name, after a line `# NAME`. The lines of the program
desk and their answers are its stdin and stdout.
"""
import sys
from io import BytesIO
from pathlib import Path

CRATES = Path(__file__).resolve().parent.parent / "crates"
VECTORS, DESK = CRATES / "vectors", CRATES / "desk"
MOVES = b"INC", b"LNI"  # a station's command by one of these names is answered with six lines where it is converted


def given(name):
    return (VECTORS / "data" / name).read_bytes()


def answers(name):
    names = (VECTORS / "args").read_text().split()[1::2]
    following = names[names.index(name) + 1:][:1]
    told = (VECTORS / "stdout").read_bytes().split(f"# {name}\n".encode(), 1)[1]
    return told.split(f"# {following[0]}\n".encode(), 1)[0] if following else told


def desk():
    """Each stored line of the desk with its answer, both with their line feeds, which the last line may lack."""
    answers = BytesIO((DESK / "stdout").read_bytes()).readlines()
    for line in BytesIO((DESK / "stdin").read_bytes()):
        named = line.rstrip(b"\n").split(b" ")[0] in MOVES
        count = 6 if named and b"".join(answers[:1]).startswith(b"P") else 1
        if len(answers) < count:
            raise ValueError(f"{line!r} of {DESK.name}/stdin has no whole answer")
        yield line, b"".join(answers[:count])
        del answers[:count]
    if answers:
        raise ValueError(f"{len(answers)} lines of {DESK.name}/stdout answer no line")


if __name__ == "__main__":
    sys.stdout.buffer.write(answers(sys.argv[1]))
