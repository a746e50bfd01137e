#!/usr/bin/env python3
"""Checks docs/PROTOCOL.md against the stored session protocol.in: ci/protocol.py

The page's last block is that session, `> ` a request and `< ` each line of its reply. A row of a table that ends in a
request and a reply must stand in it as such, and so must each status. The sections "From words" and "Lines of the other
bench make" have rows of another kind: ci/words.py checks them. Exit 1, naming what does not stand there.
"""
import re
import sys
from pathlib import Path

import stored
import words

ROW = re.compile(r"\| `([^`]+)` \| `([^`]+)` \|$")
STATUS = re.compile(r"\| `(S06[0-9A-F]{5})`[^|]*\|$")


def exchanges(lines):
    """Each request of the page's session with the lines of its reply."""
    told = []
    for line in lines:
        if line.startswith("> "):
            told.append((line[2:], []))
        elif line.startswith("< "):
            told[-1][1].append(line[2:])
    return told


def main():
    page = (Path(__file__).resolve().parent.parent / "docs/PROTOCOL.md").read_text(encoding="utf-8")
    told = exchanges(page.split("```session\n")[1].split("```")[0].splitlines())
    wrong = []
    if "".join(request + "\n" for request, _ in told).encode() != stored.given("protocol.in"):
        wrong.append("the requests are not crates/vectors/data/protocol.in")
    if "".join(line + "\n" for _, reply in told for line in reply).encode() != stored.answers("protocol.in"):
        wrong.append("the replies are not those stored for protocol.in")
    pairs = {(request, line) for request, reply in told for line in reply}
    rows = 0
    for number, line in words.numbered(page, within=False):
        row, status = ROW.search(line), STATUS.search(line)
        asked = row.groups() if row else ("Q06", status.group(1)) if status else None
        rows += asked is not None
        if asked and asked not in pairs:
            wrong.append(f"line {number}: {asked[0]} with {asked[1]} stands in no session")
    total = f"protocol: {len(told)} requests, {rows} rows, {len(wrong)} wrong"
    print("\n".join([f"docs/PROTOCOL.md: {w}" for w in wrong] + [total]))
    return 1 if wrong or rows == 0 else 0


if __name__ == "__main__":
    sys.exit(main())
