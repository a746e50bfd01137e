#!/usr/bin/env python3
"""Checks the citations of docs/CLAIMS.md: ci/claims.py [repository root]

In one cell of a table (or one line of text) a path in backticks is followed by names in backticks. The file must stand
under crates/ and each name up to the next path must occur in it as a whole word; of A::b both A and b must.
Each public function of a library has a row in the table of two wrong programs, with a must-fail edit or the words "No
proof rules these out".
Exit 1, naming what is missing.
"""
import re
import sys
from pathlib import Path

FILE = re.compile(r"[\w.-]+(/[\w.-]+)+\.(antt|rt|edit)")
WORD = "[\\w-]"


def occurs(name, text):
    return all(re.search(f"(?<!{WORD}){re.escape(part)}(?!{WORD})", text) for part in name.split("::"))


def citations(page):
    """Line number, file and name (None for the file itself) of each citation, in order."""
    for number, line in enumerate(page.splitlines(), 1):
        for cell in line.split("|"):
            cited = None
            for quoted in re.findall(r"`([^`]+)`", cell):
                if FILE.fullmatch(quoted):
                    cited = quoted
                    yield number, cited, None
                elif cited:
                    yield number, cited, quoted


def entries(root):
    """Each public function of a library, as the table names it: its file under crates/, and its name.

    Of a private module these are the methods alone, for their type may be handed out by another.
    """
    for lib in sorted((root / "crates").glob("*/src/lib.rt")):
        open_modules = re.findall(r"^pub mod (\w+);", lib.read_text(encoding="utf-8"), re.M)
        for source in sorted(lib.parent.glob("*.rt")):
            kind = None
            for line in source.read_text(encoding="utf-8").splitlines():
                block = re.match(r"impl (\w+)", line)
                kind = block.group(1) if block else None if line == "}" else kind
                entry = re.match(r'\s*pub (?:extern "C" )?fn (\w+)', line)
                if entry and (kind or source == lib or source.stem in open_modules):
                    name = f"{kind}::{entry.group(1)}" if kind else entry.group(1)
                    yield str(source.relative_to(root / "crates")), name


def uncovered(root, page):
    """What the table of two wrong programs lacks."""
    rows = [row for row in page.split("## Two wrong programs for each entry")[1].splitlines() if row.startswith("| `")]
    for cited, name in entries(root):
        row = next((row for row in rows if f"`{cited}`" in row and f"`{name}`" in row), None)
        if row is None:
            yield f"docs/CLAIMS.md: no row of two wrong programs for `{name}` of crates/{cited}"
        elif "/must-fail/" not in row and "No proof rules these out" not in row:
            yield f"docs/CLAIMS.md: no must-fail edit for `{name}` of crates/{cited}"


def main():
    root = Path(sys.argv[1] if len(sys.argv) > 1 else ".")
    page = (root / "docs/CLAIMS.md").read_text(encoding="utf-8")
    texts, missing, count = {}, list(uncovered(root, page)), 0
    for number, cited, name in citations(page):
        count += 1
        path = root / "crates" / cited
        if cited not in texts:
            texts[cited] = path.read_text(encoding="utf-8") if path.is_file() else None
        if texts[cited] is None:
            if name is None:
                missing.append(f"docs/CLAIMS.md:{number}: no file crates/{cited}")
        elif name is not None and not occurs(name, texts[cited]):
            missing.append(f"docs/CLAIMS.md:{number}: no `{name}` in crates/{cited}")
    print("\n".join(missing + [f"claims: {count} citations of {len(texts)} files, {len(missing)} missing"]))
    return 1 if missing or count == 0 else 0


if __name__ == "__main__":
    sys.exit(main())
