#!/usr/bin/env python3
"""Where each must-fail edit is refused: ci/refused.py [CRATE ...]

An edit may alter several functions, and the gate asks only that one of them is refused. This asks it of each: the
checker refuses the function's own proof, and not only because a callee is not proved or a name of the proof no longer
fits the code. A constant is asked of one function that uses it. An edit that alters specs/, alone or with the code that
meets them, must be refused so in some proof. Whether a fact is false is for the reader of the edit to say: this shows
which proofs are refused, not why. Each edit is made in a copy of the crates, outside the repository, and tried there by
`rt check`, which begins with what checks of the crate have kept. Exit 1, naming what is not shown.
"""
import difflib
import re
import shutil
import subprocess
import sys
import tempfile
from pathlib import Path

ROOT = Path(__file__).resolve().parent.parent
FN = re.compile(r'\s*(?:pub(?:\(crate\))? )?(?:extern "C" )?fn (\w+)')
# What an error says where it is no reason of its own: it rests on another one, or the proof's text does not fit.
RESTS = re.compile(r"was not admitted|has no `|has no field|not in scope|no `Tie` that|expected type `tie\.")


def functions(text):
    """Of each line of a source file the function that it stands in as Type/name or name, the constant, or None."""
    kind = name = constant = None
    for line in text.splitlines():
        block = re.match(r"impl (\w+)", line)
        kind = block.group(1) if block else None if line == "}" and name is None else kind
        entry, named = FN.match(line), re.match(r"(?:pub(?:\(crate\))? )?const (\w+)", line)
        if entry:
            name = f"{kind}/{entry.group(1)}" if kind else entry.group(1)
        constant = named.group(1) if named else constant
        yield constant or name
        if line.endswith(";"):
            constant = None
        if line.strip() == "}" and line.index("}") == (4 if kind else 0):
            name = None


def path(source, name):
    """The folder of a function's proof, as far as the source tells it: of a method its type's, not its module's."""
    return name if "/" in name or source.stem in ("lib", "main") else f"{source.stem}/{name}"


def users(edited, constant):
    """The functions that name a constant."""
    for source in (edited / "src").glob("*.rt"):
        text = source.read_text(encoding="utf-8")
        for line, name in zip(text.splitlines(), functions(text)):
            if name and not name.isupper() and re.search(rf"\b{constant}\b", line):
                yield path(source, name)


def altered(crate, edited):
    """For each place in src/ that an edit alters the functions of which one must be refused."""
    for source in sorted((edited / "src").glob("*.rt")):
        text = source.read_text(encoding="utf-8")
        lines, names = text.splitlines(), list(functions(text))
        before = (crate / "src" / source.name).read_text(encoding="utf-8").splitlines()
        for tag, _, _, begin, end in difflib.SequenceMatcher(None, before, lines, False).get_opcodes():
            places = range(begin, max(end, begin + 1)) if tag != "equal" else []
            for name in {names[at] or "no function" for at in places if not lines[at].startswith("use ")}:
                yield set(users(edited, name)) if name.isupper() else {path(source, name)}


def refused(log):
    """The folders of the proofs that are refused for a reason of their own."""
    for line in log.splitlines():
        error = re.match(r"(?:\./)?proofs/(\S+?)\.antt:\d+:\d+: error: (.*)", line)
        if error and not RESTS.search(error.group(2)):
            yield re.sub("/(Proof|Answers|Invariants)$", "", error.group(1)).replace("+", "")
        unproved = re.match(r"fn \w+::(\S+): no proof: .*(did not prove|does not close)", line)
        if unproved:
            yield unproved.group(1).replace("::", "/").replace("+", "")


def apply(edit, crate):
    """Makes the edit in a copy of its crate; says why not, if it cannot be."""
    path, old = None, None
    for line in edit.read_text(encoding="utf-8").split("\n"):
        word, _, text = line.partition(": ")
        if word == "file":
            path = crate / text.strip()
        elif word == "old":
            old = text
        elif line.startswith("new:"):
            before = path.read_text(encoding="utf-8")
            if before.count(old) != 1:
                return f"an old text stands {before.count(old)} times in {path.relative_to(crate)}"
            path.write_text(before.replace(old, text), encoding="utf-8")
    return None


def missing(edit, copies):
    """What is not shown of an edit, and how many places of code it alters."""
    crate, edited = edit.parent.parent, copies / "crates" / edit.parent.parent.name
    why = apply(edit, edited)
    words = {"cwd": edited, "stdin": subprocess.DEVNULL, "stdout": subprocess.PIPE, "stderr": subprocess.STDOUT}
    log = "" if why else subprocess.run(["rt", "check"], text=True, errors="replace", **words).stdout
    places = [] if why else list(altered(crate, edited))
    for part in ("src", "specs", "proofs"):
        shutil.rmtree(edited / part, ignore_errors=True)
        if (crate / part).is_dir():
            shutil.copytree(crate / part, edited / part)
    proofs = set(refused(log))
    if why or "logic=not-proved" not in log or not proofs:
        return [why or "refused in no proof"], 0
    if any(file.startswith("specs/") for file in re.findall(r"^file: (\S+)", edit.read_text(encoding="utf-8"), re.M)):
        return [], 0
    ends = tuple({f"/{proof}" for proof in proofs})
    shown = [any(end.endswith(f"/{name}") for name in names for end in ends) for names in places]
    return [f"not refused in {' or '.join(sorted(names))}" for names, yes in zip(places, shown) if not yes], len(places)


def copied(room):
    """A copy of the crates without what was made of them."""
    shutil.copytree(ROOT / "crates", room / "crates", ignore=shutil.ignore_patterns("out"))
    shutil.copy(ROOT / "crates.txt", room)
    (room / ".git").mkdir()
    return room


def main():
    edits = [edit for edit in sorted((ROOT / "crates").glob("*/must-fail/*.edit"))
             if edit.parent.parent.name in sys.argv[1:] or not sys.argv[1:]]
    count, lacks = 0, []
    with tempfile.TemporaryDirectory() as room:
        copies = copied(Path(room))
        for edit in edits:
            found, places = missing(edit, copies)
            count += places
            lacks += [f"{edit.parent.parent.name}/{edit.stem}: {lack}" for lack in found]
    print("\n".join(lacks + [f"refused: {len(edits)} edits, {count} altered places of code, {len(lacks)} not shown"]))
    return 1 if lacks or not edits else 0


if __name__ == "__main__":
    sys.exit(main())
