#!/usr/bin/env python3
"""Checks the sections "From words" and "Lines of the other bench make" of docs/PROTOCOL.md: ci/words.py

Examples: `X` prints `Y`, or `X` is `Y`, in the text, and each row of a table, its first cell X and its last Y in
backticks, each line of an answer by itself; lines that a cell between says to print the same; and each line that a
number's row has in its last cell, Y being that number with its sentence. X must be a line of crates/desk/stdin and Y
its answer in crates/desk/stdout. An example that fits a line of crates/wording/specs/*Page.antt must stand there too,
where it is proved.
Fixed words: the table of sentences, the words and forms in the tables of words, and what the text says of a status must
be those of crates/sentences/specs/Sentences.antt, which the desk is proved to say.
Recipe: its table in README.md has the lines of docs/recipe.txt and docs/recipe.out side by side.
Screen: the one that docs/PROTOCOL.md and README.md show stands in docs/trial.out.
Exit 1, naming what is not so.
"""
import re
import sys
from itertools import groupby, zip_longest
from pathlib import Path

import stored

ROOT = Path(__file__).resolve().parent.parent
SECTIONS = "## From words", "## Lines of the other bench make"
DESK, SPEC, PAGES = "crates/desk", "crates/sentences/specs/Sentences.antt", "crates/wording/specs"
ROW = re.compile(r'answer_text \(chars "([^"]*)"\)\s+≡\s+(?:chars\s+("[^"]*")|lines\s+\(([^()]*)\))')
LONGEST = 110  # of a text that is printed: a longer one has no room in a line of the specification
EXAMPLE = re.compile(r"`([^`]+)` (?:prints|is) `([^`]+)`")
QUOTED = re.compile(r"`([^`]+)`")
LINES = re.compile(r"`[^`]+`(?: `[^`]+`)*")  # a cell with each line of an answer
SAME = re.compile(r"(`[^`]+`(?:(?:, | and )`[^`]+`)*) print the same")
BEGINS = re.compile(r"\||- |\d+\. ")  # a row or an item of a list; any other line goes on with the one before
STATE = re.compile(r"(?:(\d) )?`([^`]+)`(?: \(bit (\d)\))?")  # what a status says, its bit before or behind it
FIRST = {"sentences": 0, "states": -1}  # the number of a table's first row; a state has its bit, that of no bit -1


def numbered(page, sections=SECTIONS, within=True):
    """Each line of the sections, or each line outside them, with its number on the page."""
    heading = None
    for number, line in enumerate(page.splitlines(), 1):
        heading = line if line.startswith("## ") else heading
        if (heading in sections) == within:
            yield number, line


def blocks(page, section):
    """Each row, item and paragraph of the section on one line, with the number of its first line."""
    found = [(0, "")]
    for number, line in numbered(page, [section]):
        first, text = found[-1]
        if line and text and not BEGINS.match(line):
            found[-1] = first, f"{text} {line.strip()}"
        else:
            found.append((number, line))
    return found


def tables(parts):
    """The first cell of each table's head, and its rows: number of the line, and cells."""
    for is_table, rows in groupby(parts, lambda part: part[1].startswith("|")):
        if is_table:
            split = [(number, [cell.strip() for cell in row.strip("|").split("|")]) for number, row in rows]
            yield split[0][1][0], split[2:]


def rows_of(parts, head):
    """The cells of all rows of the tables whose head begins so."""
    return [cells for first, rows in tables(parts) if first.startswith(head) for _, cells in rows]


def examples(parts):
    """Each line that is typed with what is printed, and the number of its line; None for a row that has none."""
    for head, rows in tables(parts):
        for number, cells in rows if head != "Number" else []:
            typed, printed = QUOTED.fullmatch(cells[0]), LINES.fullmatch(cells[-1])
            answer = "\n".join(QUOTED.findall(cells[-1]))
            yield number, (typed.group(1), answer) if typed and printed else None
            for same in SAME.findall(" | ".join(cells[1:-1])):
                yield from ((number, (line, answer)) for line in QUOTED.findall(same))
    for number, text in parts:
        for pair in EXAMPLE.findall(text) if not text.startswith("|") else []:
            yield number, pair


def refusals(parts, sentences):
    """Each line that the table of numbers has, with that number and its sentence."""
    for head, rows in tables(parts):
        for number, cells in rows if head == "Number" else []:
            lines = QUOTED.findall(cells[-1])
            yield from ((number, (line, f"turned away by {cells[0]}: {sentences[cells[0]]}")) for line in lines)


def unanswered(shown):
    """Where an example is not what the stored lines and answers have."""
    try:
        answers = {line.removesuffix(b"\n"): answer.removesuffix(b"\n") for line, answer in stored.desk()}
    except ValueError as wrong:
        yield str(wrong)
        return
    for number, pair in shown:
        answer = answers.get(pair[0].encode()) if pair else None
        if pair is None:
            yield f"line {number}: a row without a line and what is printed"
        elif answer is None:
            yield f"line {number}: `{pair[0]}` is no line of {DESK}/stdin"
        elif answer != pair[1].encode():
            yield f"line {number}: `{pair[0]}` prints `{answer.decode(errors='replace')}`, not `{pair[1]}`"


def unproved(shown):
    """Where an example is none of those that are proved."""
    text = "".join(page.read_text(encoding="utf-8") for page in (ROOT / PAGES).glob("*Page.antt"))
    proved = {(typed, "\n".join(re.findall('"([^"]*)"', one or lines))) for typed, one, lines in ROW.findall(text)}
    for number, pair in shown:
        if pair and len(pair[1]) <= LONGEST and pair not in proved:
            yield f"line {number}: `{pair[0]}` with `{pair[1]}` does not stand in {PAGES}"


def untold():
    """Where the recipe in README.md is not the stored one."""
    stored = [(ROOT / "docs" / f"recipe.{part}").read_text().splitlines() for part in ("txt", "out")]
    rows = "".join(f"| `{typed}` | `{told}` |\n" for typed, told in zip_longest(*stored, fillvalue=""))
    if f"|---|---|\n{rows}\n" not in (ROOT / "README.md").read_text(encoding="utf-8"):
        yield "the recipe in README.md is not docs/recipe.txt and docs/recipe.out"


def unshown():
    """Where a page shows no screen, or one that the stored trials have not."""
    stored = (ROOT / "docs/trial.out").read_text()
    for page in ("README.md", "docs/PROTOCOL.md"):
        shown = re.search(r"(?:^    (?:master|wine) .*\n){6}", (ROOT / page).read_text(encoding="utf-8"), re.M)
        if not shown or shown.group().replace("    ", "") not in stored:
            yield f"the screen in {page} is not one of docs/trial.out"


def forms(parts):
    """The forms of each word, in the order in which the words first appear."""
    found = {}
    for cells in rows_of(parts, "Words"):
        form = cells[0].strip("`")
        found.setdefault(form.split(" ")[0], []).append(form)
    return found


def states(parts):
    """What the text says of a status, each behind its bit."""
    text = next((text for _, text in parts if text.startswith("- A status")), "")
    found = STATE.findall(EXAMPLE.sub("", text))
    told = sorted((int(before or behind or FIRST["states"]), words) for before, words, behind in found)
    return [f"{bit} {words}" for bit, words in told]


def fixed(parts):
    """What the page says in each table of the specification."""
    words = forms(parts)
    return {
        "sentences": ["0 accepted"] + [" ".join(cells) for cells in rows_of(parts, "Number")],
        "keywords": list(words),
        "forms": [", ".join(each) for each in words.values()] + [", ".join(words)],
        "states": states(parts),
    }


def specified(name):
    """The rows of a table of the specification: `rows` puts a line feed behind each string, `chars` does not."""
    body = (ROOT / SPEC).read_text(encoding="utf-8").split(f"\n{name} =\n")[1].split("\n\n")[0]
    strings = re.findall(r'(chars )?"([^"]*)"', body)
    found = "".join(string if alone else string + "\n" for alone, string in strings).splitlines()
    return [f"{number} {row}" for number, row in enumerate(found, FIRST[name])] if name in FIRST else found


def differing(told):
    """The first place where a table is not the specified one."""
    for name, rows in told.items():
        for said, row in zip_longest(rows, specified(name), fillvalue="nothing"):
            if said != row:
                yield f"{name}: `{said}`, where {SPEC} has `{row}`"
                break


def main():
    page = (ROOT / "docs/PROTOCOL.md").read_text(encoding="utf-8")
    parts, station = (blocks(page, section) for section in SECTIONS)
    sentences = {cells[0]: cells[1] for cells in rows_of(parts, "Number")}
    shown = [*examples(parts), *examples(station), *refusals(station, sentences)]
    told = fixed(parts)
    wrong = [*unanswered(shown), *unproved(shown), *differing(told), *untold(), *unshown()]
    counts = ", ".join(f"{len(rows)} {name}" for name, rows in told.items())
    total = f"words: {len(shown)} examples, {counts}, {len(wrong)} wrong"
    print("\n".join([f"words: {w}" for w in wrong] + [total]))
    return 1 if wrong or not shown else 0


if __name__ == "__main__":
    sys.exit(main())
