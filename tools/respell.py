#!/usr/bin/env python3
"""Spells this repository's own definitions and lemmas as today's Rattle spells names: tools/respell.py [root]

It ran once, after the kit's port.py. A name that a file of specs/ or proofs/ declares, with a capital within or a dash,
gets plain underscores, in .antt and .rt files and in the texts of must-fail edits. Types, names of Rattle source and
names that the check makes stay. Where two names would fall together in a file, the dashed one (a lemma) gets `_lem`.
"""
import collections
import re
import sys
from pathlib import Path

ROOT = Path(sys.argv[1] if len(sys.argv) > 1 else ".")
NAME = r"[^\s(){}.;,@\"«»`]+"
TOKEN = re.compile(rf"(?<![^\s(){{}};,.@«»`]){NAME}")
DECLARED = re.compile(
    r"^[ ]*(?:(?:abbrev|unfoldable|pub|opaque|private|ruleset|syntax) +)*(" + NAME + r")((?: +(?:\{[^{}\n]*\}|\([^()\n]*\)))*) *(?::(?![=:])|=)",
    re.M,
)
# Lemmas that have their definition's name already, once that is respelled.
LEMMAS = {"held_move": "crates/station/", "is_within": "crates/line/proofs/"}


def in_snake_case(name):
    words = re.sub(r"(?<=[a-z0-9])[A-Z]", lambda m: "_" + m[0].lower(), name)
    return words.replace("-", "_")


def uncommented(text, mark):
    return re.sub(mark + r"[^\n]*", "", text)


def comments(text, mark):
    return [m.span() for m in re.finditer(mark + r"[^\n]*", text)]


def files(ending):
    return [p for p in sorted((ROOT / "crates").rglob("*" + ending)) if "/out/" not in str(p)]


def wants(name):
    if name.startswith("+"):
        return bool(re.search(r"[a-z0-9_][A-Z-]", name))
    if not re.match(r"[A-Za-z]", name):
        return False
    if not re.match(r"^[\w'ᵀ₀-₉-]+$", name):
        return False
    return bool(re.search(r"[a-z0-9]-[\w]|^[A-Z]\w*-|\w-", name) or re.match(r"^[a-z][a-z0-9_]*[A-Z]", name))


def declared_in(text):
    return [m.group(1) for m in DECLARED.finditer(text)]


def tokens(text):
    return TOKEN.findall(text)


def main():
    antts, rts, edits = files(".antt"), files(".rt"), files(".edit")
    texts = {p: p.read_text(encoding="utf-8") for p in antts + rts + edits}
    declared = set()
    for p in antts:
        declared |= {n for n in declared_in(uncommented(texts[p], "--")) if wants(n)}
    # Names that a library of the kit has: those stay where a file brings them from there.
    table = {n: in_snake_case(n) for n in declared}
    table = {a: b for a, b in table.items() if a != b}
    brought = {}
    for p in antts + rts:
        names = set()
        for path, items in re.findall(r"\buse ([^\s;{]+?)\.?\{([^}]*)\}", texts[p]):
            if not re.match(r"Rattle\.(?!std|core|io|libc|os)", path):
                names |= set(re.findall(NAME, items))
        brought[p] = names
    # What falls together in some file.
    together = collections.defaultdict(set)
    for p in antts + rts:
        code = uncommented(texts[p], "--" if p.suffix == ".antt" else "//")
        have = set(tokens(code))
        if p.suffix == ".rt":
            have = set(re.findall(r"(?<![\w.])([\w'-]+)(?![\w(]*\()", code)) | {t for t in have if t in table}
        mine = {t for t in have if t in table and t not in brought[p]}
        for t in mine:
            if table[t] in have and table[t] != t:
                together[t].add((str(p), table[t]))
        seen = collections.defaultdict(list)
        for t in mine:
            seen[table[t]].append(t)
        for new, olds in seen.items():
            if len(olds) > 1:
                for t in olds:
                    if "-" in t:
                        together[t].add((str(p), " ".join(sorted(olds))))
    for t, where in sorted(together.items()):
        if "-show" in sys.argv:
            print("together:", t, sorted(where)[:3])
    for t in together:
        if "-" in t:
            table[t] = table[t] + "_lem"
    if "-show" in sys.argv:
        return

    # A name that a file gives by `as`.
    table["digitsNumber"] = "digits_number"

    def turn(text, p, brought_here):
        said = comments(text, "--") if p.suffix == ".antt" else []

        def one(m):
            t = m.group(0)
            if "-" in t and any(a <= m.start() < b for a, b in said) and text[m.start() - 1] != "`":
                return t
            if t in LEMMAS and str(p.relative_to(ROOT)).startswith(LEMMAS[t]):
                return t + "_lem"
            if t not in table or t in brought_here:
                return t
            before = text[m.start() - 1 : m.start()]
            if before == "." and "-" in t:
                head = re.search(r"([\w'-]+)\.$", text[max(0, m.start() - 60) : m.start()])
                if not head or not own_head(head.group(1), t):
                    return t
            return table[t]

        return TOKEN.sub(one, text)

    def turn_comment(text, p):
        return re.sub(r"`[^`]*`|\b[a-z]+[A-Z]\w*", lambda m: turn(m.group(0), p, set()), text)

    fields = set()
    for p in antts:
        for block in re.findall(r"^pub record [^\n]*(?:\n(?: [^\n]*)?)*? where\n((?:  [^\n]*\n|\n)+)", texts[p], re.M):
            fields |= {n for n in declared_in(uncommented(block, "--")) if wants(n)}

    def own_head(head, t):
        return head != "tie" and (head in aliases or t in fields)

    for p in antts:
        aliases = set(re.findall(r"^use Rattle\.(?!std)\S* as (\S+)$", texts[p], re.M)) - {"tie"}
        new = turn(texts[p], p, brought[p])
        if new != texts[p]:
            p.write_text(new, encoding="utf-8")
    for p in rts:
        aliases = set(re.findall(r"ghost use Rattle\.(?!std)\S* as (\S+);", texts[p]))
        lines = []
        for line in texts[p].split("\n"):
            code, mark, comment = line.partition("//")
            if '"' in code and not code.lstrip().startswith(("ghost use", "requires", "ensures")):
                lines.append(line)
                continue
            lines.append(turn(code, p, brought[p]) + mark + turn_comment(comment, p))
        new = "\n".join(lines)
        if new != texts[p]:
            p.write_text(new, encoding="utf-8")


if __name__ == "__main__":
    main()
