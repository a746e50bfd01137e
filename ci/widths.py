#!/usr/bin/env python3
"""Holds the share's step to numbers of at most 32 bits (paper 02, 4/14): ci/widths.py, from the root

A contract speaks of values, so a proof would take a wider working too. This reads the MIR of what the libraries for
firmware stand on, as `rt ci` proved it and left it (ci/mir.py), so it runs after that:

- the step is given three numbers of 32 bits and answers one and a flag; it adds, subtracts and compares numbers of at
  most 32 bits, and does nothing else: no cast, no float, no address, no call; it has one caller
- its module has no cast and no float, and calls nothing but itself, the ramp and the output word
- the whole part of m × d / M is formed nowhere: but for three products of the ramp, one of them by a constant that is
  cast, no function outside the toolchain's library multiplies two numbers that vary, shifts or divides by a number that
  varies, or has a float

A static library leaves no MIR, so its own functions are read in its source: they hand on and calculate nothing.
Exit 1, naming what is not so.
"""
import re
import sys
from pathlib import Path

import mir

LIBRARIES = ("firmware", "trial_c")  # one archive each
MODULE = "controller::motion::"
STEP, CALLER, ANSWER = MODULE + "share_step", MODULE + "axis_step", MODULE + "Share"
OUTSIDE = {"controller::ramp::pace", "controller::words::word"}
PRODUCTS = {"controller::ramp::ramp": ["Mul", "Mul", "Mul"]}
# All words that the step's statements may have: what is done with its locals.
FORM = set(
    "Seq Assign local steps Copy Int width value True False Opd Op2 Add Sub Le Lt Unsigned If Skip Aggregate Return"
    .split()
)
VARIED = re.compile("(Wrap)?(Mul|Div|Rem)|Sh[lr]")
# What the body of an export would calculate with.
CALCULATES = re.compile(r"[-+*/%^|!]|[^&]&[^&m\[]|<<|>>|\bas\b|\bf(?:32|64)\b|\bwrapping_|\bchecked_")


def words(part):
    """Each word of a part of the MIR: what is done, and to what kind of thing."""
    if isinstance(part, dict):
        for key, inner in part.items():
            yield key
            yield from words(inner)
    elif isinstance(part, list):
        for inner in part:
            yield from words(inner)
    elif isinstance(part, str):
        yield part


def found(part, name):
    """What stands under this word, anywhere in a part of the MIR."""
    if isinstance(part, dict):
        for key, inner in part.items():
            if key == name:
                yield inner
            yield from found(inner, name)
    elif isinstance(part, list):
        for inner in part:
            yield from found(inner, name)


def called(function):
    """The functions that one names, and each method that a type is to supply."""
    yield from (name for name, _ in found(function["body"], "Fn"))
    yield from ("a method" for _ in found(function["body"], "Method"))
    yield from (f"the impl {name}" for name, *_ in found(function["body"], "Impl"))


def in_step(function, shapes):
    """What the step has and should not."""
    yield from sorted(set(words(function["body"])) - FORM)
    kinds = [local["ty"] for local in function["locals"]]
    answer = {"Named": [{"name": ANSWER, "lifetimes": []}, []]}
    for kind in kinds:
        if kind not in ({"Int": 32}, "Bool", answer):
            yield f"a local of {kind}"
    yield from (f"{bits} bits" for bits in found(function["body"], "width") if bits > 32)
    yield from (f"a local that is {local['home']}" for local in function["locals"] if local["home"] != "ValueLocal")
    if function["params"] != 3 or kinds[:4] != [answer, {"Int": 32}, {"Int": 32}, {"Int": 32}]:
        yield "other numbers go in or come out"
    if shapes.get(ANSWER) != [{"Int": 32}, "Bool"]:
        yield f"{ANSWER} is {shapes.get(ANSWER)}"


def in_module(function):
    yield from sorted(set(words([function["body"], function["locals"]])) & {"Cast", "Float", "FloatToBits"})
    yield from sorted(name for name in set(called(function)) - OUTSIDE if not name.startswith(MODULE))


def varying(function):
    """Products of two numbers that vary; quotients, remainders and shifts by a number that varies; floats; vectors."""
    for operation, left, right in found(function["body"], "Op2"):
        name = operation if isinstance(operation, str) else next(iter(operation))
        fixed = [isinstance(side, dict) and "Int" in side for side in (left, right)]
        if VARIED.fullmatch(name) and not fixed[1] and not (name.endswith("Mul") and fixed[0]):
            yield name
    yield from (word for word in words([function["body"], function["locals"]]) if word in ("Float", "Vec1", "Vec2"))


def exports():
    """Where the own source of a static library does more than hand on."""
    for source in (source for crate in LIBRARIES for source in Path(f"crates/{crate}/src").rglob("*.rt")):
        text = re.sub(r"//.*", "", source.read_text(encoding="utf-8"))
        bodies = re.findall(r"^\{\n(.*?)^\}$", text, re.M | re.S)
        if len(bodies) != len(re.findall(r"\bfn \w+", text)):
            yield f"{source}: not all bodies were read"
        yield from (f"{source}: `{' '.join(body.split())}` calculates" for body in bodies if CALCULATES.search(body))


def wrong(functions):
    if STEP not in functions:
        yield f"{STEP} is not there"
        return
    for fault in in_step(functions[STEP], mir.shapes(functions)):
        yield f"{STEP}: {fault}"
    callers = [name for name, function in functions.items() for callee in called(function) if callee == STEP]
    if callers != [CALLER]:
        yield f"{STEP}: called by {callers}"
    for name, function in functions.items():
        for fault in in_module(function) if name.startswith(MODULE) else []:
            yield f"{name}: {fault}"
        products = sorted(varying(function))
        if products != PRODUCTS.get(name, []):
            yield f"{name}: {products} of numbers that vary"
    yield from exports()


def main():
    functions = mir.functions(mir.below(*LIBRARIES))
    faults = [f"widths: {fault}" for fault in wrong(functions)]
    print("\n".join(faults + [f"widths: the share's step, {len(functions)} functions, {len(faults)} wrong"]))
    return 1 if faults else 0


if __name__ == "__main__":
    sys.exit(main())
