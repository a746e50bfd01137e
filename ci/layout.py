#!/usr/bin/env python3
"""Holds include/temixohuel.h and include/temixohuel.rs to the libraries for firmware: ci/layout.py [mir], from the root

What crosses is #[repr(C)], so C's rules lay it out: sizes, names, signs and signatures come from the sources of the
crates. All of it is written to target/layout/ as assertions, which gcc and rustc check. With the word mir all of these
types are held to the MIR that was proved, too, as `rt ci` left it (ci/mir.py). Exit 1, naming what differs.
"""
import re
import subprocess
import sys
from pathlib import Path

import mir

# What crosses: its crate and name, its name in C, its name in Rust.
CROSSING = [
    (("controller", "Controller"), "temixohuel_controller", "Opaque"),
    (("controller", "PowerOn"), "temixohuel_power_answer", "PowerAnswer"),
    (("controller", "ByteAnswer"), "temixohuel_byte_answer", "ByteAnswer"),
    (("controller", "TickAnswer"), "temixohuel_tick_answer", "TickAnswer"),
    (("firmware", "Travels"), "temixohuel_travel_answer", "TravelAnswer"),
    (("firmware", "Positions"), "temixohuel_position_answer", "PositionAnswer"),
    (("trial", "Trial"), "temixohuel_trial_answer", "TrialAnswer"),
    (("journal", "Entry"), "temixohuel_entry", "Entry"),
    (("journal", "Appended"), "temixohuel_append_answer", "AppendAnswer"),
    (("journal", "EntryAt"), "temixohuel_read_answer", "ReadAnswer"),
]
OPAQUE = ("controller", "Controller")
LIBRARIES = ("firmware", "trial_c")  # one archive each
STRUCT = re.compile(r"((?:^#\[[^\n]*\n)*)^pub(?:\(crate\))? struct (\w+)(?: \{\n(.*?)^\}|\(pub (\w+)\);)", re.M | re.S)
FIELD = re.compile(r"^ +(?:pub(?:\(crate\))? )?(\w+): ([^,]+),$", re.M)
SIZES = {f"{sign}{bits}": bits // 8 for sign in "iu" for bits in (8, 16, 32, 64)} | {"usize": 8, "bool": 1}
C_NUMBERS = {f"{sign}{n}": f"{'u' * (sign == 'u')}int{n}_t" for sign in "iu" for n in (8, 16, 32, 64)}
C_NUMBERS |= {"usize": "size_t", "bool": "_Bool", "*mut u8": "uint8_t *", "*const u8": "const uint8_t *"}
SLICES = {"&mut [u8]": ["*mut u8", "usize"], "&[u8]": ["*const u8", "usize"]}
HEADER, BINDING, ROOM = Path("include/temixohuel.h"), Path("include/temixohuel.rs"), Path("target/layout")


def source(crate):
    """The sources of a crate without their comments."""
    texts = (path.read_text(encoding="utf-8") for path in sorted(Path(f"crates/{crate}/src").rglob("*.rt")))
    return "".join(re.sub(r"//.*", "", text) for text in texts)


def declared():
    """Names and types of the fields of each #[repr(C)] struct that the libraries or a crate below have; its crate."""
    found, owners = {}, {}
    for crate in (*mir.below(*LIBRARIES), *LIBRARIES):
        for attributes, name, body, number in STRUCT.findall(source(crate)):
            if "#[repr(C)]" in attributes:
                if name in found:
                    sys.exit(f"layout: two structs {name}")
                found[name], owners[name] = [("0", number)] if number else FIELD.findall(body), crate
                if not number and len(found[name]) != len(re.findall(r"^ +\S.*$", body, re.M)):
                    sys.exit(f"layout: not all of {name} of crates/{crate} is a field on a line of its own")
    return found, owners


TYPES, OWNERS = declared()


def laid_out(kind):
    """Size and alignment of a type, and the offsets of a struct's fields."""
    if kind in SIZES:
        return SIZES[kind], SIZES[kind], []
    array = re.fullmatch(r"\[(\w+); (\d+)\]", kind)
    if array:
        size, align, _ = laid_out(array.group(1))
        return size * int(array.group(2)), align, []
    if kind not in TYPES:
        sys.exit(f"layout: what crosses holds {kind}, which is no number, array or #[repr(C)] struct")
    at, widest, offsets = 0, 1, []
    for _, field in TYPES[kind]:
        size, align, _ = laid_out(field)
        at = -(-at // align) * align
        offsets.append(at)
        at, widest = at + size, max(widest, align)
    return -(-at // widest) * widest, widest, offsets


def fields_of(rattle):
    """Names and types of a struct's fields, as the source has them; one-number structs are their number."""
    return [(field, kind.replace("Travel", TYPES["Travel"][0][1])) for field, kind in TYPES[rattle[1]]]


def of_mir(kind):
    """A type of the MIR as the source writes it, but for signs."""
    if kind == "Bool":
        return "bool"
    if "Int" in kind:
        return f"u{kind['Int']}"
    if "Array" in kind:
        return f"[{of_mir(kind['Array'][0])}; {kind['Array'][1].get('Lit')}]"
    return kind["Named"][0]["name"].split("::")[-1] if "Named" in kind else str(kind)


def otherwise():
    """Where the MIR has other fields than the source."""
    shapes = {(path.split("::")[0], path.split("::")[-1]): fields
              for path, fields in mir.shapes(mir.functions(mir.below(*LIBRARIES))).items()}
    for name, fields in TYPES.items():
        has = [re.sub(r"\bi(?=\d)", "u", kind).replace("usize", "u64") for _, kind in fields]
        crate = OWNERS[name]
        if crate not in LIBRARIES:
            told = [of_mir(kind) for kind in shapes[crate, name]] if (crate, name) in shapes else "nothing"
            if has != told:
                yield f"layout: {crate}::{name}: the MIR has {told}, the source {has}"


def functions():
    """Name, types of the parameters and type of the result of each function of the libraries."""
    text = "".join(map(source, LIBRARIES))
    for name, words, result in re.findall(r'pub extern "C" fn (\w+)\(([^)]*)\) -> (\w+)', text):
        kinds = [part.split(": ")[1] for part in words.split(", ")]
        yield name, [kind for word in kinds for kind in SLICES.get(word, [word])], result


def renamed(kind, numbers, column):
    """A Rattle type in C (column 1) or Rust (column 2)."""
    for row in CROSSING:
        if row[0][1] == kind:
            return row[column]
    return numbers.get(kind, kind)


def c_type(kind):
    array = re.fullmatch(r"\[(\w+); (\d+)\]", kind)
    if array:
        return f"{renamed(array.group(1), C_NUMBERS, 1)}[{array.group(2)}]"
    return renamed(kind, C_NUMBERS, 1)


def rust_type(kind):
    return renamed(kind, {}, 2)


def c_assertions(layouts):
    same = "__builtin_types_compatible_p(__typeof__(%s), %s)"
    claims = []
    for (rattle, name, _), (size, align, offsets) in zip(CROSSING, layouts):
        claims += [f"sizeof({name}) == {size}", f"_Alignof({name}) == {align}"]
        for (field, kind), offset in zip(fields_of(rattle), offsets):
            if rattle != OPAQUE:
                claims += [f"offsetof({name}, {field}) == {offset}", same % (f"(({name} *)0)->{field}", c_type(kind))]
    for name, kinds, result in functions():
        claims.append(same % (f"&{name}", f"{c_type(result)} (*)({', '.join(map(c_type, kinds))})"))
    return "\n".join(['#include "temixohuel.h"', *(f'_Static_assert({claim}, "{claim}");' for claim in claims), ""])


def rust_assertions(layouts):
    lines = [BINDING.read_text(encoding="utf-8")]
    for (rattle, _, name), (size, align, offsets) in zip(CROSSING, layouts):
        claims = [f"size_of::<{name}>() == {size}", f"align_of::<{name}>() == {align}"]
        if rattle != OPAQUE:
            fields = fields_of(rattle)
            lines.append(f"const _: fn({name}) = |{name} {{ {', '.join(field for field, _ in fields)} }}| {{")
            lines += [f"    let _: {rust_type(kind)} = {field};" for field, kind in fields] + ["};"]
            claims += [f"offset_of!({name}, {field}) == {offset}" for (field, _), offset in zip(fields, offsets)]
        lines += [f"const _: () = assert!(std::mem::{claim});" for claim in claims]
    for name, kinds, result in functions():
        kinds = ", ".join(map(rust_type, kinds))
        lines.append(f'const _: unsafe extern "C" fn({kinds}) -> {rust_type(result)} = {name};')
    return "\n".join(lines + [""])


def undeclared():
    """Where the header has other fields or functions than the library; offsets alone would let one hide in a hole."""
    text = re.sub(r"/\*.*?\*/", "", HEADER.read_text(encoding="utf-8"), flags=re.S)
    bodies = {name: body for body, name in re.findall(r"typedef struct \{(.*?)\} (\w+);", text, re.S)}
    for rattle, name, _ in CROSSING:
        has = re.findall(r"\w+ (\w+)(?:\[\w+\])?;", bodies.get(name, ""))
        if rattle != OPAQUE and has != [field for field, _ in fields_of(rattle)]:
            yield f"layout: {HEADER}: fields of {name}: {has}"
    has = sorted(re.findall(r"\b(temixohuel_\w+)\(", text))
    if has != sorted(name for name, _, _ in functions()):
        yield f"layout: {HEADER}: functions: {has}"


def main():
    layouts = [laid_out(name) for (_, name), _, _ in CROSSING]
    ROOM.mkdir(parents=True, exist_ok=True)
    (ROOM / "check.c").write_text(c_assertions(layouts), encoding="utf-8")
    (ROOM / "check.rs").write_text(rust_assertions(layouts), encoding="utf-8")
    wrong = [*undeclared(), *(otherwise() if "mir" in sys.argv[1:] else [])]
    rustc = ["rustc", "--edition=2021", "--crate-type=lib", "--emit=metadata", "-Adead_code", "--out-dir", ROOM]
    for words in (["gcc", "-std=c11", "-Iinclude", "-fsyntax-only", ROOM / "check.c"], [*rustc, ROOM / "check.rs"]):
        said = subprocess.run(words, capture_output=True, text=True)
        wrong += [said.stderr] if said.returncode else []
    size, align, _ = layouts[0]
    told = f"{len(CROSSING)} types, {len(list(functions()))} functions, a controller of {size} bytes, alignment {align}"
    print("\n".join(wrong + [f"layout: {told}, {len(wrong)} wrong"]))
    return 1 if wrong else 0


if __name__ == "__main__":
    sys.exit(main())
