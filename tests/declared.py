#!/usr/bin/env python3
"""The exported functions are declared alike wherever they are: for C in c/rajvokshul.h, for Rust in rust/rajvokshul-sys, and in crates/ffi_c, which has them.

    tests/declared.py [ROOT]

A function that one of the three lacks is named, and so is one whose arguments or answer differ in number, order or type. Between C and Rust the arguments also
have the same names. Inline functions of the header are none of the archive's and have no counterpart.

In crates/ffi_c a slice is one argument, where C and Rust have a pointer and a length."""
import pathlib
import re
import sys

# what C's types are in Rust; any other stays as it is written, and so differs
C_TYPES = {"uint8_t": "u8", "uint16_t": "u16", "uint32_t": "u32", "size_t": "usize"}


def arguments(text):
    return [part.strip() for part in re.sub(r"\s+", " ", text).split(",") if part.strip()]


def of_header(text):
    """Each function that is declared and not inline: its answer, and its arguments with names and types as Rust has them."""
    found = {}
    for answer, name, inside in re.findall(r"(?m)^([a-z0-9_]+) (rajvokshul_[a-z0-9_]+)\(([^)]*)\);", re.sub(r"(?s)/\*.*?\*/", "", text)):
        found[name] = (C_TYPES.get(answer, answer), [c_argument(a) for a in arguments(inside)])
    return found


def c_argument(text):
    m = re.fullmatch(r"(const )?(\w+) (\*?)(\w+)", text)
    if not m:
        return ("", text)
    const, base, pointer, name = m.groups()
    kind = C_TYPES.get(base, base)
    return (name, (("*const " if const else "*mut ") + kind) if pointer else kind)


def of_rust(text):
    text = re.sub(r"//.*", "", text)
    found = {}
    for name, inside, answer in re.findall(r"pub fn (\w+)\(([^)]*)\)(?: -> (\w+))?;", text):
        found[name] = (answer, [tuple(a.split(": ", 1)) for a in arguments(inside)])
    return found


def of_rattle(text):
    text = re.sub(r"//.*", "", text)
    found = {}
    for name, inside, answer in re.findall(r'pub extern "C" fn (\w+)\(([^)]*)\)\s*->\s*(\w+)', text):
        found[name] = (answer, [one for a in arguments(inside) for one in rattle_argument(a)])
    return found


def rattle_argument(text):
    name, kind = text.split(": ", 1)
    m = re.fullmatch(r"&(mut )?(\[)?(\w+)\]?", kind)
    if not m:
        return [(name, kind)]
    pointer = ("*mut " if m.group(1) else "*const ") + m.group(3)
    return [(name, pointer), (name + "_len", "usize")] if m.group(2) else [(name, pointer)]


def shown(function):
    answer, args = function
    return f"({', '.join(f'{name}: {kind}' for name, kind in args)}) -> {answer}"


def bare(function):
    answer, args = function
    return answer, [kind for _, kind in args]


def main():
    root = pathlib.Path(sys.argv[1]) if len(sys.argv) > 1 else pathlib.Path(__file__).resolve().parent.parent
    tables = {}
    for file, read in (("c/rajvokshul.h", of_header), ("rust/rajvokshul-sys/src/lib.rs", of_rust), ("crates/ffi_c/src/lib.rt", of_rattle)):
        tables[file] = read((root / file).read_text())
    (header, in_c), (sys_crate, in_rust), (_, in_rattle) = tables.items()
    wrong = []
    for name in sorted(set().union(*tables.values())):
        lacking = [file for file, functions in tables.items() if name not in functions]
        wrong += [f"{file} lacks {name}" for file in lacking]
        if lacking:
            continue
        if in_c[name] != in_rust[name]:
            wrong.append(f"{name} is {shown(in_c[name])} in {header}, but {shown(in_rust[name])} in {sys_crate}")
        if bare(in_rust[name]) != bare(in_rattle[name]):
            wrong.append(f"{name} is {shown(in_rust[name])} in {sys_crate}, but crates/ffi_c has {shown(in_rattle[name])}")
    for line in wrong:
        print(line)
    print(len(in_c), "functions")
    sys.exit(1 if wrong or not all(tables.values()) else 0)


if __name__ == "__main__":
    main()
