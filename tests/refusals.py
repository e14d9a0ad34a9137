#!/usr/bin/env python3
"""Every table of refusals has the numbers of `number_of` (crates/refusals/specs/Numbers.antt), each once and no other: the defines and the words of c/rajvokshul.h,
the cases, numbers and words of the safe crate, and the tables of README.md and docs/API.md.

    tests/refusals.py [ROOT]

Where a table names its rows, a number stands beside the name that `number_of` gives it to; and where tables say what was wrong in the words that a program prints,
they say the same: the header, the safe crate and README.md."""
import pathlib
import re
import sys


def part(text, begins, ends):
    """What stands between two marks, which have to be there."""
    begin = text.index(begins)
    return text[begin : text.index(ends, begin + len(begins))]


def camel(name):
    return "".join(word.capitalize() for word in name.split("_"))


def spec(text):
    return [(int(number), name) for name, number in re.findall(r"(?m)^number_of \(?(\w+)[^=\n]*= (\d+)$", text)]


def words(text):
    """Pairs of a name and the text that belongs to it, in a match or a switch."""
    return re.findall(r'(\w+)(?: \{ \.\. \})?(?::| =>)\s*(?:\{\s*|return )?"((?:[^"\\]|\\.)*)"', text)


def header(text):
    defines = part(text, "/* ---- Refusals", "static inline const char *rajvokshul_reason")
    # 0 is no refusal
    numbers = [(int(number), camel(name)) for name, number in re.findall(r"(?m)^#define RAJVOKSHUL_(\w+) (\d+)", defines) if name != "ACCEPTED"]
    of_name = {name: number for number, name in numbers}
    reasons = [(camel(name.removeprefix("RAJVOKSHUL_")), said) for name, said in words(part(text, "*rajvokshul_reason", "default:"))]
    yield "defines", numbers, None
    yield "words", *by_number([(name, said) for name, said in reasons if name != "Accepted"], of_name)


def by_number(reasons, of_name):
    numbers = [(of_name.get(name), name) for name, _ in reasons]
    return numbers, {of_name.get(name): said for name, said in reasons}


def safe_crate(text):
    numbers = [(int(n), name) for name, n in re.findall(r"Refusal::(\w+)(?: \{ \.\. \})? => (\d+),", part(text, "pub fn number(", "\n    }\n"))]
    of_name = {name: number for number, name in numbers}
    cases = re.findall(r"(?m)^    ([A-Z]\w+)(?:,| \{)$", part(text, "pub enum Refusal {", "\n}\n"))
    # the case that names a round and a truck is made from them and not from its number alone
    bare = re.findall(r"Refusal::(\w+),", part(text, "const BARE", "];")) + ["OwnLoss"]
    yield "numbers", numbers, None
    yield "cases", [(of_name.get(name), name) for name in cases], None
    yield "cases of a number", [(of_name.get(name), name) for name in bare], None
    yield "words", *by_number(words(part(text, "pub fn reason(", "\n    }\n")), of_name)


def readme(text):
    rows = re.findall(r"(?m)^\| (\d+) \| (.*) \|$", part(text, "\n## Refusals", "\n## "))
    yield "table", [(int(number), None) for number, _ in rows], {int(number): said for number, said in rows}


def api(text):
    rows = re.findall(r"(?m)^\| (\d+) \| `(\w+)[^`]*` \|", text)
    yield "table", [(int(number), name) for number, name in rows], None


TABLES = {"c/rajvokshul.h": header, "rust/rajvokshul/src/refusal.rs": safe_crate, "README.md": readme, "docs/API.md": api}


def main():
    root = pathlib.Path(sys.argv[1]) if len(sys.argv) > 1 else pathlib.Path(__file__).resolve().parent.parent
    numbered = spec((root / "crates/refusals/specs/Numbers.antt").read_text())
    names = dict(numbered)
    wrong, said = [], {}
    if len(names) != len(numbered) or not names:
        wrong.append(f"crates/refusals/specs/Numbers.antt gives {len(names)} numbers to {len(numbered)} names")
    for file, tables in TABLES.items():
        for what, rows, reasons in tables((root / file).read_text()):
            numbers = [number for number, _ in rows]
            place = f"{file}, {what}:"
            wrong += [f"{place} {number} ({names[number]}) is not there" for number in names if number not in numbers]
            wrong += [f"{place} {number} ({name or 'without a name'}) is no refusal's number" for number, name in rows if number not in names]
            wrong += [f"{place} {number} is there twice" for number in sorted(set(numbers) & set(names)) if numbers.count(number) > 1]
            wrong += [f"{place} {number} is {name}, but {names[number]} by number_of" for number, name in rows if number in names and name not in (None, names[number])]
            if reasons is not None:
                said[place] = reasons
    (first, expected), *others = said.items()
    for place, reasons in others:
        wrong += [f"{place} {n} is {reasons[n]!r}, but {expected[n]!r} in {first[:-1]}" for n in names if n in reasons and n in expected and reasons[n] != expected[n]]
    for line in wrong:
        print(line)
    print(len(names), "refusals")
    sys.exit(1 if wrong else 0)


if __name__ == "__main__":
    main()
