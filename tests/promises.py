#!/usr/bin/env python3
"""Every name that docs/PROMISES.md puts in backticks is declared where its column says, and every wrong version is of something that its row names.

The rows have four columns: a sentence, definitions, promises or theorems, and tests with wrong versions. `crate/label` is a wrong version, `crate::name` a test of
rust/crate, a path is a file (a case without its ending). Any other name is a declaration: in the second column of specs/ or of src/, in the third of those or
of proofs/, in the fourth a constructor of the table's questions. Names outside the rows are declarations of any kind.

A wrong version shows something of a row only where it changes what the row speaks of: the function or the definition that it is a version of is named in the row's
second or third column. `starred` names the table, which it is the claim about."""
import pathlib
import re
import sys

from versions import edits, versions_of

root = pathlib.Path(__file__).resolve().parent.parent


def texts(*patterns):
    return [p.read_text() for pattern in patterns for p in sorted(root.glob(pattern))]


def antt_names(sources):
    found = set()
    for text in sources:
        # comments declare nothing
        text = re.sub(r"(?m)^\s*--.*$", "", text)
        found |= set(re.findall(r"(?m)^\s*(?:abbrev |unfoldable )?(?:pub )?(?:abbrev |unfoldable )?(?:record |data )?([^\s:(){}]+)(?= [:({])", text))
    return found


def rattle_names(sources):
    found = set()
    for text in sources:
        text = re.sub(r"(?m)//.*$", "", text)
        found |= set(re.findall(r"\b(?:fn|struct|enum|const) ([A-Za-z_][A-Za-z0-9_]*)", text))
    return found


defined = antt_names(texts("crates/*/specs/*.antt")) | rattle_names(texts("crates/*/src/*.rt"))
proved = antt_names(texts("crates/*/proofs/*.antt"))
crates = {p.name for p in root.glob("crates/*")}
tests = {}
for crate in root.glob("rust/*"):
    sources = texts(f"rust/{crate.name}/tests/*.rs", f"rust/{crate.name}/src/*.rs")
    tests[crate.name] = {name for text in sources for name in re.findall(r"#\[test\]\s*(?:#\[[^\]]*\]\s*)*fn ([a-z0-9_]+)\(", text)}


# what each wrong version is a version of
versions = {f"{v.crate}/{v.label}": v.what.split("::")[-1] for edit in edits(root) for v in versions_of(edit)[0]}


def there(name, column):
    if "::" in name:
        crate, _, test = name.partition("::")
        return test == "" and crate in tests or test in tests.get(crate, ())
    if "*" in name:
        return any(root.glob(name.rstrip("/")))
    if name.startswith(("tests/", "docs/", "rust/", "c/")):
        return (root / name).exists() or any(root.glob(name + ".hex"))
    if re.fullmatch(r"[a-z]+/[a-z0-9_]+", name):
        return name in versions
    if name in ("requires", "src/"):
        return True
    if column == 2:
        return name in defined
    return name in defined or name in proved or name in crates or name in tests


missing = []
others = []
rows = 0
page = (root / "docs/PROMISES.md").read_text()
for line in page.splitlines():
    cells = [c.strip() for c in line.strip().strip("|").split(" | ")] if line.startswith("| ") else []
    if len(cells) == 4:
        rows += 1
        parts = list(zip(range(1, 5), cells))
    else:
        parts = [(0, line)]
    named = set(re.findall(r"`([^`]+)`", " ".join(cells[1:3])))
    for name in re.findall(r"`([^`]+)`", cells[3]) if len(cells) == 4 else []:
        if name in versions and versions[name] not in named | ({"table"} if "starred" in named else set()):
            others.append(f"{name} is a version of {versions[name]}, which the row does not name: {cells[0]}")
    for column, cell in parts:
        for name in re.findall(r"`([^`]+)`", cell):
            if not there(name, column):
                missing.append(f"{name} (column {column}): {cells[0] if cells else line[:60]}")
for m in missing:
    print("docs/PROMISES.md names what is not there:", m)
for line in others:
    print("docs/PROMISES.md:", line)
print(rows, "rows")
sys.exit(1 if missing or others or rows < 150 else 0)
