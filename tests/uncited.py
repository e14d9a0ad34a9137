#!/usr/bin/env python3
"""Names that stand in a file of Rattle or antt for nothing: imported and not used there, or declared and cited nowhere, neither by a proof nor by docs/PROMISES.md.

    tests/uncited.py [ROOT]

The toolchain warns of neither. It goes by the text: a name is used where it stands as a word of its own outside comments and imports."""
import collections
import pathlib
import re
import sys

root = pathlib.Path(sys.argv[1]) if len(sys.argv) > 1 else pathlib.Path(__file__).resolve().parent.parent
# what may stand beside a word; a name of antt has any other characters, also dashes, primes and signs
APART = r"[\s(){}\[\];,.⌜⌝]"
WORD = re.compile(rf"(?:(?!{APART}).)+")


def stripped(path):
    text = path.read_text()
    return re.sub(r"(?m)(^|\s)(--|//).*$", "", text)


def parts(name):
    """The words by which a name is used: those of a mixfix name stand apart."""
    return [p for p in name.split("◌") if p] if "◌" in name else [name]


def imports(text):
    """Each import with the names that it brings, as they are written and as they are used."""
    for m in re.finditer(r"(?m)^(?:pub )?(?:ghost )?use ([^;\n{]+?)(?:\{([^}]*)\})?;?$", text):
        if m.group(0).startswith("pub "):
            continue
        if m.group(2) is not None:
            for one in m.group(2).split(","):
                yield m, one.strip(), one.split(" as ")[-1].strip()
        else:
            yield m, m.group(1).strip(), re.split(r"::| as |\.", m.group(1).strip())[-1]


def used(name, words, text):
    if name == "[]":
        return "[]" in text
    return name in words or all(p in words for p in parts(name))


HEAD = re.compile(r"(?m)^( {0,4})(?:(?:abbrev |unfoldable )?(?:pub )?(?:abbrev |unfoldable )?(?:record |data )?([^\s:(){}]+)(?: [({][^\n]*)? : |module )")


def declared(text):
    """Names with a type of their own, at the edge or in a module, each with the text up to the next one."""
    heads = list(HEAD.finditer(text))
    for head, after in zip(heads, heads[1:] + [None]):
        if head.group(2) and len(head.group(1)) in (0, 2):
            yield head.group(2), text[head.start() : after.start() if after else len(text)]


files = {p: stripped(p) for kind in ("src/**/*.rt", "specs/**/*.antt", "proofs/**/*.antt") for p in sorted(root.glob("crates/*/" + kind))}
found = []
for path, text in files.items():
    rest = re.sub(r"(?m)^(?:pub )?(?:ghost )?use .*$", "", text)
    words = set(WORD.findall(rest))
    if path.suffix == ".rt":
        words |= set(re.findall(r"[A-Za-z_][A-Za-z0-9_]*", rest))
    for _, written, name in imports(text):
        if not used(name, words, rest):
            found.append(f"{path.relative_to(root)}: {written} is imported and not used")

# a name is cited where it stands outside its own declaration
cited = collections.Counter(word for text in files.values() for word in WORD.findall(text))
# an attribute of a function cites a lemma or a definition by its path
cited.update(name for path, text in files.items() if path.suffix == ".rt" for attribute in re.findall(r"#\[tactic\([^\]]*\]", text) for name in re.findall(r"::(\w+)(?=[,)])", attribute))
own = collections.Counter(name for text in files.values() for name, block in declared(text) for word in WORD.findall(block) if word in {name, *parts(name)})
promises = root / "docs/PROMISES.md"
named = set(re.findall(r"`([^`]+)`", promises.read_text())) if promises.is_file() else set()
for path, text in files.items():
    # the goals of a function are the toolchain's, so nothing of the repository cites their answers
    if path.suffix != ".antt" or path.name in ("Answers.antt", "Invariants.antt"):
        continue
    for name in {name for name, _ in declared(text)}:
        if sum(cited[p] for p in {name, *parts(name)}) <= own[name] and name not in named:
            found.append(f"{path.relative_to(root)}: {name} is cited nowhere")
for line in sorted(found):
    print(line)
print(len(files), "files")
sys.exit(1 if found or not files else 0)
