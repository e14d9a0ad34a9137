#!/usr/bin/env python3
"""Wrong versions: what the must-fail edits hold, and what the check said of each of them.

    tests/versions.py layout [ROOT]       each version changes what it names, and no two of an edit are looked up in the same place
    tests/versions.py try [ROOT]          checks each edit over what `rt check` kept, and writes what the check says to target/must-fail; a line as each is done
    tests/versions.py refusals [ROOT]     a line for each version, from those logs: 'ok ..' where it is refused for a fact, else 'FAILED ..'
    tests/versions.py names [ROOT]        no answer in these logs is refused for a name that an edit took away
    tests/versions.py bystanders [ROOT]   functions that no version of an edit names, but that call one that is refused, have no fact of their own
    tests/versions.py alone CRATE LABEL   checks one version by itself, and says what it is refused for

An edit holds versions, each after a line

    version: LABEL of NAME [at DECLARATION | at FILE DECLARATION]

NAME is a function, with its module as in `replay::veto` and its type as in `Reader::take`, whose body the version changes; `contract NAME` says that it changes the function's contract; or NAME
is a definition of specs/. A check goes on after a refusal, so one check of the crate serves all versions of an edit. What the check says of a function stands
in the log with the function's own answers, or on its own line where it has none, whether or not a function that it calls is refused too: its goals rest on the
contract of what it calls. So a version of a function is looked up by that, and where an edit has two versions of a function by the goal that each breaks
(DECLARATION). A definition is no function's, so its version says at which declaration of which file of proofs/ it is refused; a function's answers are the file
F/Answers, also where the function has no such file. A goal's name has the tested names and numbers in it, as `returns-then-k-lt64`, so that a version of a test is
written with those that the code has."""
import concurrent.futures
import os
import pathlib
import re
import shutil
import subprocess
import sys
import tempfile

FACT = re.compile(
    "the two types|expected type|but this has type|does not follow|does not close|no proof of|it is not proved|differ|is not proved|found no proof"
    "|give a proof of that as the last argument|did not prove"
)
# a name out of scope, or a proof file that no longer fits the code, shows nothing
FORM = re.compile("not in scope|has no field|has no `|can be named|[Pp]arse|cannot be named|no module is declared|unsupported|does not cover|cannot find|is built with")
# what a function promises, what a loop keeps and what a callee asks for; any other goal is a bound, and what was cited for it may just be out of date
MEANING = re.compile(r"(?:^|-)(?:returns(?:-.*)?|loop-.*-(?:init|preserved)|.*requires(?:-.*)?|shape_of-.*|prove-.*)$")


class Version:
    def __init__(self, crate, edit, label, what, contract, file, decl):
        self.crate, self.edit, self.label, self.what, self.contract, self.file, self.decl = crate, edit, label, what, contract, file, decl
        self.changes = []

    def is_function(self):
        return self.file is None

    def proof_files(self):
        """Matches the file of the version's declaration, below proofs/ and without its ending."""
        if self.file:
            return re.compile(re.escape(self.file))
        *modules, name = self.what.split("::")
        # functions that call each other have one proof, with the names of them all
        return re.compile("".join(re.escape(m) + "/" for m in modules) + rf"(?:{name}|\+(?:[a-z0-9_]*_)?{name}(?:_[a-z0-9_]*)?)/(?:Answers|Invariants|Proof)")

    def place(self):
        return (self.file or self.what, self.decl)


LINE = re.compile(r"version: ([a-z0-9_]+) of (contract )?(\S+)(?: at (?:([A-Za-z0-9_/+]+) )?(\S+))?")


def versions_of(edit):
    """The versions of an edit, and what is wrong with its lines."""
    found, wrong, file, old = [], [], None, None
    crate = edit.parent.parent.name
    for line in edit.read_text().split("\n"):
        if line.startswith("version:"):
            m = LINE.fullmatch(line)
            if not m:
                return found, [f"not a version line: {line}"]
            label, contract, what, proof, decl = m.groups()
            found.append(Version(crate, edit, label, what, bool(contract), proof, decl))
            file = None
        elif line.startswith("file: "):
            file = line[6:]
        elif line.startswith("old: "):
            old = line[5:]
        elif line.startswith("new:"):
            if not found or file is None:
                return found, ["a change before a version line or its file"]
            found[-1].changes.append((file, old, line[4:].removeprefix(" ")))
    if not found:
        wrong.append("it holds no version")
    return found, wrong


def edits(root):
    return sorted(root.glob("crates/*/must-fail/*.edit"))


# ---- the layout of an edit


def function_at(file, text, place):
    """The function in which a place stands, with its module and the type and trait whose method it is, and whether in its body."""
    heads = [m for m in re.finditer(r"(?m)^(    )?(?:pub(?:\([a-z]+\))? )?(?:const )?(?:extern \"C\" )?fn ([a-z0-9_]+)[(<]", text) if m.start() <= place]
    if not heads:
        return None, False
    indent, name = heads[-1].groups("")
    body = re.compile(r"(?m)^\{$|\{$").search(text, heads[-1].start())
    end = re.compile(rf"(?m)^{indent}\}}$").search(text, heads[-1].start())
    if not body or not end or place > end.start():
        return None, False
    if indent:
        owner = [m for m in re.finditer(r"(?m)^impl(?:<[^\n]*?>)? (?:([A-Za-z0-9_]+)(?:<([^\n]*)>)? for )?([A-Za-z0-9_]+)", text) if m.start() < heads[-1].start()]
        if not owner:
            return None, False
        trait, of, owned = owner[-1].groups("")
        # as the check names it: `impl From<Refusal> for u8` is U8FromRefusal
        name = "".join(word[0].upper() + word[1:] for word in [owned, trait, *re.findall(r"[A-Za-z0-9_]+", of)] if word) + "::" + name
    module = pathlib.Path(file).stem
    return ("" if module in ("lib", "main") else module + "::") + name, body.start() < place


def definition_at(text, place):
    """The definition in which a place stands: the last name before it that has a type of its own, at the edge or in a module; of a record the record itself."""
    found, whole = None, None
    for m in re.finditer(r"(?m)^(  )?(?:abbrev |unfoldable )?(?:pub )?(?:abbrev |unfoldable )?(record |data |module )?([^\s:(){}]+)(?: [({][^\n]*)? (?::|where\b)", text):
        if m.start() > place:
            break
        inner, kind, name = m.groups()
        if not inner:
            whole = name if kind in ("record ", "data ") else None
        elif kind:
            whole = name
        found = whole or name
    return found


def layout_of(edit):
    found, wrong = versions_of(edit)
    texts, places = {}, set()
    for v in found:
        if not v.changes:
            wrong.append(f"{v.label} changes nothing")
        if v.place() in places or (v.is_function() and any(p[0] == v.what and None in (p[1], v.decl) for p in places)):
            wrong.append(f"{v.label} is looked up where another version is: {v.what} {v.decl or ''}".rstrip())
        places.add(v.place())
        for file, old, new in v.changes:
            if file not in texts:
                path = edit.parent.parent / file
                texts[file] = path.read_text() if path.is_file() else ""
            at = texts[file].find(old)
            if file.startswith("src/"):
                name, body = function_at(file, texts[file], at) if at >= 0 else (None, False)
                right = name == v.what and body != v.contract and v.is_function()
            else:
                right = at >= 0 and definition_at(texts[file], at) == v.what and not v.is_function() and v.decl
            if not right:
                wrong.append(f"{v.label} changes something else than {'the contract of ' if v.contract else ''}{v.what}: {old.strip()}")
                break
            texts[file] = texts[file][:at] + new + texts[file][at + len(old) :]
    return found, wrong


def layout(root):
    labels, count = {}, 0
    bad = []
    for edit in edits(root):
        found, wrong = layout_of(edit)
        bad += [f"{edit}: {line}" for line in wrong]
        for v in found:
            labels.setdefault((v.crate, v.label), []).append(edit.name)
            count += 1
    bad += [f"{crate}/{label} names {len(files)} wrong versions: {', '.join(files)}" for (crate, label), files in labels.items() if len(files) > 1]
    for line in bad:
        print(line)
    print(count, "wrong versions in", len(edits(root)), "edits")
    return 1 if bad or not count else 0


# ---- what a log says


class Said:
    """The errors of a log, each with its file below proofs/ (without its ending) and its declaration, and what it says of each function."""

    def __init__(self, text):
        self.errors, self.functions = [], {}
        for line in text.split("\n"):
            m = re.match(r"(?!so far)\S*proofs/(\S+?)\.antt:\d+:\d+: error: (?:`([^`]+)`)?(.*)", line)
            if m and not re.search("was not admitted|was rejected|was not checked", line):
                self.errors.append((m.group(1), m.group(2), line))
            m = re.match(r"fn [a-z0-9_]+::(\S+): (.*)", line)
            if m:
                self.functions[m.group(1)] = m.group(2)
                # goals that no answer is given for, and that the toolchain could not prove, are on this line
                place = re.search(r"expected answers in (?:\S*/)?proofs/(\S+)\.antt", m.group(2))
                part = re.search(r"`search` did not prove ((?:`[^`]+`(?:, | and )?)+)", m.group(2))
                if part:
                    file = place.group(1) if place else m.group(1).replace("::", "/") + "/Answers"
                    self.errors += [(file, decl, line) for decl in re.findall(r"`([^`]+)`", part.group(1))]

    def refusal(self, v):
        """The error for which a version is refused, and whether it is a fact; what a function means comes before a bound."""
        own = v.proof_files()
        found = [(decl, line) for file, decl, line in self.errors if own.fullmatch(file)]
        name = v.what.split("::")[-1]
        if v.is_function() and any("+" in file for file, _, _ in self.errors if own.fullmatch(file)):
            found = [(decl, line) for decl, line in found if (decl or "").startswith(name + "-")]
        if v.decl:
            found = [(decl, line) for decl, line in found if decl == v.decl]
        facts = [(decl, line) for decl, line in found if FACT.search(line) and not FORM.search(line)]
        facts.sort(key=lambda f: not MEANING.search(f[0] or ""))
        if facts:
            return True, facts[0][0], facts[0][1]
        if found:
            return False, found[0][0], "refused for its form: " + found[0][1]
        said = self.functions.get(v.what, "the log does not name it") if v.is_function() else "no error there"
        return False, None, f"no fact of its own{' at ' + v.decl if v.decl else ''}: {said}"


def log_of(root, edit):
    path = root / "target/must-fail" / edit.parent.parent.name / edit.stem / ".log"
    return Said(path.read_text() if path.is_file() else "")


# ---- the checks


def below(root):
    """The crates that each crate rests on, by the lines of crates.txt."""
    rests = {}
    for line in (root / "crates.txt").read_text().split("\n"):
        name, colon, deps = line.split("#")[0].partition(":")
        if colon:
            rests[name.split()[0]] = deps.split()

    def all_of(crate, found):
        for dep in rests[crate]:
            if dep in rests and dep not in found:
                all_of(dep, found)
                found.append(dep)
        return found

    return {crate: all_of(crate, []) for crate in rests}


def put(old, new):
    """The same file under another name, or a copy where links don't reach; the check replaces files and writes into none."""
    try:
        os.link(old, new)
    except OSError:
        shutil.copy2(old, new)


def check(root, crate, changes):
    """What `rt check` says of a crate with these changes, in a copy of it and of what it rests on; what is proved already is taken over."""
    with tempfile.TemporaryDirectory() as place:
        copy = pathlib.Path(place)
        names = [*below(root)[crate], crate]
        listed = (root / "crates.txt").read_text().splitlines()
        (copy / "crates.txt").write_text("".join(f"{line}\n" for line in listed if re.split("[ :]", line)[0] in names))
        for name in names:
            shutil.copytree(root / "crates" / name, copy / "crates" / name, copy_function=put)
        for file, old, new in changes:
            path = copy / "crates" / crate / file
            text = path.read_text()
            if text.count(old) != 1:
                return f"the old text stands {text.count(old)} times in {file}: {old}"
            path.unlink()
            path.write_text(text.replace(old, new))
        ran = subprocess.run(["rt", "check"], cwd=copy / "crates" / crate, stdin=subprocess.DEVNULL, stdout=subprocess.PIPE, stderr=subprocess.STDOUT, text=True, errors="replace")
        return ran.stdout


def write_log(root, edit):
    path = root / "target/must-fail" / edit.parent.parent.name / edit.stem / ".log"
    path.parent.mkdir(parents=True, exist_ok=True)
    said = check(root, edit.parent.parent.name, [c for v in versions_of(edit)[0] for c in v.changes])
    path.write_text(said)
    return re.search("(?m)^logic=not-proved", said) is not None


def try_all(root):
    """Whether each edit was read, and refused."""
    every, well = edits(root), True
    with concurrent.futures.ThreadPoolExecutor(max(1, int(os.environ.get("JOBS") or (os.cpu_count() or 2) - 1))) as pool:
        for k, (refused, edit) in enumerate(pool.map(lambda e: (write_log(root, e), e), every), 1):
            print(f"[{k} of {len(every)}] {edit.parent.parent.name}/{edit.stem}: {'refused' if refused else 'NOT REFUSED'}", flush=True)
            well = well and refused
    return 0 if every and well else 1


def refusals(root):
    bad = 0
    for edit in edits(root):
        said = log_of(root, edit)
        for v in versions_of(edit)[0]:
            fact, decl, line = said.refusal(v)
            bad += not fact
            print(f"ok {v.crate}/{v.label} {decl}" if fact else f"FAILED {v.crate}/{v.label} is not refused for a fact: {line[:600]}")
    return 1 if bad else 0


def names(root):
    """Of each edit: answers that cite what is no longer there, which show nothing of a contract."""
    bad = 0
    for edit in edits(root):
        for file, decl, line in log_of(root, edit).errors:
            if FORM.search(line):
                bad += 1
                print(f"{edit.parent.parent.name}/{edit.stem}: {file} {decl}: {line[:300]}")
    return 1 if bad else 0


def bystanders(root):
    """Of each edit that changes bodies alone: functions that only rest on a refused one."""
    looked, taken = 0, []
    for edit in edits(root):
        found = versions_of(edit)[0]
        if any(v.contract or not v.is_function() for v in found):
            continue
        said = log_of(root, edit)
        named = {v.what for v in found}
        for name, words in said.functions.items():
            if name not in named and words != "proved":
                looked += "which is not proved" in words
                if said.refusal(Version(edit.parent.parent.name, edit, "", name, False, None, None))[0]:
                    taken.append(f"{edit.parent.parent.name}::{name}")
    print(looked, "functions rest on a refused one;", "taken for refused:" if taken else "none is taken for refused", *taken)
    return 1 if taken or not looked else 0


def find(root, crate, label):
    for edit in edits(root):
        for v in versions_of(edit)[0]:
            if (v.crate, v.label) == (crate, label):
                return v
    sys.exit(f"no such wrong version: {crate}/{label}")


def alone(root, crate, label):
    v = find(root, crate, label)
    fact, _, line = Said(check(root, crate, v.changes)).refusal(v)
    print(line[:600])
    print("refused for a fact" if fact else "not refused for a fact")
    return 0 if fact else 1


def main():
    here = pathlib.Path(__file__).resolve().parent.parent
    commands = {"layout": layout, "try": try_all, "refusals": refusals, "names": names, "bystanders": bystanders}
    match sys.argv[1:]:
        case [command, *root] if command in commands and len(root) < 2:
            sys.exit(commands[command](pathlib.Path(root[0]) if root else here))
        case ["alone", crate, label]:
            sys.exit(alone(here, crate, label))
        case _:
            sys.exit(__doc__)


if __name__ == "__main__":
    main()
