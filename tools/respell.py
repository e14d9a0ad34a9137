#!/usr/bin/env python3
"""Brings this repository's own definitions and lemmas to the spelling of today's Rattle.

    tools/respell.py [--list] [ROOT]

Words are in snake case, types and modules in camel case. A dash joins two names, as in `filled-length` of `filled` and `length`; a plain word hangs on by `_`.
So a definition `bytesFrom` becomes `bytes_from`; of a lemma's name each dash stays that stands between two definitions, and each other becomes `_`.
Names of functions of src/, of exported C functions, strings and comments of C and Rust are left as they are. It is run once, after the toolchain's own script;
--list writes the table and changes nothing."""
import pathlib
import re
import sys

# lemmas that have the name which a definition gets: they end in `_lem`, as any lemma that would have a definition's name
BY_HAND = {name: name + "_lem" for name in "same_bytes read_answer read_as heard_all place_byte passed_over".split()}
# what the toolchain's script had turned already in src/, specs/ and proofs/, for the pages and the edits, which it leaves
TURNED = (
    "add-at adds-none after-map all-go all-one allBelow allOf and-assoc and-both and-left and-right andThen askedOf at-one at-place at-suc bit-below bit- "
    "cut bit-high bit-shifted bit-word bitAt-lt bitOf bits-small bitsOf boolByte both-ways byte-low byteOf bytes-back bytes-bits bytes-good bytes-most "
    "bytes-whole bytesOf chosen-more chosen-none comes-back count-by count-most count-none count-spec counted-is decides-at digit-lt digits-in div-value "
    "done-none each-same end-fits end-is end-test few-bits fill-step filled-more filled-none first-found first-on first-past first-round first-step first- "
    "three firstOf found-none four-bytes from-is given-to goes-after goes-on hands-on heard-all high-zero holds-by holds-of in-all isEmpty isTaken kept-by "
    "last-byte leaves-after length-over length-up lent-at line-refused lines-more lines-none list-left listed-by low-digit low-same main-spec member-below "
    "missed-by mul-at narrow-start near-times new-meets new-spec new-walks nextOf no-bits no-digit no-length no-one no-value none-above none-in none-more "
    "none-yet not-calm numAt number-size numberOf on-bit on-both on-none on-test one-bit one-more one-only one-shifted one-value oneOf ones-below open-done "
    "open-more or-left or-right outOf over-none own-at own-first own-on own-out pair-lt pairOf parts-whole passed-over picked-all picked-more picked-none "
    "place-byte place-kept place-opened place-read plain-by put-as put-count put-four put-front put-holds put-last put-one put-refused put-some put-spec "
    "put-step quiet-next quotientOf read-answer read-as read-back read-by read-kept read-spec read-whole record-is rest-more restOf room-for round-by "
    "round-same row-has row-plain rowAt run-holds run-short run-small run-spec same-back same-bit same-bits same-by same-byte same-bytes same-check same- "
    "digits same-end same-good same-length same-number same-outcome seen-all seen-none sent-is set-below size-back sizeFor sizeOf some-end some-first some- "
    "more stands-on start-spec stateOf step-counts step-is step-kept step-left step-range step-room stepsOf store-spec sum-more take-meets take-spec take- "
    "walks taken-out takes-none takes-part tests-same then-same times-none turn-holds turn-more turnedWord union-more value-of valuesOf was-read whole-back "
    "word-back word-lt word-number word-read word-room wordAt wordIn words-back words-count words-small wordsOf write-kept write-spec written-as zero-is "
).split()
NAME = r"[^\s(){}\[\],;.:λ→×⊎≡≤<>⊢|`\"]+"
SIGN = re.compile(rf"^\s*((?:abbrev |unfoldable |pattern |pub |open )*)({NAME}) (?:\{{[^}}]*\}} )?:(?=\s)")
HEAD = re.compile(rf"^\s*(?:pub )?(data|record) ({NAME})")
TOKEN = re.compile(r"[A-Za-zℕ_][A-Za-z0-9_ℕ'′₀-₉-]*")


def lemma_files(root):
    return sorted([*root.glob("crates/*/specs/*.antt"), *root.glob("crates/*/proofs/*.antt")])


def declared(root):
    """Definitions and lemmas, fields of records, and which of the first are definitions."""
    names, fields, defs = {}, set(), set()
    for file in lemma_files(root):
        inside = None
        for line in file.read_text().split("\n"):
            head = HEAD.match(line)
            if head:
                inside = head.group(1)
                defs.add(head.group(2))
                continue
            if re.match(r"\S", line):
                inside = None
            sign = SIGN.match(line)
            if not sign:
                continue
            name = sign.group(2)
            names.setdefault(name, set()).add(str(file.relative_to(root)))
            if inside == "record" and line.startswith("  "):
                fields.add(name)
            if "specs" in file.parts or inside == "data" or "abbrev" in sign.group(1) or "unfoldable" in sign.group(1):
                defs.add(name)
    return names, fields, defs


def snake(word):
    # the library's word for it is another today
    if word == "getD":
        return "get_or"
    word = re.sub(r"([a-z0-9])([A-Z])", r"\1_\2", word)
    return word.lower()


# words that stand for a definition of the library, an operator or a constructor
LIBRARY = set(
    "and or not xor add sub mul div mod pow lt le eq eqb ltb leb zero suc true false cond min max length get_or set take drop append map filter replicate"
    " bit_and bit_or bit_xor ones count_trailing_zeros".split()
)


def spelled(name, defs):
    """The name in today's spelling."""
    if name in BY_HAND:
        return BY_HAND[name]
    if not re.match(r"[a-z]", name):
        return name
    parts = [snake(part) for part in name.split("-")]
    known = {snake(d) for d in defs} | LIBRARY
    out = parts[0]
    for before, after in zip(parts, parts[1:]):
        out += ("-" if before in known and after in known else "_") + after
    return out.replace("′", "'")


def table(root):
    names, fields, defs = declared(root)
    new = {name: spelled(name, defs) for name in names}
    taken = {new[name] for name in names if "-" not in name}
    new.update({name: b + "_lem" for name, b in new.items() if "-" in name and b in taken})
    return {a: b for a, b in new.items() if a != b}, {a for a in fields if new[a] != a}, names


def made(turned):
    """Without lemmas whose name a function of src/ may have."""
    return {a: b for a, b in turned.items() if a not in BY_HAND}


def clash(root, turned, names):
    """Pairs that would have one name: of two that are turned, and of one with a name that stands already."""
    found, by_new = [], {}
    for a, b in turned.items():
        by_new.setdefault(b, []).append(a)
    for b, many in by_new.items():
        if len(many) > 1:
            found.append(f"{b}: {' '.join(many)}")
        if b in names and b not in turned:
            found.append(f"{b}: {many[0]}, and {b} in {' '.join(sorted(names[b]))}")
    used = {}
    for file in [*root.glob("crates/*/specs/**/*.antt"), *root.glob("crates/*/proofs/**/*.antt"), *root.glob("crates/*/src/*.rt")]:
        for token in TOKEN.findall(file.read_text()):
            used.setdefault(token, set()).add(str(file.relative_to(root)))
    for a, b in turned.items():
        if b in used and b not in names:
            found.append(f"{b}: {a}, and the word in {' '.join(sorted(used[b]))[:200]}")
    return found


def turn(text, turned, fields):
    """A text of antt, with each name in today's spelling; after a dot only a record's field or a name of a module is turned."""
    def one(m):
        word, at = m.group(0), m.start()
        if word not in turned:
            return word
        if at and text[at - 1] == ".":
            before = re.search(r"([A-Za-z0-9_'-]*)\.$", text[max(0, at - 80) : at])
            module = before and re.match(r"[A-Z]", before.group(1))
            if not module and word not in fields:
                return word
        return turned[word]

    return TOKEN.sub(one, text)


def turn_source(text, turned, fields):
    """A text of .rt: clauses, ghost items and comments; strings keep theirs."""
    return "".join(part if k % 2 else turn(part, turned, fields) for k, part in enumerate(re.split(r'("(?:[^"\\\n]|\\.)*")', text)))


def turn_page(text, turned, fields):
    """A page: what stands in backticks."""
    return re.sub(r"`[^`\n]*`", lambda m: turn(m.group(0), turned, fields), text)


def main():
    words = sys.argv[1:]
    listed = "--list" in words
    root = pathlib.Path(next((w for w in words if not w.startswith("-")), pathlib.Path(__file__).resolve().parent.parent))
    turned, fields, names = table(root)
    found = clash(root, turned, names)
    if listed:
        for a, b in sorted(turned.items()):
            print(a, b)
        for line in found:
            print("clash:", line)
        return
    pages = {a: snake(a).replace("-", "_") for a in TURNED}
    pages = {a: turned.get(b, b) for a, b in pages.items()} | turned
    for file in sorted(root.glob("crates/**/*")):
        if "out" in file.parts or not file.is_file():
            continue
        text = file.read_text()
        if file.suffix == ".antt":
            new = turn(text, turned, fields)
        elif file.suffix == ".rt":
            new = turn_source(text, made(turned), fields)
        elif file.suffix == ".edit":
            new = turn(text, made(pages), fields)
        else:
            continue
        if new != text:
            file.write_text(new)
    for file in [*sorted(root.glob("docs/**/*.md")), root / "README.md", root / "CONTRIBUTING.md", root / "CHANGELOG.md"]:
        text = file.read_text()
        new = turn_page(text, pages, fields)
        if new != text:
            file.write_text(new)


if __name__ == "__main__":
    main()
