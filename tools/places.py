#!/usr/bin/env python3
"""Counts, at a commit, the places in src/ of which docs/DESIGN-PASS.md speaks, and prints each.

    tools/places.py [COMMIT]"""
import collections
import re
import subprocess
import sys

commit = sys.argv[1] if len(sys.argv) > 1 else "HEAD"


def git(*words):
    return subprocess.run(["git", *words], capture_output=True, text=True).stdout


def grep(title, pattern):
    found = [line.split(":", 1)[1] for line in git("grep", "-nE", pattern, commit, "--", "crates/*/src/*.rt").splitlines()]
    print(f"== {title}: {len(found)}")
    for line in found:
        print("   " + line[:150])


grep("1. enums", r"^(pub )?enum ")
grep("1. sentinels", r"where none is|where none has|where none was\.|where none is named|where it is empty|, or 0\.( |$)|^ *// .* or 16 where")
grep("1. a flag with a value", r"struct Answer")
grep("1. numbers for kinds or refusals", r"fn (number|outcome_number|location_number|heard_byte|state_byte|round_of)\(")
grep("2. functions, by whose names twins are told", r"fn (mirror_|least_heard|hear\b|hear<|judged|senders_|good_trucks|good_places|good_record|fleet_of|put_fleet|turn_places|events_of|after_stop|own_round|narrow_|rajvokshul_|run|grade|step|number|outcome_number)")
grep("3. loops by while", r"^ +while ")
grep("3. methods of the library by hand", r"fn (bits_read|place_after|byte_at|four|mirror_[0-9]+|openings_read|trucks_held|swap_bytes|put_four|places|pair|is_odd|narrow_trucks|narrow_rounds|count)\(")
grep("4. equality, conversion and printing", r"fn (runs|is_one|is_several|is_empty|heard_byte|state_byte|heard_of|state_of|round_of|location_number|put_number|number|outcome_number|from)\(")
grep("5. bytes with a place in them", r"s: &\[u8\], at: usize|buf: &mut \[u8\], at: usize|^    at: usize,$")
grep("6. arrays in structs and parameters", r": (&mut |&)?\[(u8|u16|u32|u64|Truck|Event); [0-9A-Z]+\]")
grep("7. switches on a number, and flags for what to run", r"if (d|done) == [0-9]|match d|match \(?done|judging: bool")

print("== 5. facts in three contracts of a file or more")
for path in git("ls-tree", "-r", "--name-only", commit).split():
    if re.fullmatch(r"crates/\w+/src/\w+\.rt", path):
        facts = collections.Counter()
        for asked in re.findall(r"(?s)requires \{ (.*?) \}\n", git("show", f"{commit}:{path}")):
            facts.update({re.sub(r"^\(+|\)+$", "", re.sub(r"\s+", " ", fact).strip()) for fact in asked.split("×")})
        for fact, times in facts.items():
            if times >= 3:
                print(f"   {path}: {times} {fact}")

sizes = collections.Counter()
for path in git("ls-tree", "-r", "--name-only", commit).split():
    kind = "src" if re.fullmatch(r"crates/\w+/src/\w+\.rt", path) else path.rsplit("/", 1)[1] if re.match(r"crates/\w+/proofs/.*(Answers|Invariants)\.antt$", path) else None
    if kind:
        sizes[kind] += 1
        sizes[kind + " lines"] += git("show", f"{commit}:{path}").count("\n")
print("== 8.", ", ".join(f"{kind} {n}" for kind, n in sorted(sizes.items())))
