# Files: every crate is listed, no file stands where none is expected, nothing is imported or declared for nothing, and every wrong version changes what it names. That every file of Rattle and
# antt is in the formatter's layout is asked by rt ci (20-proofs).
for d in crates/*/; do
    name=$(basename "$d")
    expect "crate $name is not listed in crates.txt" grep -qE "^$name( staticlib)?:" crates.txt
done
strays=$(find . \( -path ./.git -o -path ./target -o -path './rust/target' -o -path ./crates \) -prune -o \( -name '*.rt' -o -name '*.antt' \) -print)
expect "files of Rattle or antt outside crates/: $strays" test -z "$strays"
strays=$(find crates -path 'crates/*/out' -prune -o -type f ! -path 'crates/*/src/*.rt' ! -path 'crates/*/specs/*.antt' ! -path 'crates/*/proofs/*.antt' ! -path 'crates/*/must-fail/*.edit' \
    ! -path 'crates/*/std*' ! -path 'crates/*/args' ! -path 'crates/*/data/*' -print)
expect "stray files in crates/: $strays" test -z "$strays"

# nothing is imported or declared for nothing, and the script that says so tells both
expect "tests/uncited.py" python3 tests/uncited.py
sample=$(mktemp -d)
mkdir -p "$sample/crates/one/src" "$sample/crates/one/proofs" "$sample/docs"
cat > "$sample/crates/one/proofs/Laws.antt" << 'END'
-- a comment uses nothing: spare, sum_left
use Rattle.std.specs.Prelude.{ℕ, ◌+◌, ◌*◌, eqb, ltb as below}
-- 0 on either side
pub sum_left : (n : ℕ) → eqb (n + 0) n
sum_left n = below
pub sum_right : (n : ℕ) → eqb (0 + n) n
sum_right n = sum_right n
END
printf 'ghost use one.Laws.{sum_left, spare};\nfn f() ensures { sum_left } {}\n' > "$sample/crates/one/src/lib.rt"
said=$(python3 tests/uncited.py "$sample") && fail "tests/uncited.py takes names that stand for nothing" || pass
for line in 'proofs/Laws.antt: ◌\*◌ is imported' 'src/lib.rt: spare is imported' 'proofs/Laws.antt: sum_right is cited nowhere'; do
    expect "tests/uncited.py says: $line" grep -q "crates/one/$line" <<< "$said"
done
expect "tests/uncited.py says no more" test "$(wc -l <<< "$said")" -eq 4
sed -i 's/, ◌\*◌//; s/^sum_right n = .*/sum_right n = sum_left n/' "$sample/crates/one/proofs/Laws.antt"
sed -i 's/, spare//' "$sample/crates/one/src/lib.rt"
echo 'a theorem: `sum_right`' > "$sample/docs/PROMISES.md"
expect "tests/uncited.py takes what is used, cited or promised" python3 tests/uncited.py "$sample"
rm -rf "$sample"

expect "tests/versions.py layout" python3 tests/versions.py layout
# and it tells edits that are wrong: two versions that would be looked up in the same place, a change of something else than what is named, no change, a label used twice
sample=$(mktemp -d)
mkdir -p "$sample/crates/sets/must-fail"
cp -r crates/sets/src crates/sets/specs "$sample/crates/sets"
first='version: a of without\nfile: src/lib.rt\nold: set & !other\nnew: set & other\n'
layout() { # EDIT
    printf "$first$1" > "$sample/crates/sets/must-fail/bodies.edit"
    python3 tests/versions.py layout "$sample"
}
for second in 'version: b of without\nfile: src/lib.rt\nold: set & other\nnew: set\n' \
    'version: b of without at returns\nfile: src/lib.rt\nold: set & other\nnew: set\n' \
    'version: b of holds\nfile: src/lib.rt\nold: set & other\nnew: set\n' \
    'version: b of holds\nfile: src/lib.rt\nold: result ≡ bit set i\nnew: result ≡ bit set 0\n' \
    'version: b of contract holds\nfile: src/lib.rt\nold: (set >> i) %% 2 == 1\nnew: (set >> i) %% 2 == 0\n' \
    'version: b of holds\nfile: src/lib.rt\n' \
    'version: b of Members\nfile: specs/Sets.antt\nold: bit set j ≡ p j\nnew: bit set j ≡ p 0\n' \
    'version: b of without at Words without_other\nfile: specs/Sets.antt\nold: bit set j ≡ p j\nnew: bit set j ≡ p 0\n' \
    'version: a of holds\nfile: src/lib.rt\nold: (set >> i) %% 2 == 1\nnew: (set >> i) %% 2 == 0\n'; do
    said=$(layout "$second") && fail "tests/versions.py takes: $second" || pass
    expect "tests/versions.py says of '$second': $said" grep -q 'bodies.edit' <<< "$said"
done
for second in 'version: b of holds\nfile: src/lib.rt\nold: (set >> i) %% 2 == 1\nnew: (set >> i) %% 2 == 0\n' \
    'version: b of holds at returns\nfile: src/lib.rt\nold: (set >> i) %% 2 == 1\nnew: (set >> i) %% 2 == 0\nversion: c of holds at returns-2\nfile: src/lib.rt\nold: i < 32 &&\nnew: i < 31 &&\n' \
    'version: b of contract holds\nfile: src/lib.rt\nold: result ≡ bit set i\nnew: result ≡ bit set 0\n' \
    'version: b of Members at Members member\nfile: specs/Sets.antt\nold: bit set j ≡ p j\nnew: bit set j ≡ p 0\n'; do
    said=$(layout "$second") && pass || fail "tests/versions.py does not take '$second': $said"
done
rm -rf "$sample"
finished=yes
