# Every name that docs/PROMISES.md puts in backticks is declared where its column says, and every table of refusals has the numbers of the specification.
expect "a name in docs/PROMISES.md" python3 tests/promises.py
expect "tests/refusals.py" python3 tests/refusals.py

# and that script tells a table that lacks a number, has one more or one twice, or has other words
sample=$(mktemp -d)
tells() { # SCRIPT FILES FILE CHANGE LINE: of copies of these files, one of them changed by sed, the script says this
    local script=$1 files=$2 file=$3 change=$4 line=$5 said
    rm -rf "$sample/tree"
    mkdir "$sample/tree"
    # shellcheck disable=SC2086
    cp --parents $files "$sample/tree" || return 1
    sed -i "$change" "$sample/tree/$file"
    ! cmp -s "$file" "$sample/tree/$file" || return 1
    said=$(python3 "$script" "$sample/tree") && return 1
    grep -qF -- "$line" <<< "$said"
}
files="crates/refusals/specs/Numbers.antt c/rajvokshul.h rust/rajvokshul/src/refusal.rs README.md docs/API.md"
while IFS=@ read -r file change line; do
    expect "tests/refusals.py says of $file after $change: $line" tells tests/refusals.py "$files" "$file" "$change" "$line"
done << 'END'
README.md@/^| 9 |/d@README.md, table: 9 (ShortBuffer) is not there
README.md@/^| 14 |/a | 15 | the fleet is asleep |@README.md, table: 15 (without a name) is no refusal's number
README.md@s/^| 12 | .*/| 12 | no time |/@README.md, table: 12 is 'no time', but
docs/API.md@/^| 6 | `OwnLoss/d@docs/API.md, table: 6 (OwnLoss) is not there
docs/API.md@s/`NoTime`/`Seconds`/@docs/API.md, table: 12 is Seconds, but NoTime by number_of
docs/API.md@/^| 3 | `RoundCount/p@docs/API.md, table: 3 is there twice
c/rajvokshul.h@/^#define RAJVOKSHUL_END_BIT /d@c/rajvokshul.h, defines: 5 (EndBit) is not there
c/rajvokshul.h@s/^#define RAJVOKSHUL_ROUNDS_DONE 14/#define RAJVOKSHUL_ROUNDS_DONE 15/@c/rajvokshul.h, defines: 15 (RoundsDone) is no refusal's number
c/rajvokshul.h@/case RAJVOKSHUL_SECONDS:/,+1d@c/rajvokshul.h, words: 11 (Seconds) is not there
rust/rajvokshul/src/refusal.rs@s/Refusal::AllIdle => 13,/Refusal::AllIdle => 12,/@rust/rajvokshul/src/refusal.rs, numbers: 12 is there twice
rust/rajvokshul/src/refusal.rs@/^    PlainRound,$/d@rust/rajvokshul/src/refusal.rs, cases: 8 (PlainRound) is not there
rust/rajvokshul/src/refusal.rs@/^        Refusal::Record,$/d@rust/rajvokshul/src/refusal.rs, cases of a number: 7 (Record) is not there
rust/rajvokshul/src/refusal.rs@s/=> "a lent buffer is too short"/=> "too short"/@rust/rajvokshul/src/refusal.rs, words: 9 is 'too short', but
crates/refusals/specs/Numbers.antt@/^number_of AllIdle/d@docs/API.md, table: 13 (AllIdle) is no refusal's number
crates/refusals/specs/Numbers.antt@/^number_of RoundsDone/a number_of Late = 15@rust/rajvokshul/src/refusal.rs, words: 15 (Late) is not there
END
rm -rf "$sample"
finished=yes
