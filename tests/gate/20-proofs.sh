# Proofs: rt ci proves every listed crate from nothing, tries each must-fail edit and runs each program; what it passed on this machine of the same files it takes from there. Its own counts are
# added. A line is printed as each crate and each edit is done.

# The tests of the independent reading need nothing of the library, so they run beside the proofs, on what these leave of the machine; 40-rust asks what came of them.
reading=$(mktemp)
(cd rust && nice -n 19 cargo test --offline --release -p oracle) > "$reading" 2>&1 &
reading_job=$!

log=$(mktemp)
total=$(($(grep -cE '^[a-z_]+( staticlib)?:' crates.txt) + $(ls crates/*/must-fail/*.edit | wc -l)))
rt ci 2>&1 | tee "$log" | {
    done=0
    while IFS= read -r line; do
        case $line in
            'rt: must-fail '*/*': '* | 'rt: '*' proved' | 'rt: '*' NOT PROVED'*)
                done=$((done + 1))
                printf '[%d of %d] %s\n' "$done" "$total" "$(sed -E 's/^rt: //; s/, as it must be(: .*)?$//' <<< "$line")"
                ;;
            'rt: '*) printf '%s\n' "$line" ;;
        esac
    done
}
status=${PIPESTATUS[0]}
counts=$(tail -n 1 "$log")
if [[ $counts =~ ^([0-9]+)\ passed,\ ([0-9]+)\ failed$ ]]; then
    passed=$((passed + BASH_REMATCH[1]))
    failed=$((failed + BASH_REMATCH[2]))
    expect "rt ci's exit status" test "$status" -eq 0
else
    tail -n 40 "$log"
    fail "rt ci has no closing count"
fi
[ "$status" -eq 0 ] || grep -E 'error|NOT PROVED|NOT REFUSED|NOT TRIED' "$log" | head -n 40
# an edit that cannot be applied or read shows nothing, and rt ci passes all the same
none_bad() { # LOG
    local verdict
    verdict=$(grep '^rt: ok; ' "$1") || return 1
    [[ $verdict =~ must-fail\ edits:\ [1-9][0-9]*\ refused ]] && ! [[ $verdict =~ ,\ [0-9]+\ bad ]]
}
expect "every must-fail edit is refused, and none is bad" none_bad "$log"
bad=$(mktemp)
for line in 'rt: ok; handles allowed: none; must-fail edits: 62 refused, 1 bad; every proof' 'rt: ok; handles allowed: none; every proof' 'rt: stopped'; do
    echo "$line" > "$bad"
    none_bad "$bad" && fail "edits that are bad are passed over: $line" || pass
done
rm -f "$log" "$bad"

# The programs, the archives, and what is kept of the proofs for the checks below.
expect "every crate is proved, and what it builds is built" ./prove $(sed -nE 's/^([a-z_]+)( staticlib)?:.*/\1/p' crates.txt)

# Each wrong version is refused for a fact, and for one of its own: rt ci asks only that an edit is refused.
expect "there are must-fail edits" test -n "$(ls crates/*/must-fail/*.edit 2> /dev/null)"
expect "each edit is checked" python3 tests/versions.py try
while read -r verdict version; do
    if [ "$verdict" = ok ]; then pass; else fail "must-fail $version"; fi
done < <(python3 tests/versions.py refusals)
expect "no answer is refused for a name that is gone" python3 tests/versions.py names
expect "a function that only rests on a refused one is not taken for refused" python3 tests/versions.py bystanders

# the look at a log itself
sample=$(mktemp -d)
mkdir -p "$sample/crates/one/must-fail" "$sample/target/must-fail/one/bodies"
cat > "$sample/target/must-fail/one/bodies/.log" << 'END'
so far: ./proofs/early/Answers.antt:9:15: error: `returns`: as printed, the two types differ only where one has `1` (expected)
./proofs/leaf/Answers.antt:9:15: error: `overflow_cast-t`: `omega`: the goal does not follow
./proofs/leaf/Answers.antt:12:15: error: `returns-then-t`: as printed, the two types differ only where one has `9` (expected) and the other has `10` (found)
./proofs/leaf/Answers.antt:22:5: error: 1 declaration that depends on `returns-else-t`, which was rejected, was not checked: more
./proofs/caller/Answers.antt:7:3: error: `returns`: as printed, the two types differ only where one has `1` (expected) and the other has `2` (found)
./proofs/misfit/Answers.antt:5:3: error: `returns`: record `One.proofs.misfit.Lts.Args` has no field `left`
./proofs/misfit/Answers.antt:8:3: error: `bounds-s`: `goal.bounds-s`: module `One.proofs.misfit.Goals` has no `bounds-s` that can be named from here
./proofs/deep/+even_odd/Answers.antt:8:3: error: `even-odd-requires`: `omega`: the goal does not follow
./proofs/Laws.antt:8:3: error: `sum_left`: the two types differ
fn one::leaf: not proved
fn one::caller: not proved; it calls `one::leaf`, which is not proved
fn one::rests: no proof: it calls `one::leaf`, which is not proved
fn one::misfit: not proved
fn one::deep::even: not proved
fn one::deep::odd: not proved
fn one::made: no proof: expected answers in ./proofs/made/Answers.antt; `search` did not prove `returns-in-One`, `overflow_add-k` and `made-requires`
fn one::waits: no proof: it calls `one::made`, which is not proved
fn one::good: proved
END
look() { # VERSIONS..: what is said of each
    printf 'version: v%s\nfile: src/lib.rt\nold: a\nnew: b\n' "$@" > "$sample/crates/one/must-fail/bodies.edit"
    python3 tests/versions.py refusals "$sample"
}
for asked in '1 of leaf=ok one/v1 returns-then-t' '1 of leaf at overflow_cast-t=ok one/v1 overflow_cast-t' '1 of caller=ok one/v1 returns' '1 of deep::even=ok one/v1 even-odd-requires' \
    '1 of made=ok one/v1 returns-in-One' '1 of made at made-requires=ok one/v1 made-requires' '1 of total at Laws sum_left=ok one/v1 sum_left' '1 of taken at made/Answers returns-in-One=ok one/v1 returns-in-One'; do
    expect "of 'version: v${asked%%=*}' is said: ${asked#*=}" test "$(look "${asked%%=*}")" = "${asked#*=}"
done
for version in '1 of leaf at returns' '1 of rests' '1 of misfit' '1 of deep::odd' '1 of waits' '1 of good' '1 of early' '1 of nobody' '1 of total at Laws sum_right' '1 of total at Sums sum_left'; do
    said=$(look "$version") && fail "'version: v$version' is taken for refused: $said" || pass
    expect "'version: v$version' fails: $said" test "${said%% is *}" = "FAILED one/v1"
done
look '1 of leaf' > /dev/null
said=$(python3 tests/versions.py bystanders "$sample") && fail "a refused function that no version names is passed over: $said" || pass
expect "it is named: $said" grep -q 'one::caller one::deep::even one::made$' <<< "$said"
said=$(python3 tests/versions.py names "$sample") && fail "an answer that cites what is gone is passed over: $said" || pass
expect "both are named, and no others: $said" test "$(grep -c '^one/bodies: misfit/Answers ' <<< "$said")/$(wc -l <<< "$said")" = 2/2
rm -rf "$sample"
finished=yes
