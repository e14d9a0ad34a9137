# From outside the proofs: the archive for other languages, those of the bit reader and of whole records for tests, the Rust tests (the independent reading of document 01, its comparison with the library and with steps of whole records, the bit reader bit by bit, the safe crate), and the examples.
echo "archives"
for name in ffi bitcalls recordcalls; do
    expect "staticlib $name" ./staticlib "$name"
done
echo "Rust tests"
log=$(mktemp)
(cd rust && cargo test --offline --release --workspace --exclude oracle) > "$log" 2>&1
status=$?
wait "$reading_job"
reading_status=$?
tests_of() { # LOG STATUS WHAT: the counts of a run of cargo test are added
    local ran=0 ok bad
    while read -r ok bad; do
        ran=$((ran + ok))
        passed=$((passed + ok))
        failed=$((failed + bad))
    done < <(sed -nE 's/^test result: .* ([0-9]+) passed; ([0-9]+) failed;.*/\1 \2/p' "$1")
    expect "Rust tests were run of $3" test "$ran" -gt 0
    expect "cargo test's exit status of $3" test "$2" -eq 0
    [ "$2" -eq 0 ] || grep -E '^error|FAILED|panicked' "$1" | head -n 20
    rm -f "$1"
}
tests_of "$reading" "$reading_status" "the independent reading"
tests_of "$log" "$status" "the others"

# Layout, clippy and the pages of the documentation, without a warning, in the whole workspace.
echo "clippy, pages, examples"
quiet() { # COMMAND..: in rust/; what it says is shown where it fails
    local said
    said=$(cd rust && "$@" 2>&1) || { tail -n 20 <<< "$said"; return 1; }
}
expect "rustfmt" quiet cargo fmt --all --check
expect "clippy" quiet cargo clippy --offline --release --workspace --all-targets -- -D warnings
expect "cargo doc" quiet env RUSTDOCFLAGS='-D warnings' cargo doc --offline --release --workspace --no-deps

# The examples print case C1's listing, its openings decided after six rounds, where the own bit of case C10 is, the opening of case C12, and that of a truck that stands at crusher 0; what the
# recorder's prints is worked out by hand.
shows_c1() { # OUTPUT
    grep -qE '^refused 6 round 1 truck 0: ' "$1" && grep -qx 'opening 1' "$1" && grep -qx 'standing at 0: opening 0' "$1" && grep -qE '^six rounds, after round (6|12): truck 0 decided at 3\b.*truck 1 decided at 3\b' "$1" && grep -A 3 -x 'trucks 2 rounds 4' "$1" | cmp -s - tests/cases/c01.out
}
out=$(mktemp -d)
(cd rust && cargo run --offline --release -q -p rajvokshul --example quarry) > "$out/rust" 2>&1
expect "the Rust example" shows_c1 "$out/rust"
(cd rust && cargo run --offline --release -q -p rajvokshul --example recorder) > "$out/recorder" 2>&1
expect "the recorder's example" cmp -s "$out/recorder" tests/examples/recorder.txt
cc -std=c99 -Wall -Wextra -Werror -Ic c/example.c target/staticlib/libffi.a -o "$out/example" && "$out/example" > "$out/c"
expect "the C example" shows_c1 "$out/c"

# Stack: each call on inputs of the largest size. The program's status tells whether one takes more than the header says, and there is a line for each call.
small_stack() {
    cc -std=c99 -Wall -Wextra -Werror -Ic c/stack.c target/staticlib/libffi.a -lpthread -o "$out/stack" || return 1
    "$out/stack" > "$out/taken"
    local status=$? calls
    cat "$out/taken"
    calls=$(sed -nE 's/^(.*) [0-9,]+ bytes of stack$/\1/p' "$out/taken" | paste -sd '/')
    [ "$status" -eq 0 ] && [ "$calls" = "run/grade/list/run of six/grade of six/step, proposals/step, vetoes/step of six, prepare/step of six, bit/step of six, accept/read/write/start/opening/own loss of a recording/own loss of writing/own loss of a round" ]
}
expect "the header says 128 KiB of stack for run, grade and list" grep -qE '^#define RAJVOKSHUL_RUN_STACK 131072 ' c/rajvokshul.h
expect "the stack of largest calls is below what the header says" small_stack

# Memory: the program and the archive under valgrind.
echo "valgrind"
clean() { valgrind -q --error-exitcode=9 "$@" > /dev/null 2>&1; }
expect "the C example under valgrind" clean "$out/example"
for case in c01 c02 c07-400 c10 empty; do
    expect "the program under valgrind on $case" clean target/bin/replay < <(bytes_of "tests/cases/$case.hex")
done
# one test of a Rust test program, which must be there
clean_test() { # PROGRAM TEST
    local program said
    program=$(ls -t rust/target/release/deps/"$1"-* 2> /dev/null | grep -v '\.d$' | head -n 1)
    said=$(valgrind -q --error-exitcode=9 "$program" --test-threads=1 "$2" 2> /dev/null) && grep -q 'ok\. 1 passed' <<< "$said"
}
expect "the comparison in both cycles under valgrind" clean_test compare small_set
expect "the bit reader under valgrind" clean_test boundaries blocks_of_their_own_length
expect "steps of whole records under valgrind" clean_test in_place small_set
rm -rf "$out"
finished=yes
