# The program on recordings whose output document 01 settles: tests/cases/NAME.hex and NAME.out.
bytes_of() { printf "$(tr -d ' \n' < "$1" | sed 's/../\\x&/g')"; }
prints() { # EXPECTED FILE: the program's output on standard input
    cmp -s "$1" <(target/bin/replay)
}
for case in tests/cases/*.hex; do
    expect "case $case" prints "${case%.hex}.out" < <(bytes_of "$case")
done
# recordings longer than any valid one: the program stops reading at 56,019 bytes, and the header decides
long() { { printf "$1"; head -c "$2" /dev/zero; } | target/bin/replay; }
expect "56,019 bytes" test "$(long '\x81\x90' 56017)" = "refused 4"
expect "60,000 bytes" test "$(long '\x81\x90' 59998)" = "refused 4"
expect "60,000 bytes of 33 trucks" test "$(long '\x85\x90' 59998)" = "refused 2"
expect "60,000 bytes of 401 rounds" test "$(long '\x81\x91' 59998)" = "refused 3"
expect "the largest recording" test "$(long '\x81\x90' 56016 | head -n 1)" = "trucks 32 rounds 400"
# a largest run calls the two functions that hand on to each other up to 400 deep; the program's own buffers of 56 KiB and its environment lie on the same stack
expect "the largest recording in 256 KiB of stack" test "$(ulimit -s 256 && long '\x81\x90' 56016 | tail -n 2 | paste -sd /)" = "31 opened 0 running 0 sent 0 vetoes 0/sent 0 vetoes 0"
# what fails outside the program is said on standard error, and nothing is printed for an input that could not be read
says() { # TEXT COMMAND..: standard error is this line, and standard output is empty
    local text=$1 out err
    shift
    err=$(mktemp)
    out=$("$@" 2> "$err")
    [ -z "$out" ] && [ "$(cat "$err")" = "$text" ]
    local status=$?
    rm -f "$err"
    return $status
}
from_closed() { target/bin/replay <&-; }
to_full() { target/bin/replay > /dev/full; }
to_closed() { target/bin/replay >&-; }
expect "closed input" says "replay: standard input could not be read" from_closed
expect "a folder as input" says "replay: standard input could not be read" target/bin/replay < /
expect "a full device as output" says "replay: standard output could not be written" to_full < <(bytes_of tests/cases/c01.hex)
expect "closed output" says "replay: standard output could not be written" to_closed < <(bytes_of tests/cases/c01.hex)
expect "input in parts" test "$({ printf '\x08\x04\x35'; sleep 0.2; printf '\x30\x00\x03\x00\x00'; } | target/bin/replay)" = "$(cat tests/cases/c01.out)"
finished=yes
