# The desk program (rust/desk) on the cases of document 01: what it prints and records, its statuses and its pictures. What is expected is written by hand from the paper's rules (tests/desk).
desk=rust/target/release/desk
build_desk() { (cd rust && cargo build --offline --release -q -p desk); }
expect "the desk program" build_desk
said=$(mktemp -d)
# STATUS COMMAND..: the program on standard input; what it prints is kept in out and err
desk_ends() {
    local status=$1
    shift
    "$desk" "$@" > "$said/out" 2> "$said/err"
    [ $? -eq "$status" ]
}

# each case is listed as the program replay lists it; a refused one has status 1 and says why
desk_lists() { # CASE
    local refused
    refused=$(sed -n 's/^refused //p' "${1%.hex}.out")
    if [ -z "$refused" ]; then
        desk_ends 0 list < <(bytes_of "$1") && cmp -s "$said/out" "${1%.hex}.out" && [ ! -s "$said/err" ]
    else
        desk_ends 1 list < <(bytes_of "$1") && [ ! -s "$said/out" ] && grep -q "^desk: refused $refused: " "$said/err"
    fi
}
desk_explains() { # CASE
    case $(cat "${1%.hex}.out") in
        refused*) desk_ends 1 explain < <(bytes_of "$1") && grep -q "^$(cat "${1%.hex}.out"): " "$said/out" && [ "$(wc -l < "$said/out")" -eq 2 ] ;;
        *) desk_ends 0 explain < <(bytes_of "$1") && grep -q '^accepted: ' "$said/out" ;;
    esac
}
for case in tests/cases/*.hex; do
    expect "desk list of $case" desk_lists "$case"
    expect "desk explain of $case" desk_explains "$case"
done
desk_says() { # EXPECTED, named CASE.COMMAND.txt
    local name
    name=$(basename "$1" .txt)
    "$desk" "${name#*.}" < <(bytes_of "tests/cases/${name%.*}.hex") | cmp -s - "$1"
}
for expected in tests/desk/*.txt; do
    expect "the desk program says $expected" desk_says "$expected"
done
expect "desk grade of C2" test "$(bytes_of tests/cases/c02.hex | "$desk" grade | paste -sd ' ')" = "complete 1 majority 1 zero 0 accurate 0"

# lines of text to a recording
expect "desk record of C1" cmp -s <(bytes_of tests/cases/c01.hex) <("$desk" record tests/desk/c01.lines)
expect "desk record of a truck that is not there" desk_ends 1 record < <(printf 'start 3 5\nround active 2\n')
expect "desk record says where" grep -q '^desk: line 2: active 2: refused 8: ' "$said/err"

# other statuses
expect "desk without a command" desk_ends 2
expect "desk with an unknown command" desk_ends 2 draw
expect "desk with an unknown option" desk_ends 2 list --all
expect "desk with an unknown cycle" desk_ends 2 timeline --cycle seven
expect "desk list in six rounds" desk_ends 2 list --cycle six < <(bytes_of tests/cases/c01.hex)
expect "desk list in six rounds says why not" grep -q '^desk: no --cycle six with "list": the proved listing is that of two rounds$' "$said/err"
expect "desk with a file that is not there" desk_ends 3 list tests/desk/none
desk_full() { "$desk" list < <(bytes_of tests/cases/c01.hex) > /dev/full 2> "$said/err"; [ $? -eq 3 ] && [ -s "$said/err" ]; }
expect "desk on a full device" desk_full
desk_cut() { "$desk" timeline < <(printf '\x81\x90'; head -c 56016 /dev/zero) 2> "$said/err" | head -n 1 > "$said/out"; [ ! -s "$said/err" ] && [ "$(cat "$said/out")" = "32 trucks, 400 rounds" ]; }
expect "desk into a pipe that is closed early" desk_cut

# pictures: read as XML, with one element for each event; the largest recording of zeros has nothing but a bar for each truck
events="cell bar sent veto missed mark false stopped decided opening even broken"
draws() { # COUNTS [OPTION..]: the picture of standard input has them, in the order of the events
    "$desk" picture "${@:2}" > "$said/svg" && [ "$(python3 tests/desk/classes.py $events < "$said/svg")" = "$1" ]
}
expect "the picture of C1" draws "8 0 4 2 0 0 0 0 2 2 2 0" < <(bytes_of tests/cases/c01.hex)
expect "the picture of C1 is the one in docs" cmp -s "$said/svg" docs/pictures/c1.svg
expect "the picture of C2" draws "4 0 2 0 2 0 0 0 2 2 1 1" < <(bytes_of tests/cases/c02.hex)
expect "the picture of C3" draws "4 0 2 2 2 2 0 0 0 2 1 0" < <(bytes_of tests/cases/c03.hex)
expect "the picture of vetoes half heard" draws "8 0 4 2 2 1 1 0 2 2 2 0" < <(bytes_of tests/cases/half-heard.hex)
expect "the picture of a veto missed" draws "8 0 4 1 4 0 0 0 3 3 2 1" < <(bytes_of tests/cases/veto-missed.hex)
expect "the picture of the largest recording" draws "0 32 0 0 0 0 0 0 0 32 200 0" < <(printf '\x81\x90'; head -c 56016 /dev/zero)

# the six-round cycle: a run worked by hand, in which a truck becomes unwilling on a message and one on a mark, both veto, a third stops in a bit round, and a silent prepare ends in decisions
expect "desk record in six rounds" desk_ends 0 record --cycle six tests/desk/six/spring.lines
mv "$said/out" "$said/spring"
expect "desk timeline in six rounds" cmp -s tests/desk/six/spring.timeline <("$desk" timeline --cycle six "$said/spring")
expect "desk timeline in two rounds, said or not" cmp -s <("$desk" timeline "$said/spring") <("$desk" timeline --cycle two "$said/spring")
# by six rounds truck 1 misses a message in round 3; by two nobody sends there, so that its mark is false
expect "desk grade in six rounds" test "$("$desk" grade --cycle six "$said/spring" | paste -sd ' ')" = "complete 0 majority 0 zero 0 accurate 0"
expect "desk grade of the same in two rounds" test "$("$desk" grade "$said/spring" | paste -sd ' ')" = "complete 0 majority 0 zero 0 accurate 3"
events="cell bar sent bit veto unwilling missed mark false stopped decided opening even accept broken"
expect "the picture of six rounds" draws "28 0 2 10 2 2 2 2 0 1 2 3 0 2 0" --cycle six < "$said/spring"
expect "the picture of six rounds is the one in docs" cmp -s "$said/svg" docs/pictures/six.svg
rm -rf "$said"
finished=yes
