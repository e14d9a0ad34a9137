# The script ./replay: what it takes, its statuses, and when it builds. For the last, a copy of it stands in a tree with an rt of its own, so that nothing is proved here.
box=$(mktemp -d)
bytes_of tests/cases/c01.hex > "$box/c01"
bytes_of tests/cases/c08.hex > "$box/c08"
bytes_of tests/cases/c10.hex > "$box/c10"
listing=$(cat tests/cases/c01.out)
# STATUS OUTPUT ERROR COMMAND..: how a command ends, what it prints, and how its message begins. One that waits for itself is ended.
ends() {
    local status=$1 out=$2 err=$3 said ended
    shift 3
    said=$(timeout 20 "$@" 2> "$box/err")
    ended=$?
    [ "$ended" -eq "$status" ] && [ "$said" = "$out" ] || return 1
    if [ -z "$err" ]; then [ ! -s "$box/err" ]; else grep -q "^$err" "$box/err"; fi
}
# a file may have been touched since the program was built: whatever is to be built is built before the tests
./replay "$box/c01" > /dev/null 2>&1
usage=$(./replay --help)
expect "replay of a file" ends 0 "$listing" "" ./replay "$box/c01"
expect "replay of a file after --" ends 0 "$listing" "" ./replay -- "$box/c01"
expect "replay of standard input" ends 0 "$listing" "" ./replay < "$box/c01"
expect "replay of -" ends 0 "$listing" "" ./replay - < "$box/c01"
expect "replay of a refused recording" ends 1 "refused 4" "" ./replay "$box/c08"
expect "replay of an own loss bit" ends 1 "refused 6 round 1 truck 0" "" ./replay "$box/c10"
expect "replay --help" test "$(head -n 1 <<< "$usage")" = "usage: replay [FILE]"
expect "replay -h" ends 0 "$usage" "" ./replay -h
for wrong in "-x" "--all" "$box/c01 $box/c08" "-- -x $box/c01"; do
    # shellcheck disable=SC2086
    expect "replay $wrong" ends 2 "" "usage: replay" ./replay $wrong
done
expect "replay of a file that is not there" ends 3 "" "replay: $box/none could not be read" ./replay "$box/none"
expect "replay of a folder" ends 3 "" "replay: standard input could not be read" ./replay "$box"
expect "replay of a closed input" ends 3 "" "replay: standard input could not be read" bash -c 'exec ./replay <&-'
for out in '> /dev/full' '>&-'; do
    expect "replay $out" ends 3 "" "replay: standard output could not be written" bash -c "exec ./replay '$box/c01' $out"
    expect "replay --help $out" ends 3 "" "replay: standard output could not be written" bash -c "exec ./replay --help $out"
done

# a link to a link, called from another folder
ln -s "$PWD/replay" "$box/first"
ln -s first "$box/second"
expect "replay through links" ends 0 "$listing" "" bash -c "cd / && exec '$box/second' '$box/c01'"

# A tree of its own. Its rt writes down where and how it was called, does what the file 'then' says, and puts the program in place.
tree=$box/tree
mkdir -p "$tree/crates/one/src" "$tree/crates/replay/src" "$tree/target/bin" "$box/bin"
cp replay prove "$tree"
printf 'one:\nreplay: one\n' > "$tree/crates.txt"
touch -d '2 hours ago' "$tree/crates.txt" "$tree"/crates/{one/src/{lib.rt,more.rt},replay/src/main.rt,one/src,replay/src,one,replay} "$tree/crates"
cat > "$box/bin/rt" << END
#!/bin/sh
echo "\$PWD: \$*" >> "$box/asked"
echo "rt: at work"
echo "error: none of note" >&2
. "$box/then"
[ "\$1" != run ] || cp "$PWD/target/bin/replay" out
END
chmod +x "$box/bin/rt"
echo : > "$box/then"
asks() { # TIMES STATUS OUTPUT ERROR: how often a call of the tree's script asks rt to build the program, and how it ends; what is not proved is not built
    local times=$1
    shift
    rm -f "$box/asked"
    touch "$box/asked"
    PATH=$box/bin:$PATH ends "$@" "$tree/replay" "$box/c01" || return 1
    [ "$(grep -cxF "$tree/crates/replay: run" "$box/asked")" -eq "$times" ] && [ "$(grep -cvxE "$tree/crates/(one: check|replay: (check|run))" "$box/asked")" -eq 0 ]
}
expect "replay builds the first time, and says so" asks 1 0 "$listing" "replay: proving and building"
expect "replay says which crate begins, and no more" test "$(grep -v '^replay: ' "$box/err" | paste -sd /)" = "[1 of 2] one/[2 of 2] replay"
expect "replay does not build again" asks 0 0 "$listing" ""
touch "$tree/crates/replay/src/main.rt"
expect "replay builds after a change" asks 1 0 "$listing" "replay: proving and building"
expect "replay does not name what is proved already" test "$(grep -v '^replay: ' "$box/err")" = "[2 of 2] replay"
touch "$tree/crates/one/src/lib.rt"
expect "replay builds after a change below" asks 1 0 "$listing" "replay: proving and building"
expect "replay names what rests on the change" test "$(grep -v '^replay: ' "$box/err" | paste -sd /)" = "[1 of 2] one/[2 of 2] replay"
expect "replay does not build again after that" asks 0 0 "$listing" ""
touch "$tree/crates.txt"
expect "replay builds after a change of crates.txt" asks 1 0 "$listing" "replay: proving and building"
rm "$tree/crates/one/src/more.rt"
expect "replay builds after a file is taken away" asks 1 0 "$listing" "replay: proving and building"
# a program that would be the same is left alone
touch "$tree/crates.txt"
echo exit > "$box/then"
expect "replay builds where rt leaves the program alone" asks 1 0 "$listing" "replay: proving and building"
expect "replay does not build again then" asks 0 0 "$listing" ""
touch "$tree/crates.txt"
echo "sleep 0.02; touch '$tree/crates.txt'" > "$box/then"
expect "replay builds while a file changes" asks 1 0 "$listing" "replay: proving and building"
expect "replay builds again after that" asks 1 0 "$listing" "replay: proving and building"
echo 'exit 1' > "$box/then"
expect "replay ends where the build fails" asks 0 3 "" "replay: the program could not be built"
expect "replay says all of it then" grep -qx 'error: none of note' "$box/err"
echo 'rm -f out/replay; exit 0' > "$box/then"
expect "replay ends where no program is built" asks 1 3 "" "replay: the program could not be built"
mkdir "$box/tools"
for tool in bash dirname readlink find; do ln -s "$(command -v "$tool")" "$box/tools"; done
expect "replay without rt" ends 3 "" "replay: the program has to be built, but the command rt" env PATH="$box/tools" "$tree/replay" "$box/c01"
rm -rf "$box"
finished=yes
