# ./install into a folder of its own, and projects in C, C++ and Rust outside the repository over what it put there (tests/outside).
box=$(mktemp -d)
prefix=$box/prefix
bytes_of tests/cases/c01.hex > "$box/c01"
bytes_of tests/cases/c08.hex > "$box/c08"
expect "install" bash -c "./install '$prefix' 2> '$box/said'"
cat > "$box/expected" << 'END'
755 bin/desk
755 bin/replay
644 include/rajvokshul.h
644 lib/librajvokshul.a
644 lib/pkgconfig/rajvokshul.pc
755 libexec/rajvokshul/replay
END
(cd rust && printf '644 share/rajvokshul/rust/%s\n' rajvokshul-sys/{Cargo.toml,build.rs,src/*.rs} rajvokshul/{Cargo.toml,examples/*.rs,src/*.rs}) >> "$box/expected"
expect "install puts these files and no others" diff "$box/expected" <(cd "$prefix" && find . -type f -printf '%m %P\n' | LC_ALL=C sort -k 2)
expect "install says what it puts where" test "$(grep -cF "install: $prefix/" "$box/said")" -eq "$(wc -l < "$box/expected")"
expect "nothing installed names the repository" test -z "$(grep -rlF "$PWD" "$prefix")"

# the programs, by a path and through a link
ln -s "$prefix/bin/replay" "$box/link"
for program in "$prefix/bin/replay" "$box/link" "$prefix/bin/desk list"; do
    expect "installed $program" bash -c "cd / && $program '$box/c01' | cmp -s - '$PWD/tests/cases/c01.out'"
done
expect "the status of installed replay" bash -c "'$prefix/bin/replay' '$box/c08' > /dev/null; test \$? -eq 1"

# C and C++ by the flags of pkg-config; where that is missing, by those of the file that it would read
flags() { # FILE.pc
    if command -v pkg-config > /dev/null; then
        PKG_CONFIG_PATH=$(dirname "$1") pkg-config --cflags --libs rajvokshul
    else
        (
            prefix=$(sed -n 's/^prefix=//p' "$1") libdir=$prefix/lib includedir=$prefix/include
            eval "echo $(sed -nE 's/^(Libs|Cflags): (.*)/\2/p' "$1" | paste -sd ' ')"
        )
    fi
}
strict="-Wall -Wextra -Wpedantic -Werror -Wconversion"
cp -r tests/outside "$box/outside"
sed -i "s|@PREFIX@|$prefix|" "$box/outside/rust/Cargo.toml"
c_project() { # COMPILER.. with the project's file as the last word
    (cd "$box/outside" && "$@" $strict $(flags "$prefix/lib/pkgconfig/rajvokshul.pc") -o "$box/project")
}
lists_c01() { "$@" < "$box/c01" | cmp -s - tests/cases/c01.out && test "${PIPESTATUS[0]}" -eq 0; }
refuses_c08() { "$@" < "$box/c08" > "$box/out" 2> "$box/err"; [ $? -eq 1 ] && [ ! -s "$box/out" ] && grep -q '4: the recording.s length is not the one' "$box/err"; }
expect "a project in C" c_project cc -std=c99 c/main.c
expect "a project in C runs" lists_c01 "$box/project"
for standard in c++11 c++17; do
    expect "a project in $standard" c_project c++ -std=$standard cpp/main.cpp
    expect "a project in $standard runs" lists_c01 "$box/project"
    expect "a project in $standard refuses" refuses_c08 "$box/project"
done
version=$(sed -nE 's/^#define RAJVOKSHUL_VERSION "(.*)"$/\1/p' c/rajvokshul.h)
expect "pkg-config's version" grep -qx "Version: $version" "$prefix/lib/pkgconfig/rajvokshul.pc"

# Rust by path; the target folder is the workspace's, which has what was built before
rust_project() {
    local target=$PWD/rust/target
    rm -f "$target/release/outside"
    (cd "$box/outside/rust" && CARGO_TARGET_DIR=$target cargo build --offline --release -q)
}
expect "a project in Rust" rust_project
expect "a project in Rust runs" lists_c01 rust/target/release/outside
expect "a project in Rust refuses" bash -c "! rust/target/release/outside < '$box/c08' 2> '$box/err' && grep -q RecordingLength '$box/err'"

# an installation in two steps, and what goes wrong
staged() { # DESTDIR PREFIX, from the box
    local install=$PWD/install
    (cd "$box" && DESTDIR=$1 "$install" "$2" 2> /dev/null)
}
expect "install with DESTDIR" staged "$box/staged" /quarry
expect "install with DESTDIR and PREFIX of the caller's folder" staged beside opt
expect "install puts the same there" diff <(cd "$prefix" && find . -type f | sort) <(cd "$box/beside$box/opt" && find . -type f | sort)
expect "install with DESTDIR writes nowhere else" diff <(cd "$prefix" && find . -type f | sort) <(cd "$box/staged/quarry" && find . -type f | sort)
expect "install with DESTDIR names the place in the end" grep -qx 'prefix=/quarry' "$box/staged/quarry/lib/pkgconfig/rajvokshul.pc"
install_ends() { # STATUS MESSAGE ARGUMENTS..
    local status=$1 message=$2
    shift 2
    ./install "$@" > "$box/out" 2> "$box/err"
    [ $? -eq "$status" ] && [ ! -s "$box/out" ] && grep -q "$message" "$box/err"
}
expect "install --help" test "$(./install --help | head -n 1)" = "usage: install PREFIX"
expect "install without PREFIX" install_ends 2 '^usage: install PREFIX'
expect "install with an unknown option" install_ends 2 '^usage: install PREFIX' --all
expect "install with two arguments" install_ends 2 '^usage: install PREFIX' "$box/one" "$box/two"
expect "install with a blank in PREFIX" install_ends 2 '^usage: install PREFIX' "$box/one two"
expect "install where nothing can be written" install_ends 1 'could not be written' "$box/c01/prefix"
# a build that fails: with an rt that refuses, and a change for it to look at
mkdir -p "$box/bin" "$box/tree/target/staticlib" "$box/tree/crates"/{replay,ffi,ffi_c}
printf '#!/bin/sh\necho "rt: NOT PROVED"\nexit 1\n' > "$box/bin/rt"
chmod +x "$box/bin/rt"
cp install prove "$box/tree"
printf 'replay:\nffi: replay\nffi_c staticlib: ffi\n' > "$box/tree/crates.txt"
unproved() { PATH=$box/bin:$PATH "$box/tree/install" "$box/three" 2> "$box/err"; [ $? -eq 1 ] && grep -qx 'rt: NOT PROVED' "$box/err" && grep -q 'nothing is installed' "$box/err" && [ ! -e "$box/three" ]; }
expect "install of what is not proved" unproved
rm -rf "$box"
finished=yes
