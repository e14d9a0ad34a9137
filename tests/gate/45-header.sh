# The header c/rajvokshul.h: in four standards of C and C++ without a warning, its inline functions, NULL for empty lists, words for refusals, and its version.
out=$(mktemp -d)
archive=target/staticlib/libffi.a
strict="-Wall -Wextra -Wpedantic -Werror -Wconversion -Ic"
header_holds() { # COMPILER..
    "$@" $strict tests/c/header.c -x none "$archive" -o "$out/header" && "$out/header"
}
warns() { # COMPILER..: of an answer that is dropped, and of nothing else
    "$@" $strict -c tests/c/dropped.c -o "$out/kept.o" && ! "$@" $strict -DDROPPED -c tests/c/dropped.c -o "$out/dropped.o" 2> "$out/said" \
        && grep -qE 'unused-result|nodiscard' "$out/said"
}
for compiler in "cc -std=c99" "cc -std=c11" "c++ -std=c++11 -x c++" "c++ -std=c++17 -x c++"; do
    expect "the header with $compiler" header_holds $compiler
    expect "$compiler warns of a dropped answer" warns $compiler
done
expect "the header with the sanitizer of undefined behaviour" header_holds cc -std=c99 -g -fsanitize=undefined -fno-sanitize-recover=all
expect "the header with what a debugger asks for" header_holds cc -std=c99 -g
expect "the header under valgrind" valgrind -q --error-exitcode=99 "$out/header"

# Words for refusals: the header and README.md have the same rows (the safe crate's tests hold its words against README.md too).
cc -std=c99 $strict tests/c/reasons.c -o "$out/reasons" && "$out/reasons" > "$out/rows"
expect "the words of the header" test $? -eq 0
expect "README.md has the words of the header" cmp -s "$out/rows" <(grep -E '^\| [0-9]+ \|' README.md)

# The header, rajvokshul-sys and crates/ffi_c declare the same functions, and the script that says so tells one that is missing, one more, and arguments or an answer that differ.
expect "tests/declared.py" python3 tests/declared.py
sample=$(mktemp -d)
files="c/rajvokshul.h rust/rajvokshul-sys/src/lib.rs crates/ffi_c/src/lib.rt"
while IFS=@ read -r file change line; do
    expect "tests/declared.py says of $file after $change: $line" tells tests/declared.py "$files" "$file" "$change" "$line"
done << 'END'
c/rajvokshul.h@s/^uint32_t rajvokshul_run_six(.*//@c/rajvokshul.h lacks rajvokshul_run_six
c/rajvokshul.h@s/^uint32_t rajvokshul_run_six(/uint32_t rajvokshul_run_seven(/@rust/rajvokshul-sys/src/lib.rs lacks rajvokshul_run_seven
c/rajvokshul.h@s/, size_t \*written);/);/@rajvokshul_list is (
c/rajvokshul.h@s/^uint32_t rajvokshul_recording_own_loss(const /uint32_t rajvokshul_recording_own_loss(/@rajvokshul_recording_own_loss is (bytes: *mut u8, bytes_len: usize)
c/rajvokshul.h@s/^uint32_t rajvokshul_step(/uint16_t rajvokshul_step(/@rajvokshul_step is (record: *mut u8, record_len: usize, words: *const u32, words_len: usize) -> u16
rust/rajvokshul-sys/src/lib.rs@s/pub fn rajvokshul_start(/pub fn rajvokshul_begin(/@c/rajvokshul.h lacks rajvokshul_begin
rust/rajvokshul-sys/src/lib.rs@/^    pub fn rajvokshul_recording_own_loss/d@rust/rajvokshul-sys/src/lib.rs lacks rajvokshul_recording_own_loss
rust/rajvokshul-sys/src/lib.rs@/^        crusher: /d@rajvokshul_opening is (
rust/rajvokshul-sys/src/lib.rs@s/^        grades: \*mut u16,/        grades: *mut u32,/@rajvokshul_grade_six is (
rust/rajvokshul-sys/src/lib.rs@s/^        round: u32,/        trucks: u32,/@rajvokshul_round_own_loss is (
crates/ffi_c/src/lib.rt@s/fn rajvokshul_round_own_loss(trucks: u32, /fn rajvokshul_round_own_loss(/@but crates/ffi_c has (round: u32, words: *const u32, words_len: usize) -> u32
crates/ffi_c/src/lib.rt@s/fn rajvokshul_step_six(/fn rajvokshul_step_eight(/@crates/ffi_c/src/lib.rt lacks rajvokshul_step_six
END
rm -rf "$sample"

# One version everywhere.
version=$(sed -nE 's/^#define RAJVOKSHUL_VERSION "(.*)"$/\1/p' c/rajvokshul.h)
numbers=$(sed -nE 's/^#define RAJVOKSHUL_VERSION_(MAJOR|MINOR|PATCH) ([0-9]+)$/\2/p' c/rajvokshul.h | paste -sd .)
expect "the header's version $version is made of its numbers $numbers" test "$version" = "$numbers"
for crate in rajvokshul rajvokshul-sys desk; do
    expect "crate $crate has the header's version" grep -qx "version = \"$version\"" "rust/$crate/Cargo.toml"
done
expect "CHANGELOG.md has the header's version" grep -qE "^## \[$version\]" CHANGELOG.md
rm -rf "$out"
finished=yes
