# What a new user types, replayed line by line (docs/FIRST-TEN-MINUTES.md); and that the replay tells a page that is wrong.
expect "docs/FIRST-TEN-MINUTES.md" tests/transcript docs/FIRST-TEN-MINUTES.md
page=$(mktemp)
replays() { # STATUS PAGE
    printf '%b' "$2" > "$page"
    tests/transcript "$page" > /dev/null 2>&1
    [ $? -eq "$1" ]
}
expect "a page that is right" replays 0 '```console\n$ cat << END\n> one\n> END\none\n$ echo two; false\ntwo\n```\n'
expect "a page with other output" replays 1 '```console\n$ echo one\ntwo\n```\n'
expect "a page with output missing" replays 1 '```console\n$ echo one\n$ echo two\ntwo\n```\n'
expect "a page with output too many" replays 1 '```console\n$ true\none\n```\n'
expect "a page with output on standard error" replays 1 '```console\n$ echo one >&2\n```\n'
expect "a page whose output is not compared" replays 0 '<!-- output not compared -->\n```console\n$ echo one\n$ cd /\n```\n\n```console\n$ pwd\n/\n```\n'
expect "a page with a command that fails there" replays 1 '<!-- output not compared -->\n```console\n$ false\n```\n'
expect "a page without commands" replays 2 'text\n'
rm -f "$page"
finished=yes
