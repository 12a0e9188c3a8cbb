#!/usr/bin/env bash
# Tests tests/edits.sh, on a crate of four functions in a folder of its own: which edits pass, which don't, and what the hashes do.
# usage: tests/edits_test.sh       (half a minute to a minute of processor time, and 1 GB; it needs rt)
# Each expectation that isn't met is printed, with what was said; the last line counts.
set -uo pipefail
cd "$(dirname "$0")/.." || exit 2
room=$(mktemp -d) || exit 2
trap 'rm -rf "$room"' EXIT
mkdir -p "$room/tests" "$room/crates/sums/src" "$room/edits/sums" || exit 2
cp -r tests/edits.sh tests/lib "$room/tests/" || exit 2
cd "$room" || exit 2
echo "sums:" > crates.txt
cat > crates/sums/src/lib.rt <<'END_OF_CRATE'
//! Small sums.

#![tactic(auto)]

ghost use Rattle.std.specs.Prelude.{◌≡◌, ◌+◌, ◌≤◌};

/// One more.
pub fn next(number: u64) -> u64
    requires { number ≤ 100 }
    ensures { result ≡ number + 1 }
{
    number + 1
}

/// Two more.
fn after_next(number: u64) -> u64
    requires { number ≤ 100 }
    ensures { result ≡ number + 2 }
{
    number + 2
}

/// Three more.
pub fn third(number: u64) -> u64
    requires { number ≤ 100 }
    ensures { result ≡ number + 3 }
{
    after_next(number) + 1
}

/// No less than either.
pub fn most(a: u64, b: u64) -> u64
    ensures first { a ≤ result }
    ensures second { b ≤ result }
{
    if a < b { b } else { a }
}
END_OF_CRATE

# edit NAME OLD NEW [OLD NEW]: an edit of the crate's one file.
edit() {
    local file="edits/sums/$1.edit"
    shift
    echo "file: src/lib.rt" > "$file"
    while [ $# -gt 0 ]; do
        printf 'old: %s\nnew: %s\n' "$1" "$2" >> "$file"
        shift 2
    done
}

met=0
unmet=0
# says STATUS TEXT..: whether the last run ended with the status, and said each text as a line or the beginning of one.
says() {
    local status=$1 text
    shift
    for text in "$@"; do
        if [ "$status" = "$ended" ] && grep -q -- "^$text" <<< "$said"; then
            met=$((met + 1))
        else
            unmet=$((unmet + 1))
            printf 'not met: status %s, and: %s\nit ended with %s, and said:\n%s\n' "$status" "$text" "$ended" "$said"
        fi
    done
}
run() {
    said=$(tests/edits.sh --jobs 1 "$@" 2>&1)
    ended=$?
}

edit wrong '    number + 2' '    number + 1'
run --hashes
says 1 'edits/sums/wrong.edit: its hash doesn.t fit, and it wasn.t tried' '0 passed, 1 failed'

edit same 'if a < b' 'if a <= b'
edit uncompiled '    number + 1' '    number + true'
edit unread 'result ≡ number + 3' 'result ≡ numbr + 3'
edit weak 'result ≡ number + 2' 'result ≤ number + 2' '    number + 2' '    number + 1'
edit elsewhere '    number + 7' '    number + 1'
run --all --write
says 1 'edits/sums/same.edit: NOT REFUSED' 'edits/sums/uncompiled.edit: doesn.t compile' 'edits/sums/weak.edit: NOT REFUSED' \
    'edits/sums/unread.edit: doesn.t compile' 'edits/sums/elsewhere.edit: doesn.t apply' '1 passed, 5 failed'

run --hashes
says 1 'edits/sums/same.edit: its hash doesn.t fit' 'edits/sums/weak.edit: its hash doesn.t fit' '1 passed, 5 failed'
rm edits/sums/{same,uncompiled,unread,weak,elsewhere}.edit
run --hashes
says 0 '1 passed, 0 failed'

echo "// (a comment)" >> crates/sums/src/lib.rt
run --hashes
says 1 'edits/sums/wrong.edit: its hash doesn.t fit, and it wasn.t tried' '0 passed, 1 failed'
run
says 0 'edits/sums/wrong.edit: refused; its hash is to be written' '1 passed, 0 failed'

rm edits/sums/wrong.edit
run --hashes
says 1 'edits/hashes names edits/sums/wrong.edit' 'there are no edits'
echo "$met passed, $unmet failed"
exit $((unmet > 0))
