#!/usr/bin/env bash
# Builds the trials without a proof, on the crates as they stand, and runs them: the tests of call_trials, with the conversations of vat_scripts
# among them, and what the program `tools` prints of schemas, of a file of frames, and of a tap.
# usage: tests/trials.sh [WORD]          (only the tests of call_trials whose names contain WORD)
# It takes some minutes. What fails is printed, and the last line counts.
set -uo pipefail
cd "$(dirname "$0")/.." || exit 2
. tests/lib/with_trials.sh
here=$PWD
room=$(mktemp -d) || exit 2
trap 'rm -rf "$room"' EXIT
with_trials "$room" && mkdir "$room/data" && cp trials/*/data/* "$room/data" || exit 2
passed=0
failed=0

# same WHAT WANTED CAME: counts whether two texts are the same
same() {
    if diff <(printf '%s\n' "$2") <(printf '%s\n' "$3") > "$room/differs"; then
        passed=$((passed + 1))
    else
        failed=$((failed + 1))
        echo "$1:"
        cat "$room/differs"
    fi
}

# The tests of call_trials, each in a process of its own.
try_calls() {
    if ! tests/lib/unproved.py "$room/crates/call_trials" "$room/call_trials" --test ${turn:+--turn "$turn"}; then
        failed=$((failed + 1))
        return
    fi
    (cd "$room/data" && "$(dirname "$(realpath "$(command -v rt)")")/rattle-test" --seconds 1000 ${1:+--filter "$1"} ../call_trials) > "$room/told" 2>&1
    grep -v '[.][.][.] ok$' "$room/told"
    local counted
    counted=$(sed -nE 's/^test result: .* ([0-9]+) passed; ([0-9]+) failed;.*/\1 \2/p' "$room/told")
    passed=$((passed + ${counted% *}))
    failed=$((failed + ${counted#* }))
}

# What is printed of the schemas; of a Bootstrap, two frames of one segment without words, and one byte; and of a tap. Of times only the form
# can be known.
try_tools() {
    local none='\0\0\0\0\0\0\0\0' struct='\0\0\0\0\1\0\1\0'
    if ! tests/lib/unproved.py "$room/crates/tools" "$room/tools"; then
        failed=$((failed + 1))
        return
    fi
    cd "$room/data" || return
    same "tools schemas" "$(cat schemas.txt)" "$(../tools schemas)"
    printf '\0\0\0\0\5\0\0\0'"$struct"'\10\0\0\0\0\0\0\0'"$struct$none$none$none$none"'\7' > frames
    same "tools reader_bench" 'frames 3 refused 2 bytes 64 left 1 sum 0002000700000008 frame T ns words T ns times T' \
        "$(../tools reader_bench frames | sed -E 's/[0-9]+[.][0-9]( |$)/T\1/g')"
    same "tools tap_bench" $'records 20\nrecord T two lanes T times T\nmake and record T two lanes T times T\nclose T\nclose of 10 times as many T' \
        "$(../tools tap_bench 20 | sed -E 's/[0-9]+[.][0-9]( |$)/T\1/g')"
    same "tools tap_bench 0" "not measured: the count isn't one from 1 to 65536" "$(../tools tap_bench 0)"
    cd "$here" || return
}

try_calls "${1-}"
[ -n "${1-}" ] || try_tools
echo "trials: $passed passed, $failed failed"
[ "$failed" -eq 0 ]
