#!/usr/bin/env bash
# Tests all that judges behaviour, without a proof: builds the program and runs tests/all on it, and beside that tests/trials.sh.
# usage: tests/quick.sh
# It wants the toolchain's rt on the PATH, and Debian's packages parallel, librsvg2-bin and imagemagick: as root it installs what is missing, and
# otherwise what can't be run fails. README.md says what time and memory it takes. The last line counts.
set -uo pipefail
cd "$(dirname "$0")/.." || exit 2
room=$(mktemp -d) || exit 2
trap 'rm -rf "$room"' EXIT
# one translation of all sources at a time
export turn=$room/turn

missing=()
# (of ImageMagick its identify is looked for: another program may have the name convert)
for it in parallel:parallel rsvg-convert:librsvg2-bin identify:imagemagick; do
    command -v "${it%:*}" > /dev/null || missing+=("${it#*:}")
done
if [ ${#missing[@]} -gt 0 ]; then
    echo "missing: ${missing[*]}"
    if [ "$(id -u)" = 0 ]; then
        { apt-get -qq update && DEBIAN_FRONTEND=noninteractive apt-get -qq --yes install "${missing[@]}"; } > "$room/installed" 2>&1 ||
            cat "$room/installed"
    fi
fi

try_program() {
    tests/lib/unproved.py crates/vataudit "$room/vataudit" --turn "$turn" && tests/all "$room/vataudit"
}

# part NAME COMMAND: runs it, keeps what it prints, and how many seconds it took
part() {
    TIMEFORMAT="$1: %U user and %S system seconds, %R by the clock"
    { time "$2" > "$room/$1" 2>&1; } 2>> "$room/times"
}

echo "the program and the trials are built and run, which takes some minutes"
part program try_program &
part trials tests/trials.sh &
wait
passed=0
failed=0
for name in program trials; do
    cat "$room/$name"
    # The last line counts, unless the part ended before it.
    counted=$(sed -nE '$ s/^(.*: )?([0-9]+) passed, ([0-9]+) failed$/\2 \3/p' "$room/$name")
    counted=${counted:-0 1}
    passed=$((passed + ${counted% *}))
    failed=$((failed + ${counted#* }))
done
cat "$room/times"
echo "$passed passed, $failed failed"
[ "$failed" -eq 0 ]
