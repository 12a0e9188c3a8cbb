#!/usr/bin/env bash
# The files that a reader has to believe: the definitions that public contracts cite, with their lines, a line for each crate.
# usage: tests/believed.sh [CRATE..]          (without a name: every crate)
# Left out are `Lib` and `Types`, which only pass names on, and what serves private contracts alone: files in a folder `Glue`,
# `Glue.antt`, and those whose first line says that they are no part of the meaning. Comments and blank lines count.
set -euo pipefail
cd "$(dirname "$0")/.."

# the files of a crate that define a meaning
meaning_of() {
    find "crates/$1/specs" -name '*.antt' ! -path '*/Glue/*' ! -name Glue.antt ! -name Lib.antt ! -name Types.antt | sort |
        while read -r file; do
            head -n 1 "$file" | grep -q "no part of the meaning" || echo "$file"
        done
}

all=0
for crate in ${*:-$(sed -n 's/^\([a-z_]*\):.*/\1/p' crates.txt)}; do
    [ -d "crates/$crate/specs" ] || continue
    sum=0 line=""
    for file in $(meaning_of "$crate"); do
        lines=$(wc -l <"$file")
        name=${file#"crates/$crate/specs/"}
        line="$line, ${name%.antt} $lines" sum=$((sum + lines))
    done
    [ "$sum" = 0 ] || echo "$crate $sum: ${line#, }"
    all=$((all + sum))
done
echo "all $all"
