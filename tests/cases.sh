#!/usr/bin/env bash
# Runs the commands of docs/CASES.md, word for word, on a folder of cases that it makes of samples/, and compares each table
# with the rows that must come: with GNU parallel, with xargs, and with Slurm, whose sbatch this test plays.
# usage: tests/cases.sh PROGRAM          (the built program; GNU parallel is Debian's package parallel)
# Each table that isn't as it must be is named, and the last line counts. What can't be run fails.
set -uo pipefail
program=$(realpath -e "${1:?usage: tests/cases.sh PROGRAM}") || exit 2
top=$(realpath "$(dirname "$0")/..")
room=$(mktemp -d) || exit 2
trap 'rm -rf "$room"' EXIT
mkdir "$room/bin" "$room/work" && cd "$room/work" || exit 2
ln -s "$program" "$room/bin/vataudit"
export PATH="$room/bin:$PATH"
export LC_ALL=C
passed=0
failed=0

# block WORDS: the commands of docs/CASES.md that have these words, one block of them
block() {
    awk -v words="$1" '
        /^```/ {if (inside && index(text, words)) {printf "%s", text; exit} inside = ($0 == "```sh"); text = ""; next}
        inside {text = text $0 "\n"}' "$top/docs/CASES.md"
}

# run WORDS: runs that block
run() {
    local commands
    commands=$(block "$1")
    [ -n "$commands" ] || { echo "docs/CASES.md has no commands with: $1"; return 1; }
    bash -euo pipefail -c "$commands"
}

# same WHAT CAME WANTED: counts whether two files are the same
same() {
    if diff -u "$3" "$2" >differs; then
        passed=$((passed + 1))
    else
        failed=$((failed + 1))
        echo "$1:"
        head -n 20 differs
    fi
}

# a_case NAME SAMPLE: the folder of a case, and the row that must come of it
a_case() {
    mkdir -p "cases/$1"
    cp "$top"/samples/*.log "cases/$1"
    cp "$top/samples/$2" "cases/$1/case.json"
}
row() {
    printf 'cases/%s/case.json\t%s\t%s\n' "$1" "$2" "$3" >>wanted
}

for ((at = 100; at < 112; at++)); do
    a_case "$at.pipelined" pipelined_call.json
    row "$at.pipelined" 0 "yes vats 2 records 14 delivered 1 under_way 0"
    a_case "$at embargoed" embargoed_calls.json
    row "$at embargoed" 0 "yes vats 2 records 28 delivered 3 under_way 0"
    a_case "$at.over'taking" overtaking_call.json
    row "$at.over'taking" 1 "no vat 1 record 11 rule ORDER"
done
a_case goal pipelined_call.json
cp "$top/samples/wrong_object.vat2.log" cases/goal/pipelined_call.vat2.log
row goal 1 "no vat 2 record 4 rule GOAL"
a_case missing pipelined_call.json
rm cases/missing/pipelined_call.vat1.log
row missing 2 "cannot read"
a_case no_case pipelined_call.vat1.log
row no_case 2 "bad case"
a_case cut pipelined_call.json
truncate -s 100 cases/cut/pipelined_call.vat2.log
row cut 2 "bad log Short 97"
sort -o wanted wanted

block "# audit-case CASE" >audit-case
chmod +x audit-case
run "find cases"
sort cases.txt >came
cut -f 1 wanted >each
same "the list of cases" came each

if parallel --version 2>/dev/null | grep -q '^GNU parallel'; then
    run "--keep-order ./audit-case >"
    cut -f 1 answers.tsv >came
    same "the order of the rows of parallel" came cases.txt
    sort answers.tsv >came
    same "the table of parallel" came wanted
    # A run that is broken off: half of the cases are done, and the next run does the rest.
    rm -f answers.tsv done.txt
    mv cases.txt all.txt && head -n 20 all.txt >cases.txt
    run "--resume ./audit-case"
    mv all.txt cases.txt
    run "--resume ./audit-case"
    sort answers.tsv >came
    same "the table of parallel, in two runs" came wanted
else
    failed=$((failed + 1))
    echo "can't be run: GNU parallel isn't here (Debian's package parallel)"
fi

rm -f answers.tsv
run "xargs -0 -n 1 -P"
same "the table of xargs" answers.tsv wanted
run "uniq -c" >came
{
    cut -f 2 wanted | sort | uniq -c
    awk -F '\t' '$2 != 0' wanted
} >each
same "what is read off the table" came each

# Slurm: sbatch runs each task of an array, or what it is to wrap, at once.
cat >"$room/bin/sbatch" <<'SBATCH'
#!/usr/bin/env bash
set -euo pipefail
for word; do
    case $word in
        --parsable | --dependency=afterany:7) ;;
        --wrap) exec sh -c "${!#}" ;;
        *)
            last=$(sed -n 's/^#SBATCH --array=1-//p' "$word")
            for ((task = last; task > 0; task--)); do
                SLURM_ARRAY_TASK_ID=$task SLURM_ARRAY_TASK_COUNT=$last sh "$word"
            done
            echo 7
            ;;
    esac
done
SBATCH
chmod +x "$room/bin/sbatch"
rm -f answers.tsv
block "#SBATCH --array" >cases.sbatch
run "sbatch --parsable"
same "the table of Slurm's array" answers.tsv wanted

echo "$passed passed, $failed failed"
[ "$failed" = 0 ]
