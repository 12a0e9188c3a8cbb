#!/usr/bin/env bash
# What a record costs: the instructions of `vat` and `check` and their memory at the peak, over the records.
# usage: tests/bench_records.sh PROGRAM FOLDER
# FOLDER has a folder for each kind of log, with a large good log or several, and a case.json of them where they are a case
# (samples/pipelined_call.json shows the form). `vat` is given the longest log. valgrind counts instructions; GNU time
# says the peak. Notes are left out, since those of what is open at the end go through the records once more. Prints a line of a
# table for each kind.
set -euo pipefail
[ $# -eq 2 ] || { sed -n '2,7s/^# //p' "$0" >&2; exit 2; }
exec python3 - "$@" <<'END_OF_PROGRAM'
import glob, os, re, subprocess, sys
program, folder = os.path.abspath(sys.argv[1]), sys.argv[2]

def run(room, *words):
    """What a command writes in a folder, on both outputs."""
    ran = subprocess.run(words, capture_output=True, text=True, cwd=room)
    if not ran.stdout.startswith(("good ", "yes ")):
        sys.exit(f"{words}: {ran.stdout}{ran.stderr}")
    return ran.stdout, ran.stderr

def cost(room, *words):
    """The instructions and the bytes that a command takes for each record."""
    said, counted = run(room, "valgrind", "--tool=callgrind", "--callgrind-out-file=/dev/null", program, "--quiet", *words)
    _, timed = run(room, "/usr/bin/time", "-v", program, "--quiet", *words)
    records = int(re.search(r"records (\d+)", said)[1])
    instructions = int(re.search(r"Collected : (\d+)", counted)[1])
    peak = int(re.search(r"Maximum resident set size \(kbytes\): (\d+)", timed)[1]) * 1024
    return f"{instructions / records:,.0f} | {peak / records:,.0f}"

print("| Log | Instructions of `vat` | Bytes | Instructions of `check` | Bytes |\n|---|---|---|---|---|")
for room in sorted(glob.glob(os.path.join(folder, "*/"))):
    logs = glob.glob(os.path.join(room, "*.log"))
    if not logs:
        continue
    longest = os.path.basename(max(logs, key=os.path.getsize))
    audited, judged = cost(room, "vat", longest), "- | -"
    if os.path.exists(os.path.join(room, "case.json")):
        judged = cost(room, "check", "case.json")
    print(f"| {os.path.basename(os.path.dirname(room))} | {audited} | {judged} |", flush=True)
END_OF_PROGRAM
