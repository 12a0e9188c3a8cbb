#!/usr/bin/env bash
# What the gate costs: runs `.ci/run` from nothing in a clean clone of what is committed, and prints one line at the end.
# usage: tests/gate_cost.sh [FOLDER]         (the gate's own lines go to FOLDER/gate.txt, else to a temporary folder)
# The figures are the last two numbers: the gate's processor minutes over those that cap_reader's proof takes with one job on this
# machine just before, once alone and once beside as many of it as the gate has checks at once, the mean of these. Checks that run
# side by side slow each other, so the second says more of what the gate has to do, and the first more of what it takes. It wants
# a machine on which cap_reader wasn't proved before. Machines differ by more than a factor of two, so minutes of two of them are
# never compared; docs/TIMES.md has the figures. It takes about two hours and all processors: run nothing beside it.
set -euo pipefail
cd "$(dirname "$0")/.."
room=$(mktemp -d)
trap 'rm -rf "$room"' EXIT
told=$(realpath "${1:-$room}")
git clone --quiet . "$room/clone"
cd "$room/clone"

# processor seconds (user and system) that a command and all that it starts take; its status is passed on
seconds_of() {
    local output=$1 status=0
    shift
    python3 - "$output" "$@" <<'END' || status=$?
import os, resource, subprocess, sys, time
with open(sys.argv[1], "w") as output:
    began = time.time()
    status = subprocess.call(sys.argv[2:], stdout=output, stderr=subprocess.STDOUT, stdin=subprocess.DEVNULL)
used = resource.getrusage(resource.RUSAGE_CHILDREN)
with open(sys.argv[1] + ".seconds", "w") as out:
    out.write(f"{used.ru_utime + used.ru_stime} {time.time() - began}\n")
sys.exit(status != 0)
END
    return $status
}

# cap_reader's proof in a copy, from nothing
prove_reader() {
    (cd "$1/crates/cap_frame" && rt lib >/dev/null 2>&1)
    (cd "$1/crates/cap_reader" && seconds_of "$2" rt check --jobs 1)
}

# (a check begins with what another kept, where it is still there)
prove_reader "$room/clone" "$room/alone"
rm -rf crates/*/out
checks=$(nproc)
for at in $(seq "$checks"); do
    cp -r "$room/clone" "$room/copy$at"
    (cd "$room/copy$at/crates/cap_frame" && rt lib >/dev/null 2>&1)
done
for at in $(seq "$checks"); do
    prove_reader "$room/copy$at" "$room/beside$at" &
done
wait
rm -rf "$room"/copy*
failed=0
# (some kits' rt ci begins with what was proved on this machine before, unless it is told not to)
anew=()
# (not by grep -q: it would end before rt has printed all, which counts as a failure here)
if rt help 2>&1 | grep -- --anew >/dev/null; then anew=(--anew); fi
seconds_of "$told/gate.txt" bash .ci/run "${anew[@]}" || failed=1
python3 - "$told/gate.txt" "$room/alone" "$room"/beside*.seconds <<'END'
import re, sys
# (tests count, too: those of the proofs come behind the line that begins them)
proofs = open(sys.argv[1]).read().rpartition("\nproofs:\n")[2]
last = re.findall(r"^\d+ passed, \d+ failed$", proofs, re.M)
seconds = lambda file: [float(it) for it in open(file).read().split()]
gate, clock = seconds(sys.argv[1] + ".seconds")
alone, _ = seconds(sys.argv[2] + ".seconds")
beside = sum(seconds(file)[0] for file in sys.argv[3:]) / len(sys.argv[3:])
print(f"{last[-1] if last else 'the gate stopped'}, {gate / 60:.0f} processor minutes, {clock / 60:.0f} by the clock, "
      f"{gate / alone:.0f} times cap_reader's {alone:.0f} seconds alone, {gate / beside:.0f} times its {beside:.0f} beside itself")
END
exit $failed
