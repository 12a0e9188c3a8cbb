#!/usr/bin/env bash
# What the later edition of rpc.capnp costs: the instructions of `vat` and `check` on logs of version 3 over those on the
# same records in version 2.
# usage: tests/bench_editions.sh PROGRAM FOLDER..
# Each FOLDER has a case.json with its logs (samples/pipelined_call.json shows the form), large ones, or it says nothing.
# They are laid into a temporary folder, migrated to version 2, and once more with the magic of version 3. valgrind counts.
# Prints the ratio for each log and each case. It is to be at most 1.05; else the status is 1.
set -euo pipefail
[ $# -ge 2 ] || { sed -n '2,7s/^# //p' "$0" >&2; exit 2; }
exec python3 - "$@" <<'END_OF_PROGRAM'
import json, os, re, subprocess, sys, tempfile
program, folders = os.path.abspath(sys.argv[1]), sys.argv[2:]

def instructions(room, *words):
    """The instructions that the program executes on these words in a folder, and what it answers."""
    ran = subprocess.run(["valgrind", "--tool=callgrind", "--callgrind-out-file=/dev/null", program, *words], capture_output=True, text=True, cwd=room)
    counted = re.search(r"Collected : (\d+)", ran.stderr)
    if not counted or not ran.stdout.startswith(("good ", "yes ")):
        sys.exit(f"{words}: {ran.stdout}{ran.stderr}")
    return int(counted[1]), ran.stdout

def laid(folder, room):
    """The names of the logs and of the case of a folder, in version 2 and in version 3."""
    case = json.load(open(os.path.join(folder, "case.json")))
    names = {2: [], 3: []}
    for at, log in enumerate(case["logs"]):
        two, three = (os.path.join(room, f"{at}.{version}.log") for version in (2, 3))
        subprocess.run([program, "migrate", os.path.join(folder, log), "--out", two], check=True, capture_output=True)
        with open(two, "rb") as records, open(three, "wb") as later:
            later.write(b"VATLOG03" + records.read()[8:])
        names[2].append(two)
        names[3].append(three)
    for version, logs in names.items():
        logs.append(os.path.join(room, f"{version}.json"))
        with open(logs[-1], "w") as out:
            json.dump(dict(case, logs=[os.path.basename(log) for log in logs[:-1]]), out)
    return names

most = 0
for folder in folders:
    with tempfile.TemporaryDirectory() as room:
        names = laid(folder, room)
        for earlier, later in zip(names[2], names[3]):
            command = "check" if earlier.endswith(".json") else "vat"
            before, said = instructions(room, command, earlier)
            after, same = instructions(room, command, later)
            if said != same:
                sys.exit(f"{folder}: version 2 answers {said}, version 3 {same}")
            most = max(most, after / before)
            print(f"{os.path.basename(folder)}: {command} of version 3 takes {after / before:.3f} of the instructions of version 2: {said.strip()}")
sys.exit(most > 1.05)
END_OF_PROGRAM
