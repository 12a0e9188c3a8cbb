#!/usr/bin/env bash
# What more vats cost `vataudit order`: 1,024 vats of 1,000 records in a ring over 64 vats of 16,000. In each a frame goes
# round: every vat but the first receives it from the one before and sends it to the next.
# usage: tests/bench_orders.sh PROGRAM [RUNS]     PROGRAM is vataudit; 5 runs of each if not said, in turn
# Prints the medians of the processor time in seconds, and their ratio. It is to be at most 3; else the status is 1.
set -euo pipefail
[ $# -ge 1 ] || { sed -n '2,5s/^# //p' "$0" >&2; exit 2; }
program=$(realpath "$1")
folder=$(mktemp -d)
trap 'rm -rf "$folder"' EXIT
cd "$folder"
python3 - "$program" "${2:-5}" <<'END'
import json, os, resource, statistics, struct, subprocess, sys
program, runs = sys.argv[1], int(sys.argv[2])

def record(kind, connection):
    return struct.pack("<BIQHI", kind, connection, 0, 0, 0)

def ring(vats, records):
    name = f"ring{vats}"
    for vat in range(vats):
        sends, receives = record(10, vat), record(11, (vat - 1) % vats)
        both = sends + receives if vat == 0 else receives + sends
        with open(f"{name}.vat{vat}", "wb") as log:
            log.write(b"VATLOG01" + struct.pack("<I", vat) + both * (records // 2))
    links = [[vat, vat, (vat + 1) % vats] for vat in range(vats)]
    with open(name, "w") as case:
        json.dump({"logs": [f"{name}.vat{vat}" for vat in range(vats)], "links": links}, case)
    return name, f"order steps {vats * records}\n"

def seconds(name, line):
    before = resource.getrusage(resource.RUSAGE_CHILDREN)
    came = subprocess.run([program, "order", name, "--out", "made"], capture_output=True, text=True)
    after = resource.getrusage(resource.RUSAGE_CHILDREN)
    if came.stdout != line or came.returncode != 0:
        sys.exit(f"{name}: {came.stdout}{came.stderr}status {came.returncode}")
    return after.ru_utime - before.ru_utime

rings = [ring(1024, 1000), ring(64, 16000)]
times = [[], []]
for _ in range(runs):
    for ring_times, one in zip(times, rings):
        ring_times.append(seconds(*one))
many, few = map(statistics.median, times)
print(f"1024 vats of 1000 records: {many:.2f}, 64 of 16000: {few:.2f}, ratio {many / few:.2f}")
sys.exit(many > 3 * few)
END
