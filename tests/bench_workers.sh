#!/usr/bin/env bash
# What workers save: the time of `check --workers 4` over that of `check --workers 1`, on one case of four pairs of vats, by the
# clock, and in processor time along the critical path, which processors of others don't lengthen (critical_path.c). Notes are left
# out, since those of what is open at the end go through the records once more, by one worker.
# usage: tests/bench_workers.sh PROGRAM FOLDER
# FOLDER has a case.json with two logs of vats 1 and 2 and the link [0, 1, 2] (samples/pipelined_call.json shows the form),
# large ones, or it says nothing. They are laid into a temporary folder four times, under vat numbers 1 to 8 and connections 0
# to 3. Five runs of each, taken in turns; the best of each counts. Run it on a quiet machine with four processors. It needs cc, and
# is no part of the gate.
set -euo pipefail
[ $# = 2 ] || { sed -n 5p "$0"; exit 2; }
room=$(mktemp -d)
trap 'rm -rf "$room"' EXIT
cc -shared -fPIC -O2 -o "$room/critical_path.so" "$(dirname "$0")/critical_path.c" -ldl
python3 - "$@" "$room" <<'END_OF_PROGRAM'
import json, os, struct, subprocess, sys, tempfile, time
program, folder, tools = os.path.abspath(sys.argv[1]), sys.argv[2], sys.argv[3]

def after_list(log, at, each):
    """The offset behind a list that begins with its 16-bit count."""
    count, = struct.unpack_from("<H", log, at)
    at += 2
    for _ in range(count):
        at = each(at)
    return at

def connections_in(log):
    """The offset of each record's connection: of those that send or receive."""
    at, found = 12, []
    path = lambda at: after_list(log, at, lambda at: at + 2)
    while at < len(log):
        kind, at = log[at], at + 1
        if kind in (0x0A, 0x0B):
            found.append(at)
            at = after_list(log, at + 12, lambda at: at + 8)
            at += 4 + struct.unpack_from("<I", log, at)[0]
        elif kind == 0x08:
            at = after_list(log, at + 8, lambda at: path(at + 8))
        elif kind == 0x06:
            at = path(at + 16)
        else:
            at += {0x01: 16, 0x02: 8, 0x03: 16, 0x04: 8, 0x05: 26, 0x07: 16, 0x09: 8}[kind]
    return found

def best(runs):
    return min(runs)

with tempfile.TemporaryDirectory() as room:
    logs, links = [], []
    case = json.load(open(os.path.join(folder, "case.json")))
    for end, name in enumerate(case["logs"]):
        log = bytearray(open(os.path.join(folder, name), "rb").read())
        places = connections_in(log)
        for pair in range(4):
            struct.pack_into("<I", log, 8, 2 * pair + end + 1)
            for at in places:
                struct.pack_into("<I", log, at, pair)
            logs.append(f"{pair}.{end}.log")
            with open(os.path.join(room, logs[-1]), "wb") as out:
                out.write(log)
    links = [[pair, 2 * pair + 1, 2 * pair + 2] for pair in range(4)]
    with open(os.path.join(room, "case.json"), "w") as out:
        json.dump({"logs": logs, "links": links}, out)
    taken, paths, rounds = {1: [], 4: []}, {1: [], 4: []}, 0
    lines = set()
    told = {**os.environ, "LD_PRELOAD": f"{tools}/critical_path.so", "CRITICAL_PATH": f"{tools}/path"}
    for _ in range(5):
        for workers in taken:
            began = time.monotonic()
            ran = subprocess.run([program, "--quiet", "check", "case.json", "--workers", str(workers)], cwd=room, capture_output=True, text=True, env=told)
            taken[workers].append(time.monotonic() - began)
            lines.add((ran.stdout, ran.returncode))
            with open(f"{tools}/path") as file:
                path, _, rounds = file.read().split()
            paths[workers].append(float(path))
    if len(lines) != 1:
        sys.exit(f"the answers differ: {sorted(lines)}")
    by_clock, by_path = (best(of[4]) / best(of[1]) for of in (taken, paths))
    print(f"{lines.pop()[0].strip()}: 4 workers take {by_clock:.2f} of the time of 1 by the clock, {by_path:.2f} along the critical path, in {rounds} rounds")
END_OF_PROGRAM
