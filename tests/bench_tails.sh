#!/usr/bin/env bash
# What a chain of calls costs that are answered by one another, over a chain of promises: `vataudit vat` of 200,000 calls,
# each answered by the next, and as many fields of the first through which a call is made that reaches the last one's
# result; and of 200,000 promises, each fulfilled with the next, and as many results that lead from the first through all.
# usage: tests/bench_tails.sh PROGRAM [RUNS]     PROGRAM is vataudit; 5 runs of each if not said, in turn
# Prints the medians of the processor time in seconds, and their ratio. It is to be at most 3; else the status is 1.
set -euo pipefail
[ $# -ge 1 ] || { sed -n '2,6s/^# //p' "$0" >&2; exit 2; }
program=$(realpath "$1")
lib=$(realpath "$(dirname "$0")/lib")
folder=$(mktemp -d)
trap 'rm -rf "$folder"' EXIT
cd "$folder"
python3 - "$program" "${2:-5}" "$lib" <<'END'
import resource, statistics, struct, subprocess, sys
program, runs, count = sys.argv[1], int(sys.argv[2]), 200_000
sys.dont_write_bytecode = True
sys.path.insert(0, sys.argv[3])
from spelled import answer_by, bootstrap, deliver, fulfil, host, hosted, log, make, vow

# in version 1 a path is counted in two bytes
def field(reference, call): return struct.pack("<BQQH", 6, reference, call, 0)
def answer(call, reference): return struct.pack("<BQHQH", 8, call, 1, reference, 0)
def received(call, message): return struct.pack("<BIQHI", 11, 0, call, 0, len(message)) + message
def sent(reference, message): return struct.pack("<BIQHQI", 10, 0, 0, 1, reference, len(message)) + message

def asked(call, question, reference):
    return received(call, bootstrap(question)) + answer(call, reference) + sent(1, hosted(question))

def promises():
    yield host(1)
    yield from (vow(2 + i) for i in range(count))
    yield from (fulfil(2 + i, 3 + i if i + 1 < count else 1) for i in range(count))
    yield from (asked(1 + i, i, 2) for i in range(count))

def calls():
    yield host(1)
    yield from (received(1 + i, bootstrap(i)) for i in range(count))
    yield from (answer_by(1 + i, 2 + i) for i in range(count - 1))
    yield answer(count, 1)
    for i in range(count):
        yield field(2 + i, 1) + make(count + 1 + i, 2 + i) + deliver(count + 1 + i)

def write(name, records):
    with open(name, "wb") as out:
        out.writelines(log(1, records()))
    return name

def seconds(name):
    before = resource.getrusage(resource.RUSAGE_CHILDREN)
    came = subprocess.run([program, "vat", name], capture_output=True, text=True)
    after = resource.getrusage(resource.RUSAGE_CHILDREN)
    if not came.stdout.startswith("good vat 1 ") or came.returncode != 0:
        sys.exit(f"{name}: {came.stdout}{came.stderr}status {came.returncode}")
    return after.ru_utime + after.ru_stime - before.ru_utime - before.ru_stime

logs = [write("calls", calls), write("promises", promises)]
times = [[], []]
for _ in range(runs):
    for log_times, name in zip(times, logs):
        log_times.append(seconds(name))
calls_take, promises_take = map(statistics.median, times)
print(f"{count} calls: {calls_take:.2f}, {count} promises: {promises_take:.2f}, ratio {calls_take / promises_take:.2f}")
sys.exit(calls_take > 3 * promises_take)
END
