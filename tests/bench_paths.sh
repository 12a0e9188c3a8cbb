#!/usr/bin/env bash
# What a long list of results costs: the instructions of `vataudit vat` for each path of an ANSWER, and for each capability of a
# Return that brings them, where there are 1,000 and where there are 100,000.
# usage: tests/bench_paths.sh PROGRAM     PROGRAM is vataudit; valgrind counts its instructions
# An ANSWER is counted over the same log without results, a Return over the log that ends with its ANSWER. Prints both figures of
# each and their ratio, which is to be at most 3; else the status is 1.
set -euo pipefail
[ $# -eq 1 ] || { sed -n '2,6s/^# //p' "$0" >&2; exit 2; }
program=$(realpath "$1")
lib=$(realpath "$(dirname "$0")/lib")
folder=$(mktemp -d)
trap 'rm -rf "$folder"' EXIT
cd "$folder"
python3 - "$program" "$lib" <<'END'
import re, struct, subprocess, sys
program = sys.argv[1]
sys.dont_write_bytecode = True
sys.path.insert(0, sys.argv[2])
from spelled import bootstrap, deliver, frame, host, hosted, log, pointer

def call(question, target):
    body = struct.pack("<IHHQQ", question, 0, 0, 0, 0)
    return frame(2, pointer(0, 3, 3), body, pointer(2, 1, 1), pointer(3, 0, 2), bytes(8), struct.pack("<Q", target), bytes(8), bytes(16))

# the content has two structs, each with half of the capabilities
def results(question, count):
    half = count // 2
    content = pointer(1, 0, half) + pointer(half, 0, half) + b"".join(struct.pack("<II", 3, i) for i in range(count))
    table = pointer(count, 1, 1) + (struct.pack("<HHI", 1, 0, 0) + bytes(8)) * count
    content_words = len(content) // 8
    payload = pointer(1, 0, 2) + struct.pack("<II", (content_words) << 2 | 1, count * 2 << 3 | 7)
    return frame(3, pointer(0, 2, 1), struct.pack("<QQ", question, 0), pointer(0, 0, 2), payload, content, table)

def answer(number, paths):
    return struct.pack("<BQI", 8, number, len(paths)) + b"".join(struct.pack(f"<QI{len(p)}H", 1, len(p), *p) for p in paths)
def received(number, message): return struct.pack("<BIQII", 11, 0, number, 0, len(message)) + message
def sent(count, message):
    return struct.pack("<BIQI", 10, 0, 0, count) + struct.pack("<Q", 1) * count + struct.pack("<I", len(message)) + message

def answered(count, paths, returned):
    """A call is delivered and answered with these paths; and so many capabilities are returned, if they are."""
    # export 0 is hosted here: so it stands once in the results of a Bootstrap
    yield host(1) + received(1, bootstrap(0)) + answer(1, [()]) + sent(1, hosted(0))
    yield received(2, call(1, 0)) + deliver(2)
    yield answer(2, paths)
    if returned:
        yield sent(count, results(1, count))

def instructions(records):
    with open("paths.log", "wb") as out:
        out.writelines(log(2, records))
    words = ("valgrind", "--tool=callgrind", "--callgrind-out-file=/dev/null", program, "vat", "paths.log")
    ran = subprocess.run(words, capture_output=True, text=True)
    if not ran.stdout.startswith("good vat 1 "):
        sys.exit(f"{ran.stdout}{ran.stderr}")
    return int(re.search(r"Collected : (\d+)", ran.stderr)[1])

def costs(count):
    paths = [(i // (count // 2), i % (count // 2)) for i in range(count)]
    none = instructions(answered(count, [], False))
    listed = instructions(answered(count, paths, False))
    returned = instructions(answered(count, paths, True))
    return (listed - none) / count, (returned - listed) / count

status = 0
for name, few, many in zip(("a path of an ANSWER", "a capability of a Return"), costs(1_000), costs(100_000)):
    print(f"{name}: {few:,.0f} instructions of 1,000, {many:,.0f} of 100,000, ratio {many / few:.2f}")
    status |= many > 3 * few
sys.exit(status)
END
