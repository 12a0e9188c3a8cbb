#!/usr/bin/env python3
"""What calls cost that overtake one another: `vataudit check` of a vat that makes calls to its own object, all through one
reference, and delivers them in the reverse order: 50,000 calls, and ten times as many.

    tests/bench_overtaking.py PROGRAM      PROGRAM is vataudit; valgrind counts its instructions

Prints the instructions of both, and their ratio, which is to be at most 12; else the status is 1. It takes some minutes.
"""
import os
import re
import subprocess
import sys
import tempfile

sys.dont_write_bytecode = True
sys.path.insert(0, os.path.join(os.path.dirname(os.path.realpath(__file__)), "lib"))
from spelled import deliver, host, log, make


def records(count):
    """The calls by rising number, and their deliveries from the last one on."""
    yield host(1)
    for call in range(1, count + 1):
        yield make(call, 1)
    for call in range(count, 0, -1):
        yield deliver(call)


def instructions(program, folder, count):
    with open(os.path.join(folder, "calls.log"), "wb") as out:
        out.writelines(log(2, records(count)))
    with open(os.path.join(folder, "case.json"), "w") as out:
        out.write('{"logs": ["calls.log"], "links": []}\n')
    words = ("valgrind", "--tool=callgrind", "--callgrind-out-file=/dev/null", program, "--quiet", "check", "case.json")
    ran = subprocess.run(words, cwd=folder, capture_output=True, text=True)
    # the first delivery is that of the last call, which all others were made before
    wanted = f"no vat 1 record {count + 1} rule ORDER\n"
    if ran.stdout != wanted:
        sys.exit(f"{ran.stdout}{ran.stderr}")
    return int(re.search(r"Collected : (\d+)", ran.stderr)[1])


def main():
    if len(sys.argv) != 2:
        sys.exit(__doc__)
    program = os.path.abspath(sys.argv[1])
    with tempfile.TemporaryDirectory() as folder:
        few, many = (instructions(program, folder, count) for count in (50_000, 500_000))
    print(f"50,000 calls: {few:,} instructions, 500,000: {many:,}, ratio {many / few:.2f}")
    sys.exit(many > 12 * few)


main()
