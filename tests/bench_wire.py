#!/usr/bin/env python3
"""What `wire` costs: its instructions over those of `check` on the logs that it makes.

usage: tests/bench_wire.py PROGRAM FOLDER     (the built program)

FOLDER has a folder for each kind of connection, with the two files A.bin and B.bin that `wire` reads, of a good connection.
valgrind counts instructions. Prints a line of a table for each kind: its frames, the instructions of `wire` for each frame, and
how many times those of `check` it takes. It is no part of the gate.
"""
import glob
import os
import re
import subprocess
import sys
import tempfile


def counted(program, *words):
    """The line that a command prints, and the instructions that it takes."""
    words = ["valgrind", "--tool=callgrind", "--callgrind-out-file=/dev/null", program, *words, "--quiet"]
    ran = subprocess.run(words, capture_output=True, text=True)
    if not ran.stdout.startswith("yes "):
        sys.exit(f"{words}: {ran.stdout}{ran.stderr}")
    return ran.stdout, int(re.search(r"Collected : (\d+)", ran.stderr)[1])


def main():
    if len(sys.argv) != 3:
        sys.exit(__doc__)
    program, folder = os.path.abspath(sys.argv[1]), sys.argv[2]
    print("| Connection | Frames | Instructions of `wire` a frame | Times those of `check` |\n|---|---|---|---|")
    for room in sorted(glob.glob(os.path.join(folder, "*/"))):
        files = [os.path.join(room, "A.bin"), os.path.join(room, "B.bin")]
        line, wire = counted(program, "wire", *files)
        frames = sum(map(int, line.split(" ")[2:4]))
        with tempfile.TemporaryDirectory() as made:
            subprocess.run([program, "wire", *files, "--out", f"{made}/logs", "--quiet"], check=True, capture_output=True)
            _, check = counted(program, "check", f"{made}/logs/case.json")
        name = os.path.basename(os.path.dirname(room))
        print(f"| {name} | {frames} | {wire / frames:,.0f} | {wire / check:.2f} |", flush=True)


main()
