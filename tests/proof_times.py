#!/usr/bin/env python3
"""Which functions of a crate are dear to prove: checks it with one job, and prints the slowest and the largest.

usage: tests/proof_times.py CRATE [COUNT]        (without a count: 12 of either)

A line of the first table has the seconds, which part of all of them it and those above it take, and the function. Several
functions are prepared together, and the time of that stands beside whichever is checked next. So a second table has the
functions whose states take most bytes: what holds at each point of the body, with all parts of each value that may be dropped
there. A function of the first table that isn't in the second may stand there for another, or its goals take long to be searched
for. The libraries below are built first, where they have changed, and aren't counted. What earlier checks of the crate left here
is thrown away; what one in another checkout on this machine left is begun with. It is no part of the gate.
"""
import os, re, shutil, subprocess, sys, time

CRATES = os.path.join(os.path.dirname(os.path.abspath(__file__)), "..", "crates")


def checked(folder):
    """The seconds and the name of each function that a check of the crate came to, and whether the crate is proved."""
    shutil.rmtree(os.path.join(folder, "out"), ignore_errors=True)
    how = {"cwd": folder, "stdin": subprocess.DEVNULL, "stdout": subprocess.PIPE, "stderr": subprocess.STDOUT, "text": True}
    taken, last = [], None
    with subprocess.Popen(["rt", "check", "--jobs", "1"], **how) as check:
        for line in check.stdout:
            now = time.monotonic()
            found = re.match(r"checked (\S+), \d+ of \d+", line)
            if found and last is not None:
                taken.append((now - last, found[1]))
            elif re.match(r"fn |.*error", line) and not line.endswith(": proved\n"):
                print(line, end="", file=sys.stderr)
            last = now
    return taken, check.returncode == 0


def states(folder):
    """The bytes and the name of each function's states, as the check left them."""
    found = re.compile(r"Rattle-\w+-proofs\.(.*)\.Lts\.oantt")
    for at, _, names in os.walk(os.path.join(folder, "out")):
        for name in names:
            if (is_one := found.fullmatch(name)) and not at.endswith("records"):
                yield os.path.getsize(os.path.join(at, name)), is_one[1].replace(".", "::")


def main(words):
    if not words or len(words) > 2 or not os.path.isdir(os.path.join(CRATES, words[0])):
        print(__doc__.split("\n\n")[1], file=sys.stderr)
        return 2
    folder, count = os.path.join(CRATES, words[0]), int(words[1]) if len(words) > 1 else 12
    taken, is_proved = checked(folder)
    whole, above = sum(seconds for seconds, _ in taken) or 1, 0
    for seconds, name in sorted(taken, reverse=True)[:count]:
        above += seconds
        print(f"{seconds:8.1f} {100 * above / whole:5.1f}% {name}")
    print(f"{whole:8.1f} seconds, {len(taken)} functions{'' if is_proved else ', not proved'}\n")
    for size, name in sorted(states(folder), reverse=True)[:count]:
        print(f"{size / 1000:8.0f} KB {name}")
    return 0 if is_proved else 1


sys.exit(main(sys.argv[1:]))
