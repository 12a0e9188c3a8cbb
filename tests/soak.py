#!/usr/bin/env python3
"""Writes a good case through named pipes and has it audited while it is written, so that no file is needed.

usage: tests/soak.py PROGRAM GENERATOR N [WORD..]      (the words come behind `check`, as `--workers 4`)
GENERATOR is `calls`: two vats, a call to the bootstrap's result, which gives a capability back, finished; again and again. Of N
records both logs together have as many, but for those of a last round that isn't whole. It prints the line that `check` said, and how
much memory the program took at its peak, in all and a record, and how much user time a record, of the first million and of the last.
The second is the program's own time between two marks in one run, so the machine matters little to their ratio.
"""
import json
import multiprocessing
import os
import subprocess
import sys
import tempfile
import time

sys.path.insert(0, os.path.join(os.path.dirname(os.path.abspath(__file__)), "lib"))
import rounds as kinds

# How many records each end of the run has that is measured.
MILLION = 1_000_000


def write(vat, path, rounds, written):
    """Writes a vat's log, and counts its records as they go."""
    with open(path, "wb") as out:
        for data, count in kinds.log_bytes(vat, rounds):
            out.write(data)
            written.value += count


def user_time(pid):
    """The user seconds that a process took so far."""
    with open(f"/proc/{pid}/stat") as stat:
        return int(stat.read().rpartition(")")[2].split()[11]) / os.sysconf("SC_CLK_TCK")


def soak(program, vats, rounds, words):
    logs = [vat() for vat in vats]
    all_records = sum(log.begun + log.per_round * rounds for log in logs)
    with tempfile.TemporaryDirectory() as folder:
        names = [f"vat{log.number}.log" for log in logs]
        for name in names:
            os.mkfifo(f"{folder}/{name}")
        with open(f"{folder}/case.json", "w") as out:
            json.dump({"logs": names, "links": [[0, 1, 2]]}, out)
        written = [multiprocessing.Value("Q", 0, lock=False) for _ in vats]
        writers = [multiprocessing.Process(target=write, args=(vat, f"{folder}/{name}", rounds, count))
                   for vat, name, count in zip(vats, names, written)]
        for it in writers:
            it.start()
        audit = subprocess.Popen([program, "--quiet", "check", "case.json", *words], cwd=folder, stdout=subprocess.PIPE, text=True)
        marks, (ended, _, usage) = [], os.wait4(audit.pid, os.WNOHANG)
        while len(marks) < 2 and not ended:
            if sum(count.value for count in written) >= (MILLION, all_records - MILLION)[len(marks)]:
                marks.append(user_time(audit.pid))
            time.sleep(0.002)
            ended, _, usage = os.wait4(audit.pid, os.WNOHANG)
        line = audit.stdout.read()
        if not ended:
            _, _, usage = os.wait4(audit.pid, 0)
        audit.returncode = 0
        for it in writers:
            it.terminate()
            it.join()
    peak = usage.ru_maxrss * 1024
    print(line, end="")
    print(f"{all_records:,} records; at its peak {peak:,} bytes, {peak / all_records:.1f} a record")
    if len(marks) == 2 and marks[0] and all_records >= 2 * MILLION:
        first, last = marks[0] / MILLION, (usage.ru_utime - marks[1]) / MILLION
        print(f"user time a record: the first million {first * 1e6:.2f} microseconds, the last {last * 1e6:.2f}, {last / first:.2f} times")
    return line.startswith("yes ")


GENERATORS = {"calls": (kinds.Asking, kinds.Answering)}


def main():
    if len(sys.argv) < 4 or sys.argv[2] not in GENERATORS or not sys.argv[3].isdecimal():
        sys.exit(__doc__)
    vats = GENERATORS[sys.argv[2]]
    wanted = int(sys.argv[3]) - sum(vat().begun for vat in vats)
    rounds = max(0, wanted // sum(vat.per_round for vat in vats))
    sys.exit(not soak(os.path.abspath(sys.argv[1]), vats, rounds, sys.argv[4:]))


main()
