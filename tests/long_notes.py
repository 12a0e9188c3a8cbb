#!/usr/bin/env python3
"""Has logs judged that are too long to be kept, each with a fault at its end, and compares what is noted of it with the notes of the
same log with fewer rounds in front: the line, the record and the rule must be the same but for the numbers, and of what led there
each note of the long log must stand among those of the short one, one at least where the tables of the vat can tell. Which message a
record before had they can't tell: `by the Finish of record 28` is `by record 28` there.

usage: tests/long_notes.py PROGRAM          (the built program)
It writes files of somewhat more than 2^30 bytes into a temporary folder, and takes some minutes. Each difference is printed, and
the last line counts.
"""
import os
import re
import struct
import subprocess
import sys
import tempfile

sys.path.insert(0, os.path.join(os.path.dirname(os.path.abspath(__file__)), "lib"))
import frames
import rounds

FEW, MOST_KEPT = 1000, 1 << 30
log = rounds.Answering()


def wrong_object(k):
    """The call of one more round is delivered to another object."""
    call = k + 2
    return rounds.wire(11, call, [], log.parts[0]) + struct.pack("<BQQ", 7, call, 8)


def released_before(k):
    """Export 1 is released, which the Finish of each round gave back."""
    return rounds.wire(11, 0, [], frames.release(1, 1))


def delivered_again(k):
    """The call of the last round, which was answered, is delivered once more."""
    return struct.pack("<BQQ", 7, k + 1, 7)


def third_level(k):
    """A message that isn't judged: a provide."""
    return rounds.wire(11, 0, [], frames.frame(10, frames.inner(b"", None, None)))


def judged(program, folder, count, fault):
    """The line and the notes of a log of so many rounds with the fault behind them."""
    path = os.path.join(folder, "one.log")
    with open(path, "wb") as out:
        for data, _ in rounds.log_bytes(rounds.Answering, count):
            out.write(data)
        out.write(fault(count))
        size = out.tell()
    run = subprocess.run([program, "vat", "one.log"], cwd=folder, capture_output=True, text=True)
    return size, run.stdout, run.stderr.splitlines()


def moved(text, few, many):
    """The same text, where numbers of the last rounds are those of a longer log."""
    near = {}
    for back in range(-20, 21):
        near[log.begun + log.per_round * few + back] = log.begun + log.per_round * many + back
        near[few + 2 + back] = many + 2 + back
    return re.sub(r"\b\d+\b", lambda it: str(near.get(int(it[0]), int(it[0]))), text)


def main():
    program = os.path.realpath(sys.argv[1])
    failed = passed = 0
    many = MOST_KEPT // len(log.round(0)) + 1
    for fault, causes in ((wrong_object, 1), (released_before, 1), (delivered_again, 0), (third_level, 0)):
        with tempfile.TemporaryDirectory() as folder:
            _, line, notes = judged(program, folder, FEW, fault)
            size, far_line, far_notes = judged(program, folder, many, fault)
        wanted = [moved(note, FEW, many) for note in notes]
        told = far_notes[:1] == ["note: one.log is longer than notes look back over"]
        is_same = size > MOST_KEPT and far_line == moved(line, FEW, many) and far_notes[1:3] == wanted[:2]
        causes_told = {re.sub(r"the \w+ of record", "record", note) for note in wanted[2:]}.union(wanted[2:])
        led = [note for note in far_notes[3:] if note in causes_told]
        if told and is_same and len(led) >= causes and led == far_notes[3:]:
            passed += 1
        else:
            failed += 1
            print(f"{fault.__name__}: {size} bytes", "wanted:", moved(line, FEW, many), *wanted, "came:", far_line, *far_notes, sep="\n")
    print(f"{passed} passed, {failed} failed")
    sys.exit(failed > 0)


main()
