#!/usr/bin/env python3
"""Compares what `records` prints of logs with what their bytes say, and each message with what `frame` prints of that frame.

usage: tests/records_and_frames.py PROGRAM LOGS [COUNT]

PROGRAM is the built program. LOGS is a file of logs, JSON objects one a line, each with the bytes of a log in base64 under
`log`; it may be packed by xz. Every log is read here by docs/FORMATS.md, apart from the program. Each log whose lines aren't
those that must come is named, and the last line counts.
"""
import base64
import json
import lzma
import struct
import subprocess
import sys
import tempfile


class Bad(Exception):
    """The bytes aren't a log."""


class Reader:
    def __init__(self, data):
        self.data = data
        self.at = 0

    def take(self, size):
        if self.at + size > len(self.data):
            raise Bad
        self.at += size
        return self.data[self.at - size : self.at]

    def number(self, form):
        return struct.unpack("<" + form, self.take(struct.calcsize("<" + form)))[0]

    def named(self):
        number = self.number("Q")
        if number == 0:
            raise Bad
        return number

    def path(self):
        return "[" + ",".join(str(self.number("H")) for _ in range(self.number("H"))) + "]"

    def result(self):
        reference = self.named()
        return f"{self.path()}={reference}"


def passage(reader, word, message):
    line = f"{word} connection {reader.number('I')}"
    call = reader.number("Q")
    references = [str(reader.named()) for _ in range(reader.number("H"))]
    frame = reader.take(reader.number("I"))
    line += f" call {call}" if call else ""
    line += f" references [{','.join(references)}]" if references else ""
    return f"{line} {message(frame)}"


def record(reader, message):
    kind = reader.number("B")
    if kind == 1:
        return f"host reference {reader.named()} object {reader.number('Q')}"
    if kind == 2:
        return f"vow reference {reader.named()}"
    if kind == 3:
        return f"fulfil reference {reader.named()} to {reader.named()}"
    if kind == 4:
        return f"break reference {reader.named()}"
    if kind == 5:
        line = f"make call {reader.named()} reference {reader.named()}"
        return f"{line} interface {reader.number('Q'):016x} method {reader.number('H')}"
    if kind == 6:
        return f"field reference {reader.named()} call {reader.named()} path {reader.path()}"
    if kind == 7:
        return f"deliver call {reader.named()} object {reader.number('Q')}"
    if kind == 8:
        line = f"answer call {reader.named()} results ["
        return line + ";".join(reader.result() for _ in range(reader.number("H"))) + "]"
    if kind == 9:
        return f"fault call {reader.named()}"
    if kind in (10, 11):
        return passage(reader, "send" if kind == 10 else "receive", message)
    raise Bad


def wanted(data, message):
    """The lines of the records, up to the end or to the first one that isn't whole; and whether that is the end."""
    reader = Reader(data)
    lines = []
    try:
        if reader.take(8) != b"VATLOG01":
            raise Bad
        reader.take(4)
        while reader.at < len(data):
            lines.append(f"{len(lines)} {record(reader, message)}\n")
    except Bad:
        return "".join(lines), False
    return "".join(lines), True


def is_answer(came, lines, is_whole):
    """Whether these lines came, and behind them nothing, or where the log isn't whole its fault."""
    rest = came.stdout.removeprefix(lines)
    is_end = rest.startswith("bad log ") and rest.count("\n") == 1
    return came.stdout.startswith(lines) and came.returncode == (0 if is_whole else 2) and (not rest if is_whole else is_end)


def main():
    if len(sys.argv) not in (3, 4):
        sys.exit(__doc__)
    program, logs = sys.argv[1:3]
    most = int(sys.argv[3]) if len(sys.argv) == 4 else None
    said = {}

    def run(*words):
        return subprocess.run([program, *words], capture_output=True, text=True, check=False)

    def message(frame):
        if frame not in said:
            said[frame] = run("frame", frame.hex()).stdout.rstrip("\n")
        return said[frame]

    same = other = 0
    with lzma.open(logs, "rt") if logs.endswith(".xz") else open(logs) as lines, tempfile.NamedTemporaryFile() as file:
        for index, line in enumerate(lines):
            if index == most:
                break
            row = json.loads(line)
            data = base64.b64decode(row["log"])
            file.seek(0)
            file.truncate()
            file.write(data)
            file.flush()
            is_so = is_answer(run("records", file.name), *wanted(data, message))
            same, other = same + is_so, other + (not is_so)
            if not is_so:
                print(f"{row.get('name', index)} differs")
    print(f"{same} logs as they must, {other} differ; {len(said)} frames")
    sys.exit(other > 0)


if __name__ == "__main__":
    main()
