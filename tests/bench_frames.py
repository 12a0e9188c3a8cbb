#!/usr/bin/env python3
"""Writes a file of frames to standard output, for `tools reader_bench` of trials/.

usage: tests/bench_frames.py COUNT [piped|direct]

Each frame is a Call of 112 bytes, a header of 8 and 13 words, by the stream framing and rpc.capnp. piped: its target is a
promisedAnswer, a field of a result (a transform of one getPointerField), and its pointers behind the target are left out.
direct: its target is a promisedAnswer without a transform, and all its pointers are there. Questions are numbered from 1.
"""
import struct
import sys


def struct_pointer(offset, data, pointers):
    return struct.pack("<iHH", offset << 2, data, pointers)


def list_of_structs_pointer(offset, words):
    return struct.pack("<iI", offset << 2 | 1, words << 3 | 7)


NOTHING = bytes(8)


def call(question, pointers):
    return [
        struct_pointer(0, 1, 1),  # the root, a Message
        struct.pack("<Q", 2),  # its tag, call
        struct_pointer(0, 3, pointers),
        struct.pack("<IHH", question, 2, 0),  # questionId, methodId, and sendResultsTo's tag, caller
        struct.pack("<Q", 0x1234),  # interfaceId
        struct.pack("<Q", 0),  # allowThirdPartyTailCall and the bits behind it
    ]


def piped(question):
    return call(question, 1) + [
        struct_pointer(0, 1, 1),  # target, a MessageTarget
        struct.pack("<IHH", 0, 1, 0),  # its tag, promisedAnswer
        struct_pointer(0, 1, 1),
        struct.pack("<Q", 0),  # questionId
        list_of_structs_pointer(0, 1),  # transform
        struct.pack("<iHH", 1 << 2, 1, 0),  # one element of one word
        struct.pack("<HHI", 1, 3, 0),  # getPointerField 3
    ]


def direct(question):
    return call(question, 3) + [
        struct_pointer(2, 1, 1),  # target, a MessageTarget
        NOTHING,  # params
        NOTHING,  # sendResultsTo
        struct.pack("<IHH", 0, 1, 0),  # its tag, promisedAnswer
        struct_pointer(0, 1, 1),
        struct.pack("<Q", 0),  # questionId
        NOTHING,  # transform
    ]


def main():
    forms = {"piped": piped, "direct": direct}
    if len(sys.argv) not in (2, 3) or (sys.argv + ["piped"])[2] not in forms:
        sys.exit("usage: tests/bench_frames.py COUNT [piped|direct]")
    form = forms[(sys.argv + ["piped"])[2]]
    for question in range(1, int(sys.argv[1]) + 1):
        words = b"".join(form(question))
        sys.stdout.buffer.write(struct.pack("<II", 0, len(words) // 8) + words)


if __name__ == "__main__":
    main()
