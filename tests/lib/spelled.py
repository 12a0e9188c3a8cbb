"""Frames and records, spelled byte by byte as docs/FORMATS.md and rpc.capnp have them: what several measurements lay their logs
of. Of each record there is one connection, 0, and of each call one object, 1."""
import struct


def pointer(offset, data, pointers):
    """A struct's pointer, so many words before it, with its sizes."""
    return struct.pack("<iHH", offset << 2, data, pointers)


def frame(tag, *words):
    """A frame of one segment: a Message of this kind, and the words behind its pointer."""
    words = pointer(0, 1, 1) + struct.pack("<Q", tag) + b"".join(words)
    return struct.pack("<II", 0, len(words) // 8) + words


def bootstrap(question):
    return frame(8, pointer(0, 1, 1), struct.pack("<Q", question), bytes(8))


def hosted(question):
    """A Return whose content is export 0, hosted here."""
    table = struct.pack("<II", 1, 2 << 3 | 7) + pointer(1, 1, 1) + struct.pack("<HHI", 1, 0, 0) + bytes(8)
    return frame(3, pointer(0, 2, 1), struct.pack("<QQ", question, 0), pointer(0, 0, 2), struct.pack("<II", 3, 0), table)


def host(reference):
    return struct.pack("<BQQ", 1, reference, 1)


def vow(reference):
    return struct.pack("<BQ", 2, reference)


def fulfil(reference, to):
    return struct.pack("<BQQ", 3, reference, to)


def make(call, reference):
    return struct.pack("<BQQQH", 5, call, reference, 0, 0)


def deliver(call):
    return struct.pack("<BQQ", 7, call, 1)


def answer_by(call, by):
    return struct.pack("<BQQ", 12, call, by)


def log(version, records):
    """The bytes of the log of vat 1."""
    yield b"VATLOG%02d" % version + struct.pack("<I", 1)
    yield from records
