"""Frames of the messages of Cap'n Proto RPC, as rpc.capnp has them: one segment each, laid out depth first."""
import struct


def pointer(offset, data, pointers):
    return struct.pack("<iHH", offset << 2, data, pointers)


def body_of(data, children):
    """The words of a struct with this data section and these children: None, a number of a capability, or (word, body)."""
    head, tail, count = b"", b"", len(children)
    for place, child in enumerate(children):
        at = count + len(tail) // 8 - place - 1
        if child is None:
            head += bytes(8)
        elif isinstance(child, int):
            head += struct.pack("<II", 3, child)
        else:
            word, words = child(at)
            head, tail = head + word, tail + words
    return data + head + tail


def inner(data, *children):
    body = body_of(data, children)
    return lambda at: (pointer(at, len(data) // 8, len(children)), body)


def table(caps):
    """A composite list of descriptors, (tag, number) each."""
    words = b"".join(struct.pack("<HHI", tag, 0, number) + bytes(8) for tag, number in caps)
    body = pointer(len(caps), 1, 1) + words
    return lambda at: (struct.pack("<II", at << 2 | 1, len(words) // 8 << 3 | 7), body)


def frame(tag, message):
    words = pointer(0, 1, 1) + body_of(struct.pack("<Q", tag), [message])
    return struct.pack("<II", 0, len(words) // 8) + words


def payload(caps):
    if not caps:
        return inner(b"", None, None)
    return inner(b"", inner(b"", *range(len(caps))), table(caps))


def boot(question):
    return frame(8, inner(struct.pack("<Q", question), None))


def call(question, target, method=2, content=None):
    data = struct.pack("<IHHQQ", question, method, 0, 0x1234, 0)
    to = inner(struct.pack("<IHH", target, 0, 0), None)
    return frame(2, inner(data, to, inner(b"", content, None), None))


def piped(question, answer):
    data = struct.pack("<IHHQQ", question, 2, 0, 0x1234, 0)
    to = inner(struct.pack("<Q", 1 << 32), inner(struct.pack("<Q", answer), None))
    return frame(2, inner(data, to, inner(b"", None, None), None))


def given(question, number):
    """A Return whose whole content is the capability senderHosted number."""
    return frame(3, inner(struct.pack("<IHHQ", question, 0, 0, 0), inner(b"", 0, table([(1, number)]))))


def returned(question, *numbers):
    """A Return with senderHosted numbers at the fields of its content."""
    return frame(3, inner(struct.pack("<IHHQ", question, 0, 0, 0), payload([(1, number) for number in numbers])))


def finish(question):
    """A Finish with releaseResultCaps false, whose bit is stored exclusive-or'ed with its default."""
    return frame(4, inner(struct.pack("<II", question, 1)))


def release(number, count):
    return frame(6, inner(struct.pack("<II", number, count)))


def abort():
    return frame(1, inner(b"", None))
