"""Logs of many rounds of one kind, written some rounds at once: what is audited while it is written, or is too long to be kept. Record
numbers and bytes are as docs/FORMATS.md and rpc.capnp have them."""
import struct

import frames

# How many rounds are spelled at once.
BATCH = 256


def wire(kind, call, references, frame):
    """SEND (10) or RECV (11) on connection 0."""
    return struct.pack(f"<BIQH{len(references)}QI", kind, 0, call, len(references), *references, len(frame)) + frame


def messages():
    """A call to import 0, its Return with export 1, and the Finish that releases this."""
    return frames.call(1, 0), frames.returned(1, 1), frames.frame(4, frames.inner(struct.pack("<Q", 1)))


class Asking:
    """Vat 1: it asks for the service of vat 2, and calls it. Reference 1 is the service, and each round binds one more."""

    number, per_round = 1, 4

    def __init__(self):
        boot, back = frames.boot(0), frames.given(0, 0)
        self.begin = wire(10, 1, [], boot) + wire(11, 0, [1], back)
        self.begun = 2
        ask, answer, finish = messages()
        self.format = struct.Struct(f"<BQQQHBIQHI{len(ask)}sBIQHQI{len(answer)}sBIQHI{len(finish)}s")
        self.parts = ask, answer, finish

    def round(self, k):
        ask, answer, finish = self.parts
        return self.format.pack(5, k + 2, 1, 0x1234, 2, 10, 0, k + 2, 0, len(ask), ask, 11, 0, 0, 1, k + 2, len(answer), answer,
                                10, 0, 0, 0, len(finish), finish)


class Answering:
    """Vat 2: it hosts the service, object 7, and what each call is given, object 8."""

    number, per_round = 2, 5

    def __init__(self):
        boot, back = frames.boot(0), frames.given(0, 0)
        self.begin = (struct.pack("<BQQBQQ", 1, 1, 7, 1, 2, 8) + wire(11, 1, [], boot) + struct.pack("<BQHQH", 8, 1, 1, 1, 0)
                      + wire(10, 0, [1], back))
        self.begun = 5
        ask, answer, finish = messages()
        self.format = struct.Struct(f"<BIQHI{len(ask)}sBQQBQHQHHBIQHQI{len(answer)}sBIQHI{len(finish)}s")
        self.parts = ask, answer, finish

    def round(self, k):
        ask, answer, finish = self.parts
        return self.format.pack(11, 0, k + 2, 0, len(ask), ask, 7, k + 2, 7, 8, k + 2, 1, 2, 1, 0, 10, 0, 0, 1, 2, len(answer), answer,
                                11, 0, 0, 0, len(finish), finish)


def log_bytes(vat, rounds):
    """The bytes of a vat's log of so many rounds, some rounds at once, and how many records each part has."""
    log = vat()
    yield b"VATLOG01" + struct.pack("<I", log.number) + log.begin, log.begun
    for begin in range(0, rounds, BATCH):
        end = min(rounds, begin + BATCH)
        yield b"".join(map(log.round, range(begin, end))), (end - begin) * log.per_round
