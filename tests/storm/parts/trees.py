"""What frames say, whatever way their contents lie in memory: a recorder for Rust copies contents once more."""

import struct


class Frame:
    """One message in the standard's stream framing."""

    def __init__(self, data, at):
        count = struct.unpack_from("<I", data, at)[0] + 1
        sizes = struct.unpack_from("<%dI" % count, data, at + 4)
        at += (count // 2 + 1) * 8
        self.segments = []
        for size in sizes:
            self.segments.append(data[at:at + 8 * size])
            at += 8 * size
        self.end = at

    def word(self, segment, at):
        return struct.unpack_from("<Q", self.segments[segment], 8 * at)[0]

    def tree(self, segment=0, at=0):
        """What the pointer at a word points to."""
        pointer = self.word(segment, at)
        if pointer == 0:
            return None
        if pointer & 3 == 3:
            return ("capability", pointer >> 32)
        segment, at, pointer = self.followed(segment, at, pointer)
        return self.struct_at(segment, at, pointer) if pointer & 3 == 0 else self.list_at(segment, at, pointer)

    def followed(self, segment, at, pointer):
        """The segment, word and tag of what a pointer points to."""
        if pointer & 3 != 2:
            offset = (pointer & 0xffffffff) >> 2
            return segment, at + 1 + (offset - (1 << 30) if offset >= 1 << 29 else offset), pointer
        landing, place = pointer >> 32, (pointer & 0xffffffff) >> 3
        tag = self.word(landing, place)
        if not pointer & 4:
            return self.followed(landing, place, tag)
        return tag >> 32, (tag & 0xffffffff) >> 3, self.word(landing, place + 1)

    def struct_at(self, segment, at, pointer):
        data, pointers = pointer >> 32 & 0xffff, pointer >> 48
        return ("struct", self.segments[segment][8 * at:8 * (at + data)],
                [self.tree(segment, at + data + each) for each in range(pointers)])

    def list_at(self, segment, at, pointer):
        size, count = pointer >> 32 & 7, pointer >> 35
        if size == 6:
            return ("list", [self.tree(segment, at + each) for each in range(count)])
        if size == 7:
            tag = self.word(segment, at)
            words = (tag >> 32 & 0xffff) + (tag >> 48)
            count = (tag & 0xffffffff) >> 2
            return ("list", [self.struct_at(segment, at + 1 + each * words, tag) for each in range(count)])
        bits = (0, 1, 8, 16, 32, 64)[size] * count
        return ("data", count, self.segments[segment][8 * at:8 * at + (bits + 7) // 8])


def trees(data):
    """The messages of a stream; the last one may be cut."""
    result, at = [], 0
    while at < len(data):
        try:
            frame = Frame(data, at)
            if frame.end > len(data):
                raise struct.error("cut")
            result.append(frame.tree())
        except struct.error:
            return result + [data[at:]]
        at = frame.end
    return result


def number(tree, at, size):
    """A number in the data of a struct."""
    return int.from_bytes(tree[1][at:at + size], "little")


def body_of(tree):
    """Which message it is, and its body; as of rpc.capnp's `Message`."""
    is_whole = isinstance(tree, tuple) and tree[0] == "struct" and tree[2] and isinstance(tree[2][0], tuple)
    return (number(tree, 0, 2), tree[2][0]) if is_whole else (None, None)


def descriptors(kind, body):
    """The capability descriptors of a Call, a Return or a Resolve, each with its kind and its number."""
    if kind == 5 and number(body, 4, 2) == 0 and body[2] and body[2][0]:
        return [(number(body[2][0], 0, 2), number(body[2][0], 4, 4))]
    at = {2: 1, 3: 0}.get(kind)
    if at is None or (kind == 3 and number(body, 6, 2) != 0):
        return []
    payload = body[2][at] if len(body[2]) > at else None
    table = payload[2][1] if payload and len(payload[2]) > 1 else None
    return [(number(one, 0, 2), number(one, 4, 4)) for one in table[1]] if table else []


def without_numbers(tree):
    """Which message it is, and the contents of a Call or a Return, without the numbers of questions and capabilities."""
    kind, body = body_of(tree)
    at = {2: 1, 3: 0}.get(kind)
    payload = body[2][at] if at is not None and len(body[2]) > at else None
    return kind, repr(payload[2][:1] if payload else None if kind is not None else tree)


METHODS = ("mute", "ping", "self", "get", "make", "echo", "hold", "slow", "slowecho", "fail", "tail", "callback", "stream",
           "slowget")


def numbered_calls(data):
    """The Calls that have a number in the script, in their order: for what each is meant, its method, and its number."""
    for kind, body in map(body_of, trees(data)):
        if kind != 2 or not body or len(body[2]) < 2 or not body[2][1]:
            continue
        content = body[2][1][2][0] if body[2][1][2] else None
        if isinstance(content, tuple) and content[0] == "struct" and number(content, 0, 4):
            yield repr(body[2][0]), METHODS[number(body, 4, 2) % len(METHODS)], str(number(content, 0, 4))


def is_named_as_hosted(data):
    """Whether a number goes out as senderHosted that has gone out as senderPromise and wasn't resolved since."""
    promises = set()
    for kind, body in map(body_of, trees(data)):
        if kind == 5:
            promises.discard(number(body, 0, 4))
            continue
        for how, named in descriptors(kind, body) if body else []:
            if how == 1 and named in promises:
                return True
            if how == 2:
                promises.add(named)
    return False


# How many bytes the fields of a record have before its lists, by its kind; docs/FORMATS.md has them.
FIELDS = {1: 16, 2: 8, 3: 16, 4: 8, 5: 26, 6: 16, 7: 16, 8: 8, 9: 8, 10: 12, 11: 12, 12: 16}


def path_end(log, at):
    return at + 4 + 2 * struct.unpack_from("<I", log, at)[0]


def record_end(log, at):
    """Where a record of a log ends that begins there, and where its frame begins, if it has one."""
    kind, at = log[at], at + 1 + FIELDS[log[at]]
    if kind == 6:
        return path_end(log, at), None
    if kind not in (8, 10, 11):
        return at, None
    count, at = struct.unpack_from("<I", log, at)[0], at + 4
    if kind == 8:
        for _ in range(count):
            at = path_end(log, at + 8)
        return at, None
    at += 8 * count
    return at + 4 + struct.unpack_from("<I", log, at)[0], at + 4


def record_at(log, wanted):
    """Where a record of a log begins."""
    at = 12
    for _ in range(wanted):
        at = record_end(log, at)[0]
    return at


def is_received(log, wanted):
    return log[record_at(log, wanted)] == 11


def came_to(log, wanted):
    """The connection and the number of the vat's own to which a Call goes that is received at a record of a log, if it
    is one."""
    at = record_at(log, wanted)
    kind, body = body_of(Frame(log, record_end(log, at)[1]).tree()) if log[at] == 11 else (None, None)
    target = body[2][0] if kind == 2 else None
    is_own = target is not None and number(target, 4, 2) == 0
    return (struct.unpack_from("<I", log, at + 1)[0], number(target, 0, 4)) if is_own else None
