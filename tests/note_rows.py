#!/usr/bin/env python3
"""Compares the notes behind a broken rule with what must come: for each rule a log with one cause, and logs that break the rule
alike with another.

usage: tests/note_rows.py PROGRAM         (the built program)

Each row is the log of one vat, the record at which it breaks the rule, and the notes that must come behind the rule's own.
Each row that isn't as it must be is named, and the last line counts.
"""
import os
import struct
import subprocess
import sys
import tempfile

sys.path.insert(0, os.path.join(os.path.dirname(os.path.abspath(__file__)), "lib"))
from frames import abort, boot, call, frame, given, inner, piped, release, returned, table


def finish(question):
    """A Finish with releaseResultCaps true."""
    return frame(4, inner(struct.pack("<Q", question)))


def canceled(question):
    return frame(3, inner(struct.pack("<IHHQ", question, 0, 2, 0), None))


def yourself(question, target):
    """A Call whose results are to stay with their answerer."""
    data = struct.pack("<IHHQQ", question, 2, 1, 0x1234, 0)
    to = inner(struct.pack("<IHH", target, 0, 0), None)
    return frame(2, inner(data, to, inner(b"", None, None), None))


def taken(question, other):
    """A Return that takes the results of another question."""
    return frame(3, inner(struct.pack("<IHHII", question, 0, 4, other, 0), None))


def promised(question, number):
    """A Return whose whole content is the capability senderPromise number."""
    return frame(3, inner(struct.pack("<IHHQ", question, 0, 0, 0), inner(b"", 0, table([(2, number)]))))


def resolve(promise, tag, number):
    cap = inner(struct.pack("<HHI", tag, 0, number), None)
    return frame(5, inner(struct.pack("<IHH", promise, 0, 0), cap))


def disembargo(target, context, number):
    """A Disembargo whose context is 0, senderLoopback, or 1, receiverLoopback."""
    to = inner(struct.pack("<IHH", target, 0, 0), None)
    return frame(13, inner(struct.pack("<IHH", number, context, 0), to))


def host(reference, number):
    return struct.pack("<BQQ", 1, reference, number)


def vow(reference):
    return struct.pack("<BQ", 2, reference)


def fulfil(reference, to):
    return struct.pack("<BQQ", 3, reference, to)


def broken(reference):
    return struct.pack("<BQ", 4, reference)


def make(number, reference):
    return struct.pack("<BQQQH", 5, number, reference, 0x1234, 2)


def field(reference, number, *path):
    return struct.pack(f"<BQQI{len(path)}H", 6, reference, number, len(path), *path)


def deliver(number, target):
    return struct.pack("<BQQ", 7, number, target)


def answer(number, *results):
    body = b"".join(struct.pack(f"<QI{len(path)}H", r, len(path), *path) for r, path in results)
    return struct.pack("<BQI", 8, number, len(results)) + body


def answer_by(number, by):
    return struct.pack("<BQQ", 12, number, by)


def fault(number):
    return struct.pack("<BQ", 9, number)


def passed(kind, number, references, bytes_):
    head = struct.pack(f"<BIQI{len(references)}QI", kind, 0, number, len(references), *references, len(bytes_))
    return head + bytes_


def sent(bytes_, number=0, references=()):
    return passed(0x0A, number, references, bytes_)


def came(bytes_, number=0, references=()):
    return passed(0x0B, number, references, bytes_)


BOOTED = [host(1, 7), came(boot(0), 1), answer(1, (1, [])), sent(given(0, 0), references=[1])]
PROMISED = [vow(1), came(boot(0), 1), answer(1, (1, [])), sent(promised(0, 0), references=[1]), host(2, 7)]
HELD = [sent(boot(0), 1), came(given(0, 0), references=[1])]
REFLECTED = BOOTED + [sent(boot(0), 2), came(promised(0, 0), references=[2]), came(resolve(0, 3, 0), references=[3])]
TURNED = [fulfil(1, 3), sent(resolve(0, 3, 0), references=[3])]
BACK = PROMISED + [sent(boot(0), 2), came(given(0, 0), references=[3])]

# the rule, the records, the record at which it breaks, the notes
ROWS = [
    ("REF", [host(1, 7), host(1, 7)], 1, ["reference 1 was bound by record 0"]),
    ("REF", [make(1, 1), host(1, 7)], 0, ["no record before binds reference 1", "record 1 binds it, behind this one"]),
    ("REF", [deliver(2, 7)], 0, ["no record before makes or receives call 2"]),
    ("VOW", [vow(1), broken(1), broken(1)], 2, ["reference 1 is the promise of reference 1, bound by record 0", "it was broken by record 1"]),
    ("VOW", [vow(1), host(2, 7), fulfil(1, 2), broken(1)], 3, ["reference 1 is the promise of reference 1, bound by record 0", "it was fulfilled by record 2"]),
    ("VOW", [host(1, 7), fulfil(1, 1)], 1, ["reference 1 is object 7, bound by record 0"]),
    ("HERE", BOOTED + [came(call(1, 0), 2), deliver(2, 7), deliver(2, 7)], 6, ["call 2 came by record 4, for import 0", "call 2 was delivered by record 5"]),
    ("HERE", BOOTED + [came(call(1, 0), 2), fault(2), deliver(2, 7)], 6, ["call 2 came by record 4, for import 0", "call 2 was ended without results by record 5"]),
    ("HERE", BOOTED + [came(call(1, 0), 2), came(finish(1)), sent(canceled(1)), deliver(2, 7)], 7, ["call 2 came by record 4, for import 0", "call 2 was answered as failed by record 6"]),
    ("HERE", [came(boot(0), 1), deliver(1, 7)], 1, ["call 1 is the Bootstrap of record 0", "the call of a Bootstrap is never at a vat"]),
    ("QNEW", [sent(boot(0), 1), sent(boot(0), 2)], 1, ["question 0 of connection 0 was opened by record 0", "no Return of it has passed since", "no Finish of it has passed since"]),
    ("QNEW", HELD + [sent(boot(0), 2)], 2, ["question 0 of connection 0 was opened by record 0", "its Return passed by record 1", "no Finish of it has passed since"]),
    ("QNEW", [sent(boot(0), 1), sent(finish(0)), sent(boot(0), 2)], 2, ["question 0 of connection 0 was opened by record 0", "no Return of it has passed since", "its Finish passed by record 1"]),
    ("QUSE", BOOTED + [sent(given(0, 0), references=[1])], 4, ["question 0 of connection 0 was opened by record 1", "its Return passed by record 3"]),
    ("QUSE", [sent(canceled(3))], 0, ["no record before it opens question 3 of connection 0"]),
    ("QUSE", [sent(boot(0), 1), sent(finish(0)), sent(finish(0))], 2, ["question 0 of connection 0 was opened by record 0", "its Finish passed by record 1"]),
    ("QUSE", [sent(boot(0), 1), field(1, 1), make(2, 1), sent(finish(0)), sent(piped(1, 0), 2)], 4, ["question 0 of connection 0 was opened by record 0", "its Finish passed by record 3"]),
    ("XUSE", HELD + [make(2, 1), sent(release(0, 1)), sent(call(1, 0), 2)], 4, ["import 0 of connection 0 was introduced by record 1", "it was released by record 3"]),
    ("XUSE", HELD + [make(2, 1), sent(finish(0)), sent(call(1, 0), 2)], 4, ["import 0 of connection 0 was introduced by record 1", "it was given back by the Finish of record 3"]),
    ("XUSE", [host(1, 7), make(1, 1), sent(call(0, 3), 1)], 2, ["no record before it introduces import 3 of connection 0"]),
    ("GOAL", BOOTED + [came(call(1, 0), 2), deliver(2, 9)], 5, ["call 2 came by record 4, for import 0", "call 2 is meant for object 7", "object 7 is hosted since record 0", "record 5 delivers call 2 to object 9, and object 7 was expected"]),
    ("GOAL", [vow(1), make(1, 1), deliver(1, 7)], 2, ["call 1 was made by record 1, through reference 1", "call 1 is meant for the promise of reference 1", "before record 2 that leads to the promise of reference 1, which is no object of this vat"]),
    ("GOAL", [vow(1), host(2, 5), fulfil(1, 2), make(1, 1), host(3, 7), deliver(1, 7)], 5, ["call 1 was made by record 3, through reference 1", "call 1 is meant for the promise of reference 1", "the promise of reference 1 is object 5, by record 2", "object 5 is hosted since record 1", "object 7 is hosted since record 4", "record 5 delivers call 1 to object 7, and object 5 was expected"]),
    ("GOAL", BOOTED + [came(boot(1), 2), answer(2), came(piped(2, 1), 3), deliver(3, 7)], 7, ["call 3 came by record 6, for answer 1 []", "call 3 is meant for result [] of call 2", "that leads nowhere"]),
    ("GOAL", [vow(1), fulfil(1, 1), make(1, 1), deliver(1, 7)], 3, ["call 1 was made by record 2, through reference 1", "call 1 is meant for the promise of reference 1", "the promise of reference 1 is the promise of reference 1, by record 1", "that goes in a circle"]),
    ("GOAL", HELD + [make(2, 1), sent(call(1, 0, method=3), 2)], 3, ["call 2 was made by record 2, through reference 1", "it asked for interface 0000000000001234 method 2, and is sent for interface 0000000000001234 method 3"]),
    ("GOAL", HELD + [sent(boot(1), 2), came(given(1, 1), references=[2]), make(3, 1), sent(call(2, 1), 3)], 5, ["call 3 was made by record 4, through reference 1", "call 3 is meant for what record 1 brought as capability 0", "so it was expected to go to what record 1 brought as capability 0, or to what stands before it on that way", "its target stands for what record 3 brought as capability 0", "import 1 of connection 0 was introduced by record 3"]),
    ("ANSWER", BOOTED + [answer(1, (1, []))], 4, ["call 1 is the Bootstrap of record 1", "record 2 answered it, or ended it, before"]),
    ("ANSWER", BOOTED + [came(call(1, 0), 2), answer(2)], 5, ["call 2 came by record 4, for import 0", "no record before delivers it here"]),
    ("ANSWER", [sent(boot(0), 1), answer(1)], 1, ["call 1 is the Bootstrap of record 0", "this vat asked for it, so the answer is the peer's"]),
    ("ANSWER", [host(1, 7), came(boot(0), 1), answer(1, (1, []), (1, []))], 2, ["call 1 is the Bootstrap of record 1", "path [] stands there twice"]),
    ("DESC", BOOTED + [host(2, 8), came(boot(1), 2), answer(2, (2, [])), sent(given(1, 0), references=[2])], 7, ["entry 0 of its table has reference 2 beside it", "reference 2 is object 8, bound by record 4", "entry 0 of its table, senderHosted 0, stands for object 7", "export 0 of connection 0 was introduced by record 3"]),
    ("DESC", [vow(1), came(boot(0), 1), answer(1, (1, [])), sent(given(0, 0), references=[1])], 3, ["reference 1 is the promise of reference 1, bound by record 0", "the promise of reference 1 is still open, so entry 0 was expected to be a senderPromise"]),
    ("DESC", [host(1, 7), came(boot(0), 1), answer(1, (1, [])), sent(given(0, 0))], 3, ["capabilities in its table: 1, references noted: 0"]),
    ("DESC", PROMISED + [fulfil(1, 2), sent(resolve(0, 1, 1), references=[2]), came(boot(1), 2), answer(2, (1, [])), sent(promised(1, 0), references=[1])], 9, ["export 0 of connection 0, introduced by record 3, was resolved by record 6"]),
    ("DESC", PROMISED + [fulfil(1, 2), came(boot(1), 2), answer(2, (1, [])), sent(given(1, 0), references=[1])], 8, ["export 0 of connection 0 was introduced as senderPromise by record 3"]),
    ("COUNT", BOOTED + [came(release(0, 2))], 4, ["it gives back 2 of export 0 of connection 0, and 1 of it is held", "export 0 of connection 0 was introduced by record 3"]),
    ("COUNT", BOOTED + [came(release(0, 1)), came(finish(0))], 5, ["it gives back what record 3 introduced", "it gives back 1 of export 0 of connection 0, and 0 of it is held", "export 0 of connection 0 was introduced by record 3", "it was released by record 4"]),
    ("RESULT", [came(boot(0), 1), sent(returned(0))], 1, ["call 1 is the Bootstrap of record 0", "no record before tells its results"]),
    ("RESULT", [came(boot(0), 1), sent(returned(0)), answer(1)], 1, ["call 1 is the Bootstrap of record 0", "no record before tells its results", "record 2 tells them, behind the Return"]),
    ("RESULT", [host(1, 7), host(2, 8), came(boot(0), 1), answer(1, (1, [])), sent(given(0, 0), references=[2])], 4, ["record 3 tells the results of call 1", "result [] of call 1 is object 7, by record 3", "entry 0 of its table, senderHosted 0, stands for object 8"]),
    ("RESULT", [came(boot(0), 1), sent(canceled(0))], 1, ["the question was opened by record 0, and no Finish of it has passed since"]),
    ("RESULT", HELD + [came(boot(0), 2), make(3, 1), sent(yourself(1, 0), 3), sent(taken(0, 1))], 5, ["no record before answers call 2 by another", "question 1 stands for call 3, since record 4"]),
    ("RESULT", HELD + [came(boot(0), 2), make(3, 1), sent(yourself(1, 0), 3), make(4, 1), sent(yourself(2, 0), 4), answer_by(2, 3), sent(taken(0, 2))], 8, ["call 2 was answered by call 3, by record 7", "question 2 stands for call 4, since record 6"]),
    ("RESOLVE", PROMISED + [sent(resolve(0, 1, 1), references=[2])], 5, ["export 0 of connection 0 was introduced by record 3", "it stands for the promise of reference 1", "no record before says what that turned out to be", "the Resolve's capability, senderHosted 1, stands for object 7"]),
    ("RESOLVE", PROMISED + [fulfil(1, 2), sent(resolve(0, 1, 1), references=[2]), sent(resolve(0, 1, 1), references=[2])], 7, ["export 0 of connection 0 was introduced by record 3", "it was resolved by record 6"]),
    ("RESOLVE", BOOTED + [sent(resolve(0, 1, 1), references=[1])], 4, ["export 0 of connection 0 was introduced by record 3, as senderHosted"]),
    ("RESOLVE", PROMISED + [host(3, 8), fulfil(1, 2), sent(resolve(0, 1, 1), references=[3])], 7, ["export 0 of connection 0 was introduced by record 3", "it stands for the promise of reference 1", "the promise of reference 1 is object 7, by record 6", "the Resolve's capability, senderHosted 1, stands for object 8"]),
    ("RESOLVE", PROMISED + [came(release(0, 1)), sent(resolve(0, 1, 1), references=[2])], 6, ["export 0 of connection 0 was introduced by record 3", "it was released by record 5"]),
    ("EMB", HELD + [sent(disembargo(0, 0, 4))], 2, ["its target stands for what record 1 brought as capability 0", "calls come back over connection 0 only from what isn't reached over it"]),
    ("EMB", REFLECTED + [sent(disembargo(0, 0, 4)), sent(disembargo(0, 0, 4))], 8, ["record 7 sent a senderLoopback of this number, which waits for its echo"]),
    ("EMB", BOOTED + [came(disembargo(0, 0, 4))], 4, ["its target stands for object 7", "calls go back over connection 0 only to what is reached over it"]),
    ("EMB", BACK + TURNED + [came(disembargo(0, 0, 4)), came(disembargo(0, 0, 4))], 10, ["record 9 received a senderLoopback of this number, which waits for its echo"]),
    ("EMB", HELD + [sent(disembargo(0, 1, 4))], 2, ["no senderLoopback of this number waits for its echo"]),
    ("EMB", BACK + TURNED + [came(disembargo(0, 0, 4)), sent(disembargo(0, 1, 4)), sent(disembargo(0, 1, 4))], 11, ["no senderLoopback of this number waits for its echo", "record 10 sent an echo of it"]),
    ("EMB", BACK + [came(call(1, 0), 3)] + TURNED + [came(disembargo(0, 0, 4)), sent(disembargo(0, 1, 4))], 11, ["call 3, which record 7 received for the same target, is still here: the echo comes behind it"]),
    ("EMB", BACK + [sent(boot(1), 3), came(given(1, 1), references=[4])] + TURNED + [came(disembargo(0, 0, 4)), sent(disembargo(1, 1, 4))], 12, ["record 11 received its senderLoopback, whose target stood for the promise of reference 1", "that leads to what record 6 brought as capability 0", "its target stands for what record 8 brought as capability 0"]),
    ("EMB", BOOTED + [came(disembargo(0, 1, 4))], 4, ["no senderLoopback of this number waits for its echo"]),
    ("RECVREF", [sent(boot(0), 1), came(given(0, 0))], 1, ["capabilities in its table: 1, references noted: 0"]),
    ("CLOSED", [sent(abort()), sent(boot(0), 1)], 1, ["record 0 sent an abort there"]),
    ("CLOSED", [came(abort()), sent(boot(0), 1)], 1, ["record 0 received an abort there", "in a log of version 3 an abort that was received forbids nothing"]),
    ("CLOSED", [came(abort()), sent(abort())], 1, ["record 0 received an abort there", "in a log of version 3 an abort that was received forbids nothing"]),
    ("CLOSED", [came(abort()), came(boot(0), 1), sent(canceled(0))], 2, ["record 0 received an abort there", "in a log of version 3 an abort that was received forbids nothing"]),
]

# The same of logs of version 3.
LATER_ROWS = [
    ("GOAL", HELD + [sent(boot(1), 2), came(given(1, 1), references=[2]), make(3, 1), sent(call(2, 1), 3)], 5, ["call 3 was made by record 4, through reference 1", "call 3 is meant for what record 1 brought as capability 0", "so it was expected to go to what record 1 brought as capability 0, or to what leads there", "its target stands for what record 3 brought as capability 0", "import 1 of connection 0 was introduced by record 3"]),
    ("DESC", BOOTED + [host(2, 8), came(boot(1), 2), answer(2, (2, [])), sent(given(1, 0), references=[2])], 7, ["entry 0 of its table has reference 2 beside it", "reference 2 is object 8, bound by record 4", "object 8 and entry 0 of its table lead to nothing in common", "entry 0 of its table, senderHosted 0, stands for object 7", "export 0 of connection 0 was introduced by record 3"]),
    ("RESULT", [host(1, 7), host(2, 8), came(boot(0), 1), answer(1, (1, [])), sent(given(0, 0), references=[2])], 4, ["record 3 tells the results of call 1", "result [] of call 1 is object 7, by record 3", "result [] of call 1 and entry 0 of its table lead to nothing in common", "entry 0 of its table, senderHosted 0, stands for object 8"]),
    ("RESULT", [host(1, 7), vow(2), came(boot(0), 1), answer(1, (1, [])), sent(promised(0, 0), references=[2])], 4, ["record 3 tells the results of call 1", "result [] of call 1 is object 7, by record 3", "result [] of call 1 and entry 0 of its table lead to nothing in common", "entry 0 of its table, senderPromise 0, stands for the promise of reference 2"]),
    ("EMB", HELD + [sent(disembargo(0, 0, 4))], 2, ["its target stands for what record 1 brought as capability 0", "calls come back over connection 0 only from what isn't reached over it, or came back over it"]),
    ("CLOSED", [came(abort()), sent(abort()), sent(boot(0), 1)], 2, ["record 1 sent an abort there"]),
]


def main():
    program = os.path.realpath(sys.argv[1])
    rows = [(b"VATLOG02", row) for row in ROWS] + [(b"VATLOG03", row) for row in LATER_ROWS]
    differ = 0
    with tempfile.TemporaryDirectory() as room:
        for number, (magic, (rule, records, at, notes)) in enumerate(rows):
            with open(os.path.join(room, "a.log"), "wb") as out:
                out.write(magic + struct.pack("<I", 5) + b"".join(records))
            ran = subprocess.run([program, "vat", "a.log"], cwd=room, capture_output=True, text=True)
            line = f"no vat 5 record {at} rule {rule}\n"
            wanted = [f"note: {note}" for note in notes]
            said = ran.stderr.splitlines()
            named = said[:1] and said[0].startswith(f"note: a.log: record {at} ")
            if ran.stdout != line or not named or said[2:] != wanted:
                differ += 1
                print(f"row {number}, {rule}: {ran.stdout!r}\n  came   {said}\n  wanted {wanted}")
    print(f"{len(rows) - differ} rows as they must, {differ} differ")
    sys.exit(differ > 0)


if __name__ == "__main__":
    main()
