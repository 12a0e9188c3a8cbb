"""What is wrong with an outcome, as a kind: the same kind is the same fault, whatever the numbers."""

import collections
import itertools
import os
import re

from .lives import passed_before_a_loss
from .trees import body_of, came_to, is_received, numbered_calls, trees, without_numbers


# An address of this run, which an assertion of the runtime prints, into its exception's text too.
ADDRESS = r"\b(?:0x)?[0-9a-f]{8,16}\b"


def shape(text):
    """A note or a message without its numbers, paths and names."""
    text = re.sub(r"\S*/([\w.+-]+):\d+", r"\1", text)
    text = re.sub(ADDRESS, "N", text)
    text = re.sub(r"\d+", "N", text)
    return re.sub(r"\s+", " ", text).strip()[:220]


def panic(said):
    """What a program that ended by itself said last: the runtime's own message."""
    found = re.findall(r"(?:terminate called.*?what\(\): |kj::Exception: |Fatal: |expected |failed: )(.*)", said)
    lines = [line for line in said.splitlines() if line.strip() and not line.startswith(("stack:", "vataudit:", "    "))]
    return shape(found[-1] if found else lines[-1] if lines else "")


def are_numbered(lines):
    return all(len(line) > 6 for line in lines if line[0] in ("call", "only") and line[4] != "mute")


def numbered(lines):
    """The same script with a number for each call, so that the trace tells them apart."""
    return [line[:6] + [str(at)] if line[0] in ("call", "only") and line[4] != "mute" else
            line[:3] + [str(at)] if line[0] == "stream" else line for at, line in enumerate(lines)]


def overtaken(trace):
    """Two calls through one reference that one object got in the other order: (reference, object, first, second) by
    the trace alone, without a log. Only calls with a number of their own can be told apart."""
    sent, got, where, age = {}, {}, [], {}
    for line in trace:
        words = line.split()
        if words[0] == "drop":
            age[tuple(words[1:3])] = age.get(tuple(words[1:3]), 0) + 1
        elif words[0] == "sent" and len(words) == 5:
            reference = tuple(words[1:3])
            sent[(words[3].replace("slowtail", "tail"), words[4])] = (reference + (age.get(reference, 0),), len(sent))
        elif words[0] == "got" and len(words) == 5 and (words[3], words[4]) in sent:
            reference, at = sent[(words[3], words[4])]
            key = (reference, tuple(words[1:3]))
            last = got.get(key)
            if last is not None and last[0] > at:
                where.append((" ".join(reference[:2]), " ".join(words[1:3]), words[4], last[1]))
            if last is None or last[0] < at:
                got[key] = (at, words[4])
    return where


def are_exchanged(frames, trace):
    """Whether two calls that one end sent for one target came to one object in the other order. It sees calls that an
    object of a script makes, too, of which the trace has no `sent`."""
    came = {}
    for at, line in enumerate(trace):
        words = line.split()
        if words[0] == "got" and len(words) == 5:
            came[(words[3], words[4])] = (words[1], words[2]), at
    for data in frames.values():
        last = {}
        for target, method, named in numbered_calls(data):
            thing, at = came.get((method, named), (None, 0))
            if thing and at < last.get((target, thing), 0):
                return True
            if thing:
                last[(target, thing)] = at
    return False


def comparable(line):
    """A line of a trace without addresses. An assertion of the recorder's network has the text of the runtime's, but for
    the name of what it looks at."""
    return re.sub(ADDRESS, "N", line).replace("expected network.previousWrite", "expected previousWrite")


def without_addresses(frames):
    """The frames, with zeros in the place of an address in an exception's text."""
    return {name: re.sub(rb"(?<=[ \[=])[0-9a-f]{8,16}(?=[\] ])", lambda found: b"0" * len(found.group()), data)
            for name, data in frames.items()}


def is_lost(trace):
    """Whether a connection ended before the program did."""
    return any(line.startswith("lost ") for line in trace)


def is_lost_alike(trace, twin):
    """Whether two traces are alike up to the line that tells of a lost connection, and behind it but for their order.
    What waits for a lost connection ends in the order of a hash table, which is another one in each run of capnp-rpc; some
    of the vat's calls fail by that just before the line."""
    lost = next((at for at, line in enumerate(twin) if line.startswith("lost ")), len(twin))
    vat = twin[lost].split()[1] if lost < len(twin) else ""
    at = lost
    while at > 0 and re.match(r"ended %s \S+ failed " % vat, twin[at - 1]):
        at -= 1
    return trace[:at] == twin[:at] and collections.Counter(trace) == collections.Counter(twin)


def are_said_alike(frames, twin, before):
    """Whether two runs said the same, wherever their contents lie. So many frames of each file passed before a connection
    was lost, and what comes behind them may come in another order, and under other numbers; of none, if no connection was
    lost."""
    for name in frames.keys() | twin.keys():
        one, other = [trees(each.get(name, b"")) for each in (frames, twin)]
        kept = len(one) if before is None else before.get(name, 0)
        behind = [collections.Counter(map(without_numbers, each[kept:])) for each in (one, other)]
        if repr(one[:kept]) != repr(other[:kept]) or behind[0] != behind[1]:
            return False
    return True


def differences(outcome):
    """In what the recorded run and its twin differ."""
    kinds = []
    if (outcome.ended, panic(outcome.said)) != (outcome.twin_ended, panic(outcome.twin_said)) and \
            (outcome.ended != "ok" or outcome.twin_ended != "ok"):
        kinds.append("twin ends otherwise: %s %s, unrecorded %s %s" % (
            outcome.ended, panic(outcome.said) if outcome.ended != "ok" else "",
            outcome.twin_ended, panic(outcome.twin_said) if outcome.twin_ended != "ok" else ""))
    traces = [[comparable(line) for line in trace] for trace in (outcome.trace, outcome.twin_trace)]
    if traces[0] != traces[1] and not (outcome.is_copied and is_lost_alike(*traces)):
        got = [[line for line in trace if line.startswith("got ")] for trace in traces]
        kinds.append("twin delivers otherwise" if got[0] != got[1] else "twin answers otherwise")
    frames = [without_addresses(each) for each in (outcome.frames, outcome.twin_frames)]
    before = passed_before_a_loss(frames[1], outcome.twin_orders) if is_lost(outcome.twin_trace) else None
    if frames[0] != frames[1] and not (outcome.is_copied and are_said_alike(frames[0], frames[1], before)):
        kinds.append("twin sends other frames")
    if before is None and outcome.orders != outcome.twin_orders:
        kinds.append("twin passes its messages in another order")
    return kinds


def last_note(outcome):
    """The last note about the record itself, without what every conversation has behind it."""
    notes = [note[6:] if note.startswith("note: ") else note for note in outcome.notes.splitlines()]
    ours = itertools.takewhile(lambda note: not note.startswith("in another log"), notes)
    ours = [note for note in ours if not note.startswith(("good by themselves", "received as sent"))]
    return ours[-1] if ours else ""


def message(outcome):
    """Of a no at a message: whether it was sent or received, and which one."""
    found = re.search(r"record \d+ (send|receive) .*?\b(bootstrap|call question|return|finish|resolve|release|disembargo|abort)\b",
                      outcome.notes)
    return " %s %s" % (found.group(1), found.group(2).split()[0]) if found else ""


def ways(outcome):
    """Of a no by ORDER: over how many connections went the call that was overtaken, and the one that overtook it."""
    lengths = [note.count("received by") for note in outcome.notes.splitlines() if "the way of call" in note]
    return "a call that went over %s is overtaken by one that went over %s" % tuple(lengths) if len(lengths) == 2 else ""


def log_of(outcome, vat):
    with open(os.path.join(outcome.folder, "vat%s.log" % vat), "rb") as file:
        return file.read()


def passed_on(outcome):
    """Of a no by RESULT: whether what goes out ends at a call's result that a message brought, so that the vat only
    passes it on. That call has no results yet, since the way ends there."""
    found = re.search(r" is result \[[\d, ]*\] of call \d+, by record (\d+)\n[^\n]* of its table, .* stands for ", outcome.notes)
    vat = re.match(r"no vat (\d+) ", outcome.line)
    return found is not None and is_received(log_of(outcome, vat.group(1)), int(found.group(1)))


def came_overtaken(outcome):
    """Whether frames show what a no by ORDER says: both calls came to one number of a vat, over one connection, the later
    one first. Of an object that the runtime made itself no trace tells the order in which it got them."""
    ways = [note for note in outcome.notes.splitlines() if "the way of call" in note]
    ends = [re.findall(r"received by record (\d+) of vat (\d+)", way)[-1:] for way in ways]
    if len(ends) != 2 or [] in ends or ends[0][0][1] != ends[1][0][1] or int(ends[0][0][0]) < int(ends[1][0][0]):
        return False
    log = log_of(outcome, ends[0][0][1])
    first, second = (came_to(log, int(end[0][0])) for end in ends)
    return first is not None and first == second


def kinds_of(outcome):
    """All that is wrong, worst first; none where all is well."""
    kinds = ["stopped: " + shape(reason) for reason in sorted(set(outcome.stopped))]
    kinds += differences(outcome)
    if outcome.ended == outcome.twin_ended != "ok":
        kinds.append("%s: %s" % (outcome.ended, panic(outcome.twin_said)))
    if is_lost(outcome.twin_trace):
        kinds.append("a connection is lost, and no line of the script ends one")
    kinds += ["threw: " + shape(line.split(" ", 1)[1]) for line in outcome.twin_trace if line.startswith("threw ")][:1]
    if not outcome.line.startswith("yes") and outcome.line:
        if not (outcome.stopped and outcome.line.startswith("cannot read")):
            line = re.sub(r"vat \d+ record \d+ ", "", outcome.line)
            note = ways(outcome) if "rule ORDER" in line else shape(last_note(outcome))
            if "rule RESULT" in line and passed_on(outcome):
                note = "what is passed on is a result that isn't known"
            kinds.append(shape(line) + ("" if "rule ORDER" in line else message(outcome)) + ": " + note)
    elif overtaken(outcome.twin_trace):
        kinds.append("yes, and a call was overtaken")
    if not outcome.line and outcome.ended == "ok":
        kinds.append("the audit said nothing")
    return kinds
