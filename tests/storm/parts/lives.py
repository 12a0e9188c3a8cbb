"""The lives of export numbers, by the bytes of a run and the order in which a vat's messages passed. No log is read."""

from .trees import body_of, descriptors, number, trees

ABORT, CALL, RETURN, FINISH, RESOLVE, RELEASE, BOOTSTRAP = 1, 2, 3, 4, 5, 6, 8
HOSTED, PROMISE = 1, 2


class End:
    """One end of a connection: what it exports, and what its peer will give back at once."""

    def __init__(self):
        self.counts = {}               # of a number in life: how often it was introduced, less what was given back
        self.promises = set()          # of these, those that may still get their Resolve
        self.parameters = {}           # what a question's Call introduced
        self.results = {}              # what an answer's Return introduced, once it is sent

    def introduce(self, how, named):
        if how == PROMISE and named not in self.counts:
            self.promises.add(named)
        self.counts[named] = self.counts.get(named, 0) + 1

    def give_back(self, named, count):
        self.counts[named] = self.counts.get(named, 0) - count
        if self.counts[named] <= 0:
            del self.counts[named]
            self.promises.discard(named)

    def send(self, kind, body):
        """Whether it is a Resolve of what is no promise in life without a Resolve."""
        named = [(how, each) for how, each in descriptors(kind, body) if how in (HOSTED, PROMISE)]
        about = number(body, 0, 4)
        is_stray = kind == RESOLVE and about not in self.promises
        if kind == RESOLVE:
            self.promises.discard(about)
        if kind == CALL:
            self.parameters[about] = [each for _, each in named]
        if kind == RETURN and about not in self.results:
            return False               # its Finish came before, so it gives nothing
        if kind == RETURN:
            self.results[about] = [each for _, each in named]
        for how, each in named:
            self.introduce(how, each)
        return is_stray

    def receive(self, kind, body):
        about = number(body, 0, 4)
        if kind in (CALL, BOOTSTRAP):
            self.results[about] = []
        elif kind == RELEASE:
            self.give_back(about, number(body, 4, 4))
        elif kind in (RETURN, FINISH):
            # The flag of both is true by default: so it is true where its bit is 0.
            kept = (self.parameters if kind == RETURN else self.results).pop(about, [])
            for each in kept if number(body, 4, 1) & 1 == 0 else []:
                self.give_back(each, 1)


def passed(frames, orders):
    """The messages that passed at each vat, in their order: (vat, connection, whether it sent it, file, place in it, kind,
    body). `orders` has for each vat its lines `sent C` and `received C`, one for each message."""
    messages = {name: list(map(body_of, trees(data))) for name, data in frames.items()}
    for vat, order in orders.items():
        count = {}
        for what, connection in map(str.split, order):
            name = file_of(frames, vat, connection, what == "sent")
            at = count[name] = count.get(name, -1) + 1
            kind, body = messages[name][at] if at < len(messages.get(name, ())) else (None, None)
            yield vat, connection, what == "sent", name, at, kind, body


def file_of(frames, vat, connection, is_own):
    """The file with what the vat, or its peer, wrote on a connection."""
    return next((name for name in frames if name.startswith("link%s." % connection) and
                 (name == "link%s.vat%d" % (connection, vat)) == is_own), None)


def is_resolved_when_released(frames, orders):
    """Whether a vat sent a Resolve of a promise whose last reference it had already been given back, or that it had
    resolved before."""
    ends = {}
    for vat, connection, is_sent, _, _, kind, body in passed(frames, orders):
        end = ends.setdefault((vat, connection), End())
        if body is None:
            continue
        if not is_sent:
            end.receive(kind, body)
        elif end.send(kind, body):
            return True
    return False


def touched_at(messages, first):
    """From which of a vat's messages on a lost connection may have changed what it does: where an abort passes, or where it
    receives what a touched vat sent. Who sends an abort has let go of what it held for the connection just before, in the
    order of a hash table: so what it sent since it last received something counts, too."""
    since = 0
    for place, (_, _, is_sent, name, at, kind, _) in enumerate(messages):
        if kind == ABORT:
            return since if is_sent else place
        if not is_sent and at >= first.get(name, at + 1):
            return place
        if not is_sent:
            since = place + 1
    return len(messages)


def passed_before_a_loss(frames, orders):
    """How many frames of each file passed before anything that a lost connection may have changed."""
    vats = {}
    for message in passed(frames, orders):
        vats.setdefault(message[0], []).append(message)
    first, before = {}, {}
    for _ in range(len(orders) + 1):
        before = {}
        for messages in vats.values():
            touched = touched_at(messages, first)
            for place, (_, _, is_sent, name, at, _, _) in enumerate(messages):
                if place < touched:
                    before[name] = max(before.get(name, 0), at + 1)
                elif is_sent:
                    first[name] = min(first.get(name, at), at)
    return {name: min(count, first.get(name, count)) for name, count in before.items()}
