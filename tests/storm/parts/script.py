"""The language of the scripts: what a script is, what waits for what in it, and random scripts from a seed."""

import random

MODES = ["ping", "self", "get", "make", "echo", "hold", "slow", "slowecho", "slowget", "fail", "tail", "slowtail",
         "callback", "mute"]
TAKES_CAPABILITY = {"echo", "hold", "slowecho", "tail", "slowtail", "callback"}
GIVES_CAPABILITY = {"self", "get", "make", "echo", "slow", "slowecho", "slowget", "tail", "slowtail", "callback"}
WAITS_FOR_RELEASE = {"slow", "slowecho", "slowget", "slowtail"}


def parse(text):
    """The lines of a script as lists of words, without comments."""
    lines = [line.split("#")[0].split() for line in text.splitlines()]
    return [line for line in lines if line]


def show(lines):
    return "".join(" ".join(line) + "\n" for line in lines)


def made(name):
    """What has to come to be before a name leads anywhere: the call, the promise, or what was given to keep."""
    return name if name.endswith(".h") else name.split(".")[0]


class Waits:
    """What waits for what. A program in which something waits for itself isn't legal: the runtime spins for ever."""

    def __init__(self):
        self.edges = {}

    def reaches(self, start, goal):
        seen, rest = set(), [start]
        while rest:
            at = rest.pop()
            if at == goal:
                return True
            if at not in seen:
                seen.add(at)
                rest.extend(self.edges.get(at, ()))
        return False

    def closes(self, words):
        """Notes what a line makes, or says that it would close a circle."""
        verb = words[0]
        if verb == "fulfil":
            if self.reaches(made(words[3]), words[2]):
                return True
            self.edges.setdefault(words[2], set()).add(made(words[3]))
        if verb in ("call", "only"):
            after = self.edges.setdefault(words[2], set())
            after.add(made(words[3]))
            if len(words) > 5 and words[5] != "-":
                kept = self.edges.setdefault(words[2] + ".h", set()) if words[4] == "hold" else after
                kept.update(made(name) for name in words[5].split("/"))
        return False


def legal(lines):
    """The same script, with the vat's own object where an operand would close a circle."""
    waits, result = Waits(), []
    for words in lines:
        if waits.closes(words):
            words = words[:3] + ["o" + words[1]] + words[4:]
        result.append(words)
    return result


def vats_of(lines):
    return int(lines[0][1])


def links_of(lines):
    """(connection, client, server) of each connection."""
    links = [(0, 1, 2)]
    if vats_of(lines) == 3:
        links.append((1, 2, 3))
    if "triangle" in lines[0]:
        links.append((2, 1, 3))
    return links


class Generator:
    """A random legal script of a seed. It guesses where each capability leads, so that most lines name what is there."""

    def __init__(self, seed):
        self.random = random.Random(seed)
        self.count = 0
        self.lines = []
        self.place = {}                            # the vat that a name probably leads to

    def script(self):
        pick = self.random
        vats = pick.choice([2, 2, 2, 3, 3])
        triangle = vats == 3 and pick.random() < 0.5
        self.lines = [["vats", str(vats)] + (["triangle"] if triangle else [])]
        self.known = {vat: [] for vat in range(1, vats + 1)}
        for vat in self.known:
            self.know(vat, "o%d" % vat, vat)
        for _, one, other in links_of(self.lines):
            self.know(one, "b%d%d" % (one, other), other)
            self.know(other, "b%d%d" % (other, one), one)
        self.promises = {vat: [] for vat in self.known}
        self.calls = {vat: [] for vat in self.known}
        self.slow = []                             # of which vat and name
        self.responses = []                        # of which vat and name, where they may not be there yet
        self.are_named = pick.random() < 0.75      # calls with a number each, or all alike
        self.turns = pick.choice([0.05, 0.2, 0.35])
        self.null = pick.choice([0.02, 0.02, 0.3]) # how often a result that is null is used
        for _ in range(pick.choice([8, 15, 25, 40, 60])):
            self.line()
        self.wind_up()
        return legal(self.lines)

    def wind_up(self):
        """Settles most of what is still open, and calls what it became."""
        pick = self.random
        for _ in range(sum(len(promises) for promises in self.promises.values()) + len(self.slow)):
            if pick.random() < 0.15:
                continue
            vat = pick.choice([vat for vat in self.known if self.promises[vat]] or list(self.known))
            if self.promises[vat] and (not self.slow or pick.random() < 0.6):
                self.do_fulfil(vat)
            else:
                self.do_release(vat)
            if pick.random() < 0.3:
                self.turn()
            if pick.random() < 0.4:
                self.do_call(pick.choice(list(self.known)))

    def know(self, vat, name, place):
        self.known[vat].append(name)
        self.place[name] = place

    def fresh(self, letter):
        self.count += 1
        return letter + str(self.count)

    def any(self, vat):
        """Any capability that the vat has: mostly one of its latest."""
        names = self.known[vat] or ["o%d" % vat]
        chance = self.random.random()
        if chance < 0.5:
            names = names[-3:]
        elif chance < 0.75:
            names = [name for name in names if self.place[name] != vat] or names
        return self.random.choice(names)

    def line(self):
        pick = self.random
        vat = pick.choice(list(self.known))
        if pick.random() < self.turns:
            self.turn()
            return
        verb = pick.choices(["host", "vow", "fulfil", "break", "call", "burst", "race", "only", "stream", "release",
                             "cancel", "drop"], [3, 7, 14, 1, 50, 8, 9, 2, 3, 7, 3, 4])[0]
        getattr(self, "do_" + verb)(vat)

    def turn(self):
        pick = self.random
        self.lines.append(["settle"] if pick.random() < 0.3 else ["turn", str(pick.choice([1, 1, 2, 3, 4, 6, 8, 10, 12, 15]))])
        if self.lines[-1][-1] in ("settle", "15"):
            for response in self.responses:
                self.know(*response)
            self.responses = []

    def do_host(self, vat):
        name = self.fresh("a")
        self.know(vat, name, vat)
        self.lines.append(["host", str(vat), name])

    def do_vow(self, vat):
        name = self.fresh("p")
        self.know(vat, name, vat)
        self.promises[vat].append(name)
        self.lines.append(["vow", str(vat), name])

    def do_fulfil(self, vat):
        vats = [each for each in self.known if self.promises[each]]
        if vats:
            vat = vat if vat in vats else self.random.choice(vats)
            name = self.promises[vat].pop(self.random.randrange(len(self.promises[vat])))
            became = self.any(vat)
            self.place[name] = self.place.get(became, vat)
            self.lines.append(["fulfil", str(vat), name, became])

    def do_break(self, vat):
        if self.promises[vat]:
            self.lines.append(["break", str(vat), self.promises[vat].pop()])

    def do_burst(self, vat):
        """Some calls through one reference, with turns of the loop between."""
        target = self.any(vat)
        for _ in range(self.random.choice([2, 2, 3, 4])):
            self.do_call(vat, target=target)
            if self.random.random() < 0.4:
                self.turn()

    def do_race(self, vat):
        """A call through a reference that is still open, then what may settle it, then a later call through it."""
        pick = self.random
        slow = pick.choice(self.slow[-3:]) if self.slow and pick.random() < 0.7 else None
        if slow is not None and pick.random() < 0.7:
            vat, target = slow[0], slow[1] + ".f"
        else:
            target = pick.choice([name for name in self.known[vat] if name[0] in "cp"][-6:] or self.known[vat])
        if pick.random() < 0.4:
            self.lines.append(["settle"])
        for _ in range(pick.choice([1, 1, 2])):
            self.do_call(vat, target=target)
        if pick.random() < 0.5:
            self.lines.append(["turn", str(pick.randrange(1, 16))])
        if slow is not None:
            self.do_release(vat, slow)
        else:
            self.do_fulfil(vat)
        for _ in range(pick.choice([1, 1, 2])):
            self.lines.append(["turn", str(pick.randrange(1, 24))])
            self.do_call(vat, target=target)

    def operand(self, mode, vat, place):
        pick = self.random
        if mode in TAKES_CAPABILITY:
            operand = self.any(vat) if pick.random() < 0.97 else "-"
            if mode in ("tail", "slowtail") and operand != "-" and pick.random() < 0.7:
                operand += "/" + self.any(self.place.get(operand, vat))
            return operand
        if mode in ("get", "slowget") and pick.random() < 0.9:
            return self.any(place if pick.random() < 0.9 else vat)
        return "-"

    def do_call(self, vat, verb="call", target=None):
        pick = self.random
        name, target = self.fresh("c"), target or self.any(vat)
        place = self.place.get(target, vat)
        mode = pick.choices(MODES, [13, 6, 12, 4, 17, 7, 5, 9, 7, 2, 9, 7, 9, 3 if not self.are_named else 0])[0]
        if verb == "only" and mode in ("mute", "hold"):
            mode = "echo"
        operand = self.operand(mode, vat, place)
        words = [verb, str(vat), name, target, mode, operand]
        if self.are_named and mode != "mute":
            words.append(str(self.count))
        self.lines.append(words)
        self.after_call(vat, words, place)

    def after_call(self, vat, words, place):
        pick = self.random
        verb, name, mode, operand = words[0], words[2], words[4], words[5]
        leads = place if mode in ("self", "make", "slow") else self.place.get(operand.split("/")[-1], place)
        if mode != "mute":
            self.calls[vat].append(name)
        if mode in GIVES_CAPABILITY and pick.random() < 0.85 or mode != "mute" and pick.random() < self.null:
            self.know(vat, name + ".f", leads)
        if mode in GIVES_CAPABILITY and pick.random() < 0.2 and verb == "call":
            self.responses.append((vat, name + ".r", leads))
        if mode == "hold":
            self.know(place, name + ".h", self.place.get(operand, vat))
        if mode in WAITS_FOR_RELEASE:
            self.slow.append((vat, name))
        if pick.random() < 0.07:
            self.lines.append(["cancel", str(vat), name])

    def do_only(self, vat):
        self.do_call(vat, "only")

    def do_stream(self, vat):
        self.lines.append(["stream", str(vat), self.any(vat)] + ([self.fresh("")] if self.are_named else []))

    def do_release(self, vat, slow=None):
        if self.slow:
            slow = slow if slow in self.slow else self.random.choice(self.slow)
            self.slow.remove(slow)
            name = slow[1]
            vats = list(self.known)
            self.random.shuffle(vats)
            self.lines.extend(["release", str(each), name] for each in vats)

    def do_cancel(self, vat):
        if self.calls[vat]:
            self.lines.append(["cancel", str(vat), self.random.choice(self.calls[vat])])

    def do_drop(self, vat):
        names = [name for name in self.known[vat] if not name.startswith(("o", "b")) or self.random.random() < 0.2]
        if names:
            name = self.random.choice(names)
            if not name.startswith("b"):
                self.known[vat].remove(name)
            self.lines.append(["drop", str(vat), name])


def generate(seed):
    return Generator(seed).script()
