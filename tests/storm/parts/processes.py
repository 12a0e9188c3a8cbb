"""The driver protocol: one process a vat, stepped one at a time, so that a run is the same each time."""

import os
import select
import socket
import subprocess
import tempfile

from .script import legal, links_of, vats_of

TURNS_OF_SETTLE = 400


class Gone(Exception):
    """A vat's process ended, or said nothing that is an answer."""


class Process:
    """One vat. Lines that only note what the program does are told together with the next one that runs the loop:
    between two lines a driver does nothing."""

    def __init__(self, program, flags, vat, folder, start):
        self.said = open(os.path.join(folder, "said.vat%d" % vat), "wb")
        self.process = start([program] + flags + ["--vat", str(vat), "--folder", folder],
                             stdin=subprocess.PIPE, stdout=subprocess.PIPE, stderr=self.said)
        self.vat = vat
        self.waiting = []

    def note(self, line):
        self.waiting.append(line)

    def tell(self, line, trace):
        """Has the vat do what the line says, and what waits before it; answers what it answers to the line."""
        lines, self.waiting = self.waiting + [line], []
        answer = ""
        try:
            self.process.stdin.write("".join(each + "\n" for each in lines).encode())
            self.process.stdin.flush()
            for _ in lines:
                answer = self.answer(trace)
        except (BrokenPipeError, ConnectionResetError):
            raise Gone()
        return answer

    def answer(self, trace):
        while True:
            answer = self.process.stdout.readline().decode("utf-8", "replace")
            if not answer:
                raise Gone()
            if not answer.startswith("said "):
                break
            trace.append(answer[5:].rstrip("\n"))
        answer = answer.strip()
        if answer.startswith("threw"):
            trace.append("threw %d %s" % (self.vat, answer[6:]))
        return answer

    def end(self):
        """The status with which it ended."""
        try:
            self.process.stdin.close()
        except BrokenPipeError:
            pass
        status = self.process.wait()
        self.process.stdout.close()
        self.said.close()
        return status


class Way:
    """A connection. Both ends are storm's, which takes to each what the other one wrote when it has stepped a vat."""

    def __init__(self):
        self.ends = {}

    def join(self, process, line, folder, trace):
        """Has the vat connect its end, as the line says but for the socket's path."""
        path = os.path.join(folder, "socket")
        listener = socket.socket(socket.AF_UNIX)
        listener.bind(path)
        listener.listen(1)
        process.tell(line + " " + path, trace)
        self.ends[process.vat] = listener.accept()[0]
        listener.close()
        os.unlink(path)

    def pass_on(self, vat):
        """Takes on what the vat wrote; answers to which vat, if there was anything."""
        source = self.ends[vat]
        peer, goal = next((other, end) for other, end in self.ends.items() if other != vat)
        is_any = False
        while select.select([source], [], [], 0)[0]:
            try:
                piece = source.recv(65536)
                if not piece:
                    break
                goal.sendall(piece)
                is_any = True
            except (BrokenPipeError, ConnectionResetError):
                break
        return peer if is_any else None

    def close(self):
        for end in self.ends.values():
            end.close()


def joined(processes, links, folder, trace):
    ways = []
    for connection, client, server in links:
        way = Way()
        for vat, peer, side in ((client, server, "client"), (server, client, "server")):
            way.join(processes[vat], "link %d %d %s" % (connection, peer, side), folder, trace)
        ways.append(way)
    return ways


def pass_on(ways, vat):
    """Takes on what the vat wrote; answers to which vats."""
    peers = {way.pass_on(vat) for way in ways if vat in way.ends}
    return peers - {None}


def settle(processes, ways, trace):
    """Until every vat was stepped, and nothing came for it since."""
    stale = set(processes)
    for _ in range(TURNS_OF_SETTLE):
        if not stale:
            return
        vat = min(stale)
        processes[vat].tell("settle", trace)
        stale.discard(vat)
        stale |= pass_on(ways, vat)
    trace.append("never idle")


def step(processes, ways, words, trace):
    if words[0] == "settle":
        settle(processes, ways, trace)
    elif words[0] == "turn":
        for vat in sorted(processes):
            processes[vat].tell("turn " + words[1], trace)
            pass_on(ways, vat)
    else:
        processes[int(words[1])].note(" ".join(words))


def run_lines(processes, ways, lines, trace):
    for words in legal(lines)[1:]:
        step(processes, ways, words, trace)
    settle(processes, ways, trace)
    for line in ("stuck", "dropall"):
        for vat in sorted(processes):
            processes[vat].tell(line, trace)
    settle(processes, ways, trace)
    trace.append("bye")


def run(programs, flags, lines, folder, start):
    """Runs a script with vat V in a process of program (V - 1) modulo their number."""
    from .run import how_it_ended, read, write_case
    vats, links, trace = vats_of(lines), links_of(lines), []
    write_case(folder, vats, links)
    processes = {vat: Process(programs[(vat - 1) % len(programs)], flags, vat, folder, start)
                 for vat in range(1, vats + 1)}
    ways = []
    with tempfile.TemporaryDirectory() as sockets:
        try:
            ways = joined(processes, links, sockets, trace)
            run_lines(processes, ways, lines, trace)
        except Gone:
            trace.append("gone")
    statuses = [processes[vat].end() for vat in sorted(processes)]
    for way in ways:
        way.close()
    with open(os.path.join(folder, "trace"), "w") as file:
        file.write("".join(line + "\n" for line in trace))
    ended = [how_it_ended(status) for status in statuses if status != 0]
    said = "".join(read(folder, "said.vat%d" % vat) for vat in sorted(processes))
    return (ended[0] if ended else "ok"), said
