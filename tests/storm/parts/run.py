"""Runs a script on a driver and on its unrecorded twin, within bounds of processor time, memory and file size."""

import json
import os
import re
import resource
import shutil
import signal
import subprocess

from . import processes
from .script import legal, show

CPU_SECONDS = 2
MEMORY = 2 << 30
FILE_SIZE = 16 << 20


def start(words, **streams):
    """A program within bounds, as soon as it runs: of processor time, memory, and file size, never of the time that passes."""
    process = subprocess.Popen(words, **streams)
    for what, limits in ((resource.RLIMIT_CPU, (CPU_SECONDS, CPU_SECONDS + 1)), (resource.RLIMIT_AS, (MEMORY, MEMORY)),
                         (resource.RLIMIT_FSIZE, (FILE_SIZE, FILE_SIZE)), (resource.RLIMIT_CORE, (0, 0))):
        try:
            resource.prlimit(process.pid, what, limits)
        except ProcessLookupError:
            break
    return process


class Driver:
    """One program for all vats, or two for those with odd and with even numbers, each vat in a process of its own."""

    def __init__(self, programs, is_by_protocol=False, flags=()):
        self.programs = programs
        self.is_by_protocol = is_by_protocol or len(programs) > 1
        self.flags = list(flags)

    def twin(self):
        return Driver([program + "-plain" for program in self.programs], self.is_by_protocol, self.flags)

    def run(self, lines, folder):
        """How it ended (`ok`, or what stopped it), and what it said on standard error."""
        clear(folder)
        os.makedirs(folder)
        with open(os.path.join(folder, "script"), "w") as file:
            file.write(show(legal(lines)))
        if self.is_by_protocol:
            return processes.run(self.programs, self.flags, lines, folder, start)
        with open(os.path.join(folder, "said"), "wb") as said:
            status = start([self.programs[0]] + self.flags + [os.path.join(folder, "script"), folder],
                           stdin=subprocess.DEVNULL, stdout=said, stderr=said).wait()
        return how_it_ended(status), read(folder, "said")


def clear(folder):
    if os.path.islink(folder):
        os.unlink(folder)
    shutil.rmtree(folder, ignore_errors=True)


def how_it_ended(status):
    if status == 0:
        return "ok"
    if status in (-signal.SIGXCPU, -signal.SIGKILL):
        return "hang"
    return "crash signal %d" % -status if status < 0 else "crash status %d" % status


def read(folder, name):
    try:
        with open(os.path.join(folder, name), "rb") as file:
            return file.read().decode("utf-8", "replace")
    except FileNotFoundError:
        return ""


def frames(folder):
    """What each vat wrote on each connection."""
    result = {}
    for name in sorted(os.listdir(folder)):
        if re.fullmatch(r"link\d\.vat\d", name):
            with open(os.path.join(folder, name), "rb") as file:
                result[name] = file.read()
    return result


def orders(folder):
    """Of each vat whose driver notes it, the order in which its messages passed: `sent C` and `received C`."""
    names = {vat: "order.vat%d" % vat for vat in (1, 2, 3)}
    return {vat: read(folder, name).splitlines() for vat, name in names.items() if os.path.exists(os.path.join(folder, name))}


class Outcome:
    """What came of one script on one driver."""

    def __init__(self, lines, folder, recorded, plain):
        self.lines = lines
        self.folder = folder
        self.ended, self.said = recorded
        self.twin_ended, self.twin_said = plain
        self.trace = read(folder, "trace").splitlines()
        self.twin_trace = read(folder + ".twin", "trace").splitlines()
        self.frames = frames(folder)
        self.twin_frames = frames(folder + ".twin")
        self.orders, self.twin_orders = orders(folder), orders(folder + ".twin")
        self.is_copied = any(os.path.exists(os.path.join(folder, "copied.vat%d" % vat)) for vat in (1, 2, 3))
        self.stopped = re.findall(r"vataudit: vat \d+ is recorded no further than record \d+: (.*?); the log is",
                                  self.said)
        self.line, self.notes = "", ""


def check(vataudit, outcome):
    """What the audit says of the conversation: its line, and its notes."""
    if not os.path.exists(os.path.join(outcome.folder, "case.json")):
        return
    done = subprocess.run([vataudit, "check", "case.json"], cwd=outcome.folder, stdin=subprocess.DEVNULL,
                          stdout=subprocess.PIPE, stderr=subprocess.PIPE)
    outcome.line = done.stdout.decode("utf-8", "replace").strip()
    outcome.notes = done.stderr.decode("utf-8", "replace").strip()


def write_case(folder, vats, links):
    with open(os.path.join(folder, "case.json"), "w") as file:
        json.dump({"logs": ["vat%d.log" % vat for vat in range(1, vats + 1)], "links": [list(link) for link in links]}, file)
        file.write("\n")


def run(driver, vataudit, lines, folder, is_twin_wanted=True):
    """Runs the script recorded and unrecorded, and has it audited. What they wrote is in the folder, and beside it in
    the one with `.twin` behind."""
    recorded = driver.run(lines, folder)
    clear(folder + ".twin")
    if is_twin_wanted:
        plain = driver.twin().run(lines, folder + ".twin")
    else:
        plain = recorded
        os.symlink(os.path.abspath(folder), folder + ".twin")
    outcome = Outcome(lines, folder, recorded, plain)
    check(vataudit, outcome)
    return outcome
