"""What `vataudit wire` says of the connections of a run, beside what `check` says of its logs."""

import json
import os
import subprocess

from .judge import shape


def verdicts(vataudit, folder):
    """The line for each connection, by the bytes that the recorded run wrote at its two ends."""
    with open(os.path.join(folder, "case.json")) as file:
        links = json.load(file)["links"]
    lines = []
    for connection, one, other in links:
        files = ["link%d.vat%d" % (connection, vat) for vat in (one, other)]
        done = subprocess.run([vataudit, "wire"] + files, cwd=folder, stdin=subprocess.DEVNULL,
                              stdout=subprocess.PIPE, stderr=subprocess.PIPE)
        lines.append(done.stdout.decode("utf-8", "replace").strip() or "nothing")
    return lines


def worst(lines):
    """The first line that isn't a yes."""
    return next((line for line in lines if not line.startswith("yes")), "yes")


def compared(kinds, name, lines):
    """A row of the comparison: what the logs are, and what the worst connection is by its bytes. What is known goes by
    its name, and an end of the program by that."""
    logs = name or (kinds[0].split(":")[0] if kinds else "yes")
    line = worst(lines)
    return logs, line if line == "yes" else shape(line).replace(" end A", "").replace(" end B", "")


def is_found(outcome, lines):
    """Whether the logs are good, and a connection isn't."""
    return outcome.line.startswith("yes") and any(line.startswith("no ") for line in lines)
