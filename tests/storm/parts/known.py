"""What is known, by kind and by what the unrecorded twin does: known.txt."""

import os
import re

from .judge import are_exchanged, came_overtaken, differences, overtaken
from .lives import is_resolved_when_released
from .trees import is_named_as_hosted

FOLDER = os.path.dirname(os.path.dirname(os.path.realpath(__file__)))


class Known:
    """A line of known.txt: its name, whose it is, the versions, how the twin shows it, and how the kind begins."""

    def __init__(self, line):
        self.name, self.whose, versions, self.twin, self.kind = [part.strip() for part in line.split("|", 4)]
        self.versions = versions.split()

    def fits(self, kind, version, outcome):
        return fits(self.kind + "*", kind) and version in self.versions and self.is_shown(outcome)

    def is_shown(self, outcome):
        """A fault counts as the runtime's only where the unrecorded run shows it too."""
        if self.twin == "overtaken":
            return bool(overtaken(outcome.twin_trace)) or came_overtaken(outcome) and not differences(outcome)
        if self.twin.startswith("says "):
            text = self.twin[5:]
            frames = b"".join(outcome.twin_frames.values())
            return any(text in line for line in outcome.twin_trace) or text.encode() in frames or text in outcome.twin_said
        if self.twin == "named as hosted":
            # A program that panicked may not have written what it handed over last.
            is_cut = outcome.twin_ended != "ok" and not differences(outcome)
            return is_cut or any(map(is_named_as_hosted, outcome.twin_frames.values()))
        if self.twin == "exchanged":
            return are_exchanged(outcome.twin_frames, outcome.twin_trace)
        if self.twin == "resolved when released":
            return is_resolved_when_released(outcome.twin_frames, outcome.twin_orders)
        return self.twin == "same frames" and not differences(outcome) and outcome.frames != {}


def read(path=os.path.join(FOLDER, "known.txt")):
    with open(path) as file:
        return [Known(line) for line in file if line.strip() and not line.startswith("#")]


def name_of(known, kinds, version, outcome):
    """The known thing of which an outcome's kinds all are, or None where one of them is new."""
    found = [next((each for each in known if each.fits(kind, version, outcome)), None) for kind in kinds]
    return None if None in found else found[0].name


def fits(wanted, printed):
    """Whether a line is the one that was expected, in which a * stands for numbers and what else follows."""
    pattern = re.escape(wanted).replace(r"\*", ".*")
    return re.fullmatch(pattern, printed) is not None


def expected():
    """What each script under scripts/ has to print: (script, version) and the line, what the twin shows, and what `wire`
    says, if that is told."""
    result = {}
    with open(os.path.join(FOLDER, "scripts", "expected.txt")) as file:
        for line in file:
            if line.strip() and not line.startswith("#"):
                name, versions, printed, shown, *wired = [part.strip() for part in line.split("|")]
                for version in versions.split():
                    result[(name, version)] = (printed, shown, wired[0] if wired else None)
    return result
