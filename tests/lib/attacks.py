"""The planted bugs beside the gate: tests/attacks.sh says what it does."""

import argparse
import glob
import os
import resource
import sys

sys.dont_write_bytecode = True
from edit_hashes import Hashes, write, written  # noqa: E402
from edit_places import Edit  # noqa: E402

ROOT = os.path.realpath(f"{os.path.dirname(os.path.realpath(__file__))}/../..")
FILE = "attacks/hashes"


def edits_in(folder):
    return [Edit(ROOT, it) for it in sorted(glob.glob(f"{folder}/*/*.edit"))]


def apply():
    """Says of each edit that doesn't apply why. Returns the exit status."""
    edits, bad = [*edits_in("edits"), *edits_in("attacks")], 0
    for edit in edits:
        why = edit.lay(f"crates/{edit.crate}", {})
        if why:
            bad += 1
            print(f"{edit.path}: {why}")
    print(f"{len(edits) - bad} edits apply, {bad} don't")
    return 1 if bad or not edits else 0


class Attacks:
    """The edits of attacks/, and what is written of those that were refused."""

    def __init__(self):
        self.edits, self.hashes, self.known = edits_in("attacks"), Hashes(ROOT, are_bare=True), written(FILE)
        self.now = {it.path: self.hashes.of(it) for it in self.edits}

    def is_due(self, edit):
        return self.known.get(edit.path) != self.now[edit.path]

    def table(self):
        """Prints for each crate how many edits it has in the gate and here, and how many of these are due."""
        gate = edits_in("edits")
        print("| Crate | In the gate | In attacks/ | Due |\n|---|---|---|---|")
        for crate in self.hashes.lines:
            own = [it for it in self.edits if it.crate == crate]
            counts = [sum(it.crate == crate for it in gate), len(own), sum(map(self.is_due, own))]
            if any(counts):
                print(f"| {crate} | " + " | ".join(str(it or "") for it in counts) + " |")
        print(f"| all | {len(gate)} | {len(self.edits)} | {sum(map(self.is_due, self.edits))} |")

    def refused(self, edit):
        """Writes the hash of an edit that was refused, if nothing changed meanwhile; those of edits that are gone go."""
        if Hashes(ROOT, are_bare=True).of(edit) != self.now[edit.path]:
            print(f"{edit.path}: refused, but a file changed meanwhile, so its hash isn't written", flush=True)
            return
        self.known[edit.path] = self.now[edit.path]
        write(FILE, {path: own for path, own in self.known.items() if path in self.now})


def arguments():
    parser = argparse.ArgumentParser(usage="tests/attacks.sh [--jobs N] [--built] [--all] [CRATE..] | --due | --apply")
    for flag in ("--apply", "--due", "--all", "--built"):
        parser.add_argument(flag, action="store_true")
    parser.add_argument("--jobs", type=int, default=0)
    parser.add_argument("crates", nargs="*")
    return parser.parse_args()


def main():
    asked = arguments()
    os.chdir(ROOT)
    if asked.apply:
        return apply()
    attacks = Attacks()
    if asked.due:
        attacks.table()
        return 0
    chosen = [it for it in attacks.edits if not asked.crates or it.crate in asked.crates]
    none = [it for it in asked.crates if it not in {edit.crate for edit in chosen}]
    print("".join(f"attacks/{it}: no edits there\n" for it in none), end="")
    tried = [it for it in chosen if asked.all or attacks.is_due(it)]
    return report(attacks, tried, asked.jobs, asked.built, len(none))


def report(attacks, edits, jobs, is_built, told):
    # (what the kit has is needed only here)
    from planted_edits import REFUSED, jobs_by_memory, try_all

    counts = {True: 0, False: told}

    def done(edit, said):
        counts[said == REFUSED] += 1
        if said == REFUSED:
            attacks.refused(edit)
        else:
            print(f"{edit.path}: {said}", flush=True)

    copies = try_all(ROOT, edits, jobs or jobs_by_memory(), done, is_built)
    used = resource.getrusage(resource.RUSAGE_CHILDREN)
    print(f"{copies} copies, {round(used.ru_utime + used.ru_stime)} processor seconds")
    print(f"{counts[True]} refused, {counts[False]} to look at")
    return 1 if counts[False] else 0


if __name__ == "__main__":
    sys.exit(main())
