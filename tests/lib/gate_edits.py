"""The gate's planted bugs: tests/edits.sh says what it does."""

import argparse
import glob
import os
import random
import resource
import sys

sys.dont_write_bytecode = True
from edit_hashes import Hashes, write, written  # noqa: E402
from edit_places import Edit  # noqa: E402
from planted_edits import REFUSED, jobs_by_memory, try_all  # noqa: E402

ROOT = os.path.realpath(f"{os.path.dirname(os.path.realpath(__file__))}/../..")
OTHERS = 3
FILE = "edits/hashes"


def arguments():
    parser = argparse.ArgumentParser(usage="tests/edits.sh [--jobs N] [--built] [--all | --hashes | --write] [CRATE..]")
    for flag in ("--built", "--all", "--hashes", "--write"):
        parser.add_argument(flag, action="store_true")
    parser.add_argument("--jobs", type=int, default=0)
    parser.add_argument("crates", nargs="*")
    asked = parser.parse_args()
    if asked.hashes and (asked.all or asked.write or asked.crates):
        parser.error("--hashes stands alone")
    return asked


def chosen(asked, edits, stale):
    """The edits that are tried."""
    if asked.hashes:
        return []
    if asked.all or asked.crates and not asked.write:
        return edits
    others = [it for it in edits if it not in stale] if not asked.write else []
    drawn = random.sample(others, min(OTHERS, len(others)))
    if drawn:
        print("drawn, though their hashes fit: " + ", ".join(it.path for it in drawn), flush=True)
    return [*stale, *drawn]


def main():
    asked = arguments()
    os.chdir(ROOT)
    edits = [Edit(ROOT, it) for it in sorted(glob.glob("edits/*/*.edit")) if not asked.crates or it.split("/")[1] in asked.crates]
    unknown = [it for it in asked.crates if it not in {edit.crate for edit in edits}]
    hashes, known = Hashes(ROOT), written(FILE)
    now = {it.path: hashes.of(it) for it in edits}
    stale = [it for it in edits if known.get(it.path) != now[it.path]]
    found, wrong = {}, [f"{it}: no edit is there" for it in unknown]

    def done(edit, said):
        found[edit.path] = said
        if said != REFUSED:
            print(f"{edit.path}: {said}", flush=True)
        elif edit in stale and not asked.write:
            print(f"{edit.path}: refused; its hash is to be written (tests/edits.sh --write)", flush=True)
        elif asked.write and Hashes(ROOT).of(edit) != now[edit.path]:
            print(f"{edit.path}: refused, but a file changed meanwhile, so its hash isn't written", flush=True)
        elif asked.write and edit in stale:
            known[edit.path] = now[edit.path]
            write(FILE, known)

    tried = chosen(asked, edits, stale)
    copies = try_all(ROOT, tried, asked.jobs or jobs_by_memory(), done, asked.built)
    for it in stale:
        if it.path not in found:
            print(f"{it.path}: its hash doesn't fit, and it wasn't tried", flush=True)
    gone = [it for it in known if not os.path.isfile(it)]
    if gone and asked.write:
        known = {path: own for path, own in known.items() if path not in gone}
        write(FILE, known)
    elif not asked.crates:
        wrong += [f"{FILE} names {it}, which isn't there" for it in gone]
    wrong += [] if edits else ["there are no edits"]
    print("\n".join(wrong) + "\n" * bool(wrong), end="")
    passed = sum(found[it.path] == REFUSED if it.path in found else it not in stale for it in edits)
    failed = len(edits) - passed + len(wrong)
    used = resource.getrusage(resource.RUSAGE_CHILDREN)
    print(f"{len(found)} edits tried in {copies} copies, {round(used.ru_utime + used.ru_stime)} processor seconds")
    print(f"{passed} passed, {failed} failed")
    return 1 if failed else 0


if __name__ == "__main__":
    sys.exit(main())
