"""What a user can have done: run seeds, shrink, run one script, replay the known ones, find the planted faults."""

import collections
import concurrent.futures
import contextlib
import os
import shutil
import subprocess
import tempfile

from . import judge, known, run, script, shrink, wire

PLANTS = ("exchange", "embargo", "release")


def driver_of(arguments, plant=None):
    programs = [os.path.abspath(program) for program in arguments.driver.split(",")]
    plant = plant or arguments.plant
    return run.Driver(programs, arguments.processes, ["--plant", plant] if plant else [])


def swapped(driver, seed):
    """Of a mixed pair each program is now the one side, now the other."""
    if len(driver.programs) < 2 or seed % 2 == 0:
        return driver
    return run.Driver(driver.programs[::-1], True, driver.flags)


def versions_of(driver):
    """As `0.9.2`, or as `0.9.2-1.1.0` for a mixed pair."""
    versions = [subprocess.run([program, "--version"], stdout=subprocess.PIPE).stdout.decode().strip()
                for program in driver.programs]
    return "-".join(versions)


@contextlib.contextmanager
def place_of(arguments):
    """The folder of the runs: one that is kept, or one that is gone afterwards."""
    place = arguments.keep or tempfile.mkdtemp(prefix="storm")
    os.makedirs(place, exist_ok=True)
    try:
        yield place
    finally:
        if not arguments.keep:
            shutil.rmtree(place, ignore_errors=True)


def first_line(text):
    return text.splitlines()[0] if text else "-"


def lines_of(path):
    with open(path) as file:
        return script.legal(script.parse(file.read()))


# ------------------------------------------------------------------------------ run

def judged(driver, vataudit, lines, folder, things, version):
    """The outcome of a script, its kinds, and the known thing that they are, if they are one."""
    outcome = run.run(driver, vataudit, lines, folder)
    kinds = judge.kinds_of(outcome)
    name = known.name_of(things, kinds, version, outcome) if kinds else None
    if kinds and name is None and not judge.are_numbered(lines):
        # Calls that are alike can't be told apart in a trace: the same script with a number for each may show more.
        again = run.run(driver, vataudit, judge.numbered(lines), folder + ".numbered")
        if kinds == judge.kinds_of(again):
            name = known.name_of(things, kinds, version, again)
        run.clear(folder + ".numbered")
        run.clear(folder + ".numbered.twin")
    return outcome, kinds, name


def run_seeds(arguments):
    """Runs the scripts of some seeds; status 0 if nothing is new."""
    driver, things = driver_of(arguments), known.read()
    version = versions_of(driver)
    counts, shapes, wired = collections.Counter(), collections.Counter(), collections.Counter()

    def one(place, seed):
        folder = os.path.join(place, str(seed))
        outcome, kinds, name = judged(swapped(driver, seed), arguments.vataudit, script.generate(seed), folder, things,
                                      version)
        lines = wire.verdicts(arguments.vataudit, folder) if arguments.wire else []
        if lines:
            wired["%s | %s" % wire.compared(kinds, name, lines)] += 1
        if wire.is_found(outcome, lines):
            kinds, name = kinds + ["logs yes, and a wire " + "; ".join(lines)], None
        if not kinds or not arguments.keep:
            run.clear(folder)
            run.clear(folder + ".twin")
        return seed, first_line(outcome.line), kinds, name

    with place_of(arguments) as place, concurrent.futures.ThreadPoolExecutor(arguments.jobs) as pool:
        for seed, line, kinds, name in pool.map(lambda seed: one(place, seed), arguments.seeds):
            whose = next((thing.whose for thing in things if thing.name == name), "new") if kinds else "yes"
            counts[whose] += 1
            if kinds:
                shapes["%s: %s" % (name or "new", kinds[0])] += 1
                print("seed %d %s | %s | %s" % (seed, line, name or "new", " | ".join(kinds)), flush=True)
    for kind, count in shapes.most_common():
        print("%6d %s" % (count, kind))
    for pair, count in wired.most_common():
        print("%6d logs %s" % (count, pair.replace(" | ", " | wire ")))
    print("capnp %s seeds %d yes %d runtime %d disclosed %d new %d" % (
        version, len(arguments.seeds), counts["yes"], counts["runtime"], counts["disclosed"], counts["new"]))
    return 1 if counts["new"] else 0


# ------------------------------------------------------------------------------ shrink

def shrunk(driver, vataudit, lines, kind, place):
    """The smallest script of a kind, and what check says of it."""
    is_twin_wanted = not kind.startswith(("no rule", "stopped"))
    folder = os.path.join(place, "smaller")

    def shows(smaller):
        return kind in judge.kinds_of(run.run(driver, vataudit, script.legal(smaller), folder, is_twin_wanted))

    lines = script.legal(shrink.shrink(lines, shows) if shows(lines) else lines)
    return lines, run.run(driver, vataudit, lines, folder)


def shrink_one(arguments):
    """Makes the script of a seed, or of a file, as small as it gets while it shows the same kind."""
    driver = driver_of(arguments)
    if arguments.seed is not None:
        lines, driver = script.generate(arguments.seed), swapped(driver, arguments.seed)
    else:
        lines = lines_of(arguments.script)
    with place_of(arguments) as place:
        kinds = judge.kinds_of(run.run(driver, arguments.vataudit, lines, os.path.join(place, "first")))
        kinds = [kind for kind in kinds if kind.startswith(arguments.kind or "")]
        if not kinds:
            print("nothing to shrink: all is well")
            return 1
        lines, outcome = shrunk(driver, arguments.vataudit, lines, kinds[0], place)
        print("# " + kinds[0])
        print("# " + first_line(outcome.line))
        print(script.show(lines), end="")
    return 0


# ------------------------------------------------------------------------------ one, replay

def run_one(arguments):
    """Runs one script, and prints what came of it."""
    with place_of(arguments) as place:
        outcome = run.run(driver_of(arguments), arguments.vataudit, lines_of(arguments.script), place)
        print(outcome.line or "-")
        if outcome.notes:
            print(outcome.notes)
        for kind in judge.kinds_of(outcome):
            print("kind: " + kind)
        for reference, thing, first, second in judge.overtaken(outcome.twin_trace):
            print("overtaken: through %s, %s got %s before %s" % (reference, thing, second, first))
    return 0


def what_is_shown(outcome):
    """What a script shows in its twin, as expected.txt has it."""
    if judge.differences(outcome):
        return "differs"
    if outcome.twin_ended != "ok":
        return outcome.twin_ended
    if judge.overtaken(outcome.twin_trace):
        return "overtaken"
    return "lost" if judge.is_lost(outcome.twin_trace) else "-"


def replay(arguments):
    """Runs the scripts, and compares with scripts/expected.txt; status 0 if all is as expected."""
    driver, wanted, differ = driver_of(arguments), known.expected(), 0
    version = versions_of(driver)
    names = arguments.names or sorted({name for name, each in wanted if each == version})
    with place_of(arguments) as place:
        for name in names:
            path = os.path.join(known.FOLDER, "scripts", name + ".storm")
            outcome = run.run(driver, arguments.vataudit, lines_of(path), os.path.join(place, name))
            printed = [first_line(outcome.line), what_is_shown(outcome)]
            told = list(wanted.get((name, version), ("nothing", "-", None)))
            if arguments.wire and told[2]:
                printed.append(wire.worst(wire.verdicts(arguments.vataudit, outcome.folder)))
            told = told[:len(printed)]
            is_so = all(map(known.fits, told, printed))
            differ += not is_so
            print(" | ".join(["%s %s" % (name, version)] + printed + ([] if is_so else ["expected"] + told)))
    print("scripts %d as expected %d" % (len(names), len(names) - differ))
    return 1 if differ or not names else 0


# ------------------------------------------------------------------------------ planted faults

def find_plants(arguments):
    """Finds each planted fault within the seeds, and shrinks it; status 0 if each has at most 8 lines."""
    missed = 0
    for plant in PLANTS:
        driver = driver_of(arguments, plant)
        sound = run.Driver(driver.programs, driver.is_by_protocol, [])
        with place_of(arguments) as place:
            found = None
            for seed in arguments.seeds:
                lines = script.generate(seed)
                kinds = judge.kinds_of(run.run(driver, arguments.vataudit, lines, os.path.join(place, "first"), False))
                kinds = [kind for kind in kinds if kind.startswith("no rule")]
                if kinds and not judge.kinds_of(run.run(sound, arguments.vataudit, lines, os.path.join(place, "sound"), False)):
                    found = seed
                    break
            if found is None:
                print("plant %s not found in %d seeds" % (plant, len(arguments.seeds)))
                missed += 1
                continue
            lines, outcome = shrunk(driver, arguments.vataudit, lines, kinds[0], place)
            missed += len(lines) > 8
            print("plant %s found by seed %d lines %d: %s" % (plant, found, len(lines), first_line(outcome.line)))
            print(script.show(lines), end="", flush=True)
    return 1 if missed else 0
