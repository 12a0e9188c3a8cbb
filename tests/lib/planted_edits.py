"""Tries planted bugs: whether the prover refuses each in the function that it changes.

The edits of a crate that change functions which don't call one another are laid into one copy of it, and one
`rattle check --only` proves those functions, over the crates below. An edit is refused if the copy compiles
and a function that it changes isn't proved, by itself and not for one that it calls. Else what was found is said.
"""

import concurrent.futures
import itertools
import os
import re
import shutil
import signal
import subprocess
import sys
import tempfile
import threading

from edit_places import PARTS, Sources, functions_of

sys.path.insert(0, os.path.dirname(os.path.realpath(shutil.which("rt") or sys.exit("there is no rt on PATH"))))
import rtlib  # noqa: E402

REFUSED = "refused"
PROVED = "NOT REFUSED: the function that it changes is still proved"
CALLEE = "refused only for a function that it calls, which says nothing of its own"
LOST = "refused only because a proof names what the edit took away: change a value and keep the names"
UNTOLD = "the prover gave no verdict"
# The memory that a check is given, in GB.
CHECK_GB = 4
# What a line says of a function that isn't proved for another's sake.
FOR_ANOTHER = re.compile(r"it calls|it passes|a call of")
LOST_NAME = re.compile(r"has no field|is not in scope|has no `|was not admitted")
FUNCTION_LINE = re.compile(r"fn (\S+): (proved|not proved|no proof|could not tell)(.*)")


def jobs_by_memory():
    """As many checks at once as there are processors, if each can have its memory."""
    with open("/proc/meminfo", encoding="ascii") as it:
        found = re.search(r"MemAvailable: *(\d+) kB", it.read())
    return max(1, min(len(os.sched_getaffinity(0)), int(found[1]) // (CHECK_GB << 20) if found else 1))


class Room:
    """A folder for what the checks of a run need, and what of it they keep for one another."""

    def __init__(self, folder):
        self.folder, self.own, self.count = folder, threading.local(), itertools.count()
        # (these words begin each check, which then ends with this program, however it ends)
        self.guard = rtlib.guarded()

    def kept(self):
        """Flags for a check: what it proves of the crates below, the later checks of the same thread take from there."""
        if not hasattr(self.own, "folder"):
            self.own.folder = f"{self.folder}/kept{next(self.count)}"
            os.mkdir(self.own.folder)
        return ["--incremental", self.own.folder]


class Trial:
    """The edits of one crate, and how they are tried. `done` is told of each edit what was found."""

    def __init__(self, root, name, room, done, is_built):
        self.name, self.room, self.done, self.folder = name, room, done, f"{root}/crates/{name}"
        self.sources = Sources(self.folder)
        self.crate = rtlib.Crate(self.folder, root, {})
        # The crates below are taken as they were built, where all of them are as they were then, or the caller knows that they
        # are; and else from their sources.
        self.from_sources = not all(os.path.isdir(it.rlib) if is_built else it.is_built() for it in self.crate.below())

    def copies(self, edits):
        """Says of each edit that can't be laid why, and sorts the others into copies: in one, no edit changes a function that
        another's function calls, directly or not. A copy has its edits with the functions that they change."""
        copies = []
        for edit in edits:
            why = edit.lay(self.folder, {})
            if why:
                self.done(edit, f"doesn't apply: {why}")
                continue
            changed = self.sources.changed(edit)
            if changed is None:
                # It changes a definition, so any function may be meant.
                copies.append([(edit, set(self.sources.functions), None)])
                continue
            reached = self.sources.reached(changed)
            for copy in copies:
                if all(it[2] is not None and not it[1] & reached and not changed & it[2] for it in copy):
                    copy.append((edit, changed, reached))
                    break
            else:
                copies.append([(edit, changed, reached)])
        return [{edit: changed for edit, changed, _ in copy} for copy in copies]

    def try_copy(self, copy):
        """Tries the edits of a copy at once, and one by one those of which that didn't tell enough."""
        texts, laid, apart = {}, {}, {}
        for edit, changed in copy.items():
            (apart if edit.lay(self.folder, texts) else laid)[edit] = changed
        status, lines = self.check(texts, laid)
        ended = any(it.startswith(("only=", "rattle: no verdict")) for it in lines)
        if not ended or any(is_unread(it, texts) for it in lines):
            self.not_compiled(laid, texts, status, lines, apart)
        else:
            for edit, changed in laid.items():
                found = self.verdict(changed, lines)
                if len(laid) > 1 and found not in (REFUSED, PROVED):
                    apart[edit] = changed
                else:
                    self.done(edit, found)
        for edit, changed in apart.items():
            self.try_copy({edit: changed})

    def not_compiled(self, laid, texts, status, lines, apart):
        """Where a copy got no verdict: of one edit, says so; of several, tries the others without those that are to blame."""
        if len(laid) == 1:
            self.done(*laid, unchecked(status, lines))
            return
        wrong = {edit for edit, changed in laid.items() if self.is_blamed(changed, texts, lines)}
        others = {edit: changed for edit, changed in laid.items() if edit not in wrong}
        apart.update({edit: laid[edit] for edit in wrong})
        if not wrong or not others:
            apart.update(laid)
        else:
            self.try_copy(others)

    def is_blamed(self, changed, texts, lines):
        """Whether an error of the front end stands in one of these functions, as the edits left them."""
        for file, line in (it.groups() for it in map(re.compile(r"(?:\./)?(src/\S+\.rt):(\d+):\d+: error").match, lines) if it):
            for it in functions_of(file, texts.get(file) or self.sources.text(file), self.sources.homes):
                if it.first < int(line) <= it.last + 1 and it.name in {one.name for one in changed}:
                    return True
        return False

    def check(self, texts, laid):
        """Checks the changed functions in a copy of the crate that has these texts: the status, and the lines."""
        asked = {it.name: it.module for changed in laid.values() for it in changed}
        with tempfile.TemporaryDirectory(dir=self.room.folder) as copy:
            for part in PARTS:
                if os.path.isdir(f"{self.folder}/{part}"):
                    shutil.copytree(f"{self.folder}/{part}", f"{copy}/{part}")
            for file, text in texts.items():
                with open(f"{copy}/{file}", "w", encoding="utf-8") as it:
                    it.write(text)
            while True:
                flags = ["--jobs", "1", *self.room.kept(), *(word for it in sorted(asked) for word in ("--only", it))]
                words = [rtlib.RATTLE, "check", *self.crate.words(flags, as_source=self.from_sources)]
                how = {"stdin": subprocess.DEVNULL, "stdout": subprocess.PIPE, "stderr": subprocess.STDOUT}
                ran = subprocess.run([*self.room.guard, *words], cwd=copy, text=True, errors="replace", **how)
                lines = ran.stdout.rstrip("\n").split("\n")
                unknown = next((it[1] for it in map(re.compile(r".* has no function `(\S+)`").match, lines) if it), None)
                if not asked.get(unknown):
                    return ran.returncode, lines
                # A check gives this function another name, so all of its module is checked.
                asked[asked.pop(unknown)] = None

    def verdict(self, changed, lines):
        """What the lines of a check say of the functions that an edit changes."""
        said, goals = [], []
        for line in lines:
            head = FUNCTION_LINE.match(line)
            if head:
                said.append((head, goals))
                goals = []
            else:
                goals.append(line)
        found = [self.said_of(*it, lines) for it in said if any(is_of(it[0][1], one) for one in changed)]
        # (an impl whose name isn't known)
        found = found or [self.said_of(*it, lines) for it in said if any(may_be_of(it[0][1], one) for one in changed)]
        for it in (REFUSED, LOST, CALLEE, UNTOLD, PROVED):
            if it in found:
                return it
        return "no line of the check is of the function that it changes"

    def said_of(self, head, goals, lines):
        if head[2] == "proved":
            return PROVED
        if head[2] == "could not tell":
            return UNTOLD
        if FOR_ANOTHER.search(head[3]):
            return CALLEE
        *above, own = head[1].split("::")[1:]
        file = rf"(note: )?(\./)?proofs/{re.escape('/'.join([*above, '']))}(\+\w+|{re.escape(own)})/\S+:\d+:\d+: "
        told = [it for it in lines if re.match(file, it) and ": note: " not in it]
        told += [it for it in goals if it.startswith("note: ") and it not in told]
        return LOST if told and all(LOST_NAME.search(it) for it in told) else REFUSED


def is_of(name, function):
    """Whether the line of this name is of the function, or of a closure or a function within it."""
    own = function.name.split("::")
    return words_of(name)[: len(own)] == own


def may_be_of(name, function):
    own = function.module.split("::") if function.module else []
    return words_of(name)[: len(own)] == own and function.word in words_of(name)


def is_unread(line, texts):
    """Whether the prover couldn't read an edited text, or one of src or specs, where a bug only makes a statement false."""
    at = re.match(r"(?:\./)?(\S+?):\d+:\d+: error: (?:(`[^`]*`): )?(.*)", line)
    if not at or at[1] not in texts and not at[1].startswith(("src/", "specs/")):
        return False
    said = re.sub(r"`[^`]*`", "", at[3])
    return not at[2] or bool(re.search(r"is not in scope|has no field|is no name|operand is missing|expected the end|cannot continue", said))


def words_of(name):
    return [it for it in name.split("::")[1:] if it != "fn"]


def unchecked(status, lines):
    """Why a check said nothing of its functions."""
    if status == -signal.SIGKILL:
        return "not tried: its check was killed, most likely for memory"
    errors = [it for it in lines if re.search(r"\berror\b", it)]
    if status == 1 and errors:
        return f"doesn't compile: {errors[0][:300]}"
    return "\n    ".join([f"not tried: its check ended with status {status}", *(errors or lines)[:5]])


def try_all(root, edits, jobs, done, is_built=False):
    """Tries the edits, as many checks at once as `jobs`, and tells `done` of each edit what was found, one at a time. With
    `is_built` the libraries that stand in out/ are those of the sources. Returns the number of copies."""
    lock, by_crate = threading.Lock(), {}
    for edit in edits:
        by_crate.setdefault(edit.crate, []).append(edit)

    def say(edit, found):
        with lock:
            done(edit, found)

    tasks = []
    with tempfile.TemporaryDirectory(prefix=f"edits-{os.getpid()}-") as folder:
        room = Room(folder)
        for name, own in by_crate.items():
            if not os.path.isdir(f"{root}/crates/{name}/src"):
                for edit in own:
                    say(edit, f"doesn't apply: there is no crate {name}")
                continue
            trial = Trial(root, name, room, say, is_built)
            tasks += [(trial, copy) for copy in trial.copies(own)]
        try:
            with concurrent.futures.ThreadPoolExecutor(max_workers=jobs) as pool:
                for it in [pool.submit(trial.try_copy, copy) for trial, copy in tasks]:
                    it.result()
        except KeyboardInterrupt:
            shutil.rmtree(folder, ignore_errors=True)
            os._exit(130)
    return len(tasks)
