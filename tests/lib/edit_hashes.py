"""Hashes of planted bugs: of an edit, and of all on which its refusal rests.

These are the edit, the sources, specs and proofs of its crate and of all crates of the repository below that, their lines of
crates.txt, and the kit. Where hashes are bare, comments and layout don't count, nor does where a file or a name stands, and of
the kit its logic alone counts. A file of hashes has a line for each edit: its hash and its path.
"""

import hashlib
import os
import re
import subprocess

from edit_places import PARTS, read


class Hashes:
    """The hashes of edits as the repository is now."""

    def __init__(self, root, are_bare=False):
        self.root, self.known, self.are_bare = root, {}, are_bare
        kit = subprocess.run(["rt", "version"], capture_output=True, text=True, check=True).stdout.strip()
        self.kit = kit.partition(" ")[2] if are_bare else kit
        self.below, self.lines = {}, {}
        for line in read(f"{root}/crates.txt").split("\n"):
            name, colon, below = line.partition("#")[0].partition(":")
            if colon:
                self.below[name.strip()], self.lines[name.strip()] = below.split(), " ".join(line.split())

    def under(self, crate):
        """The crate, and the crates of the repository below it."""
        found, left = set(), [crate]
        while left:
            name = left.pop()
            if name in self.below and name not in found:
                found.add(name)
                left += self.below[name]
        return sorted(found)

    def of_crate(self, name):
        """The hash of what stands in a crate's folder, and of its line in crates.txt."""
        if name not in self.known:
            found = self.bare_texts(name) if self.are_bare else self.whole_files(name)
            self.known[name] = sum_of("\n".join([self.lines[name], *found]))
        return self.known[name]

    def files_of(self, name):
        """The paths of a crate's files that a proof reads."""
        for part in PARTS:
            for at, folders, names in os.walk(f"{self.root}/crates/{name}/{part}"):
                folders.sort()
                yield from (f"{at}/{it}" for it in sorted(names) if it.endswith((".rt", ".antt")))

    def whole_files(self, name):
        return [f"{os.path.relpath(it, self.root)} {sum_of(read(it))}" for it in self.files_of(name)]

    def bare_texts(self, name):
        return sorted(filter(None, (bare(read(it), it.endswith(".antt")) for it in self.files_of(name))))

    def of(self, edit):
        words = [self.kit, edit.path, edit.text, *(f"{it} {self.of_crate(it)}" for it in self.under(edit.crate))]
        return sum_of("\n".join(words))


def sum_of(text):
    return hashlib.sha256(text.encode()).hexdigest()


def bare(text, is_spec):
    """A file less its comments, blanks, and the lines that only say where a file or a name stands."""
    lines = [re.sub(r"--.*" if is_spec else r"//.*", "", line).strip() for line in text.split("\n")]
    joined = re.sub(r"\{\n([^{}]*)\}", r"{ \1 }", "\n".join(line for line in lines if line))
    return "\n".join(line for line in joined.split("\n") if not re.match(r"(pub(\([a-z]+\))? )?(ghost )?(mod|use) ", line))


def written(file):
    """The hashes that a file has, by the paths of edits."""
    try:
        lines = read(file).split("\n")
    except OSError:
        return {}
    return {path: own for own, _, path in (it.partition("  ") for it in lines) if path}


def write(file, hashes):
    """Writes the file anew, whole or not at all."""
    with open(f"{file}.new", "w", encoding="utf-8") as it:
        it.write("".join(f"{own}  {path}\n" for path, own in sorted(hashes.items())))
    os.replace(f"{file}.new", file)
