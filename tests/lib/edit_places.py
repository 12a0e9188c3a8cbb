"""Planted bugs as text: reads edits, lays them into a crate, and finds the functions in which they stand.

An edit is a file of lines `file: PATH`, `old: TEXT` and `new: TEXT`; all its other lines are remarks. Each `old` must stand
just once in its file. Code is laid out by `rt fmt`, so a function ends at the first `}` below it that is indented as it is.
"""

import os
import re

PARTS = ("src", "specs", "proofs")
FUNCTION = re.compile(r"( *)(?:pub(?:\([a-z: ]+\))? )?(?:(?:const|unsafe|final) )*fn (\w+)")
TYPE = re.compile(r"(?m)^(?:pub(?:\([a-z: ]+\))? )?(?:struct|enum) (\w+)")
BLOCK = re.compile(r"(?:pub(?:\([a-z: ]+\))? )?(?:unsafe )?(?:impl|trait)\b")


class Edit:
    """An edit: its path in the repository, its crate, and the pairs of texts by file."""

    def __init__(self, root, path):
        self.path, self.crate, self.changes, self.fault = path, path.split("/")[1], [], None
        file = old = None
        with open(f"{root}/{path}", encoding="utf-8") as it:
            self.text = it.read()
        for line in self.text.split("\n"):
            if line.startswith("file: "):
                file = line[len("file: ") :].strip()
            elif line.startswith("old: "):
                old = line[len("old: ") :]
            elif line.startswith("new:"):
                if not file or not old:
                    self.fault = "a `new:` line stands before any `file:` or `old:` line"
                    return
                self.changes.append((file, old, re.sub(r"\A ", "", line[len("new:") :])))
                old = None
        if not self.changes:
            self.fault = "it has no pair of `old:` and `new:`"

    def lay(self, folder, texts):
        """Changes `texts`, which holds files of the crate by path, and reads those that it lacks. Says why it can't, or None."""
        if self.fault:
            return self.fault
        laid = {}
        for file, old, new in self.changes:
            if os.path.normpath(file) != file or file.split("/")[0] not in PARTS:
                return f"{file} is no file of src, specs or proofs"
            if file not in laid:
                try:
                    laid[file] = texts[file] if file in texts else read(f"{folder}/{file}")
                except OSError:
                    return f"there is no {file}"
            if laid[file].count(old) != 1:
                return f"what it looks for is in {file} {laid[file].count(old)} times: {old}"
            laid[file] = laid[file].replace(old, new)
        if all(laid[file] == (texts[file] if file in texts else read(f"{folder}/{file}")) for file in laid):
            return "it changes nothing"
        texts.update(laid)
        return None


def read(file):
    with open(file, encoding="utf-8") as it:
        return it.read()


class Function:
    """A function: its name as a check prints it (without the crate's), and its first and last line, from 0."""

    def __init__(self, name, module, first, last, text):
        self.name, self.module, self.first, self.last, self.text = name, module, first, last, text
        self.word = name.rsplit("::", 1)[-1]

    def calls(self):
        """The words in its body that may name a function that it calls."""
        lines = self.text.split("\n")
        indent = re.match(" *", lines[0])[0]
        opened = lines.index(f"{indent}{{") if f"{indent}{{" in lines else 0
        body = re.sub(r'"(?:\\.|[^"\\])*"|//.*', "", "\n".join(lines[opened:]))
        body = body if opened else body.replace(f"fn {self.word}", "", 1)
        return set(re.findall(r"\b([a-z_]\w*)(?=\s*(?:\(|::<|[,)]))", body))


def module_of(file):
    words = file[len("src/") : -len(".rt")].split("/")
    return "::".join(words[:-1] if words[-1] in ("lib", "main", "mod") else words)


def owner_of(head):
    """The name that a check gives the impl or trait with this head: of `impl<T> From<A<T>> for B` it is `BFromA`."""
    head = head.split("{")[0].split(" where ")[0].strip()
    head = re.sub(r"^(pub(\([a-z: ]+\))? )?(unsafe )?", "", head)
    generics = ""
    if head.startswith("impl<"):
        end = closing(head, len("impl"))
        generics, head = head[len("impl<") : end], "impl" + head[end + 1 :]
    head = re.sub(r"^(impl|trait) ", "", head)
    own = set(re.findall(r"(?:^|, *)(?:const )?(\w+)", generics))
    what, _, of = head.partition(" for ")
    names = [it for it in re.findall(r"(?<!['\w])(\w+)(?!\w|::)", f"{of} {what}") if it not in own | {"mut", "dyn", "const", "as", "_"}]
    return "".join(names) if of else re.match(r"(?:\w+::)*(\w*)", head)[1]


def closing(text, at):
    depth = 0
    for place in range(at, len(text)):
        depth += (text[place] == "<") - (text[place] == ">" and text[place - 1] not in "-=")
        if depth == 0:
            return place
    return len(text) - 1


def functions_of(file, text, homes):
    """The functions of a source file, in its order; a function that stands within another counts as part of that. `homes` has
    the modules of the crate's types: a check names a type's own methods by where the type stands."""
    module, lines, found, owner, past = module_of(file), text.split("\n"), [], "", 0
    for number, line in enumerate(lines):
        if BLOCK.match(line):
            owner = owner_of(" ".join(lines[number : number + 8]))
        elif line == "}":
            owner = ""
        head = FUNCTION.match(line)
        if not head or number < past:
            continue
        last = end_of(lines, number, head[1])
        name = "::".join(it for it in (homes.get(owner, module), owner, head[2]) if it)
        found.append(Function(name, module, number, last, "\n".join(lines[number : last + 1])))
        past = last + 1
    return found


def end_of(lines, first, indent):
    for number in range(first, len(lines)):
        line = lines[number]
        if line == f"{indent}}}" or re.fullmatch(rf"{indent}\S.*\{{\}}|{indent}\{{\}}", line):
            return number
        if number > first and line.strip() and (not line.startswith(indent) or FUNCTION.match(line) and FUNCTION.match(line)[1] == indent):
            return number - 1
    return len(lines) - 1


class Sources:
    """The sources of a crate: its functions by file, and which call which, as far as the text tells."""

    def __init__(self, folder):
        self.folder, self.homes, texts = folder, {}, {}
        for at, folders, names in os.walk(f"{folder}/src"):
            folders.sort()
            for name in sorted(it for it in names if it.endswith(".rt")):
                file = os.path.relpath(f"{at}/{name}", folder)
                texts[file] = self.text(file)
                for it in TYPE.findall(texts[file]):
                    self.homes[it] = module_of(file)
        self.files = {file: functions_of(file, text, self.homes) for file, text in texts.items()}
        self.functions = [it for found in self.files.values() for it in found]
        self.by_word = {}
        for it in self.functions:
            self.by_word.setdefault(it.word, []).append(it)
        self.calls = {it: {other for word in it.calls() for other in self.by_word.get(word, [])} for it in self.functions}

    def text(self, file):
        return read(f"{self.folder}/{file}")

    def reached(self, functions):
        """These functions, and all that they call, directly or not."""
        found, left = set(functions), list(functions)
        while left:
            for it in self.calls[left.pop()] - found:
                found.add(it)
                left.append(it)
        return found

    def changed(self, edit):
        """The functions that an edit changes: those in which its lines stand, and those that name a constant or a type that
        it changes outside of functions. None where it changes definitions, so that any function may be meant."""
        found = set()
        for file, old, _ in edit.changes:
            if file.startswith("specs/"):
                return None
            if file not in self.files:
                continue
            text = self.text(file)
            at = text.find(old)
            first = text[:at].count("\n")
            last = first + old.count("\n")
            inside = [it for it in self.files[file] if it.first <= last and first <= it.last]
            if inside:
                found.update(inside)
                continue
            heads = re.findall(r"(?m)^(?:pub(?:\([a-z: ]+\))? )?(\w+) (\w+)", text[:at] + old.lstrip())
            if heads and heads[-1][0] in ("const", "static", "struct", "enum", "type"):
                found.update(it for it in self.functions if re.search(rf"\b{heads[-1][1]}\b", it.text))
        return found or None
