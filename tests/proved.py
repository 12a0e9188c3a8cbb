#!/usr/bin/env python3
"""Makes the second part of docs/PROVED.md from the code: each public call of each crate, what it does, its clauses, and the files
of definitions that they cite.

usage: tests/proved.py --check        (whether the page is up to date; if it isn't, the difference is printed)
       tests/proved.py --write        (writes it)

What stands above the page's line <!-- made by tests/proved.py --> is written by hand, and stays. Below it stand the crates, as
crates.txt has them. Public is what a crate's lib.rt declares, or names by `pub use`. What a call does is the first paragraph of
its doc comment, as far as whole sentences go in some 480 letters; behind the name of a clause stands the comment above it. A
clause cites a file of definitions where it has a name that a `ghost use` line takes from there. A type has a row of its own where
contracts see it as something else than its fields, or something is proved of all its values: an invariant, what it is shown as,
what it is made of an error, or that it keeps a trait of these crates.
It needs python3 alone, and takes a second or two.
"""
import difflib
import os
import re
import sys

ROOT = os.path.realpath(f"{os.path.dirname(os.path.realpath(__file__))}/..")
PAGE = "docs/PROVED.md"
LINE = "<!-- made by tests/proved.py -->"
LONG = 480    # so many letters of a doc comment, and its first sentence however long

TOKEN = re.compile(r"""//[^\n]*|"(?:\\.|[^"\\])*"|'(?:\\[^']*|[^'\\])'|[{}()\[\];]""", re.S)
BLANK = re.compile(r"\s*")
PUBLIC = re.compile(r"pub(\([\w ]+\))? ")
NAMED = re.compile(r"(?:const |unsafe )*(fn|struct|enum|trait|const|type) (\w+)")
CLAUSE = re.compile(r"(requires|ensures)\*?(?: (\w+))? (?=\{)")
CONTRACT = re.compile(r"\n\s*(//[^\n]*\n\s*)*(requires|ensures)\b")
USE = re.compile(r"ghost use Rattle\.(\w+)\.specs\.([\w.]+)\.\{([^}]*)\}")
NAMES_ALONE = ("Types", "Lib")    # files of definitions that only pass names on


# ---- the code, read ----


class Clause:
    """A clause of a contract: whether the caller must see to it, its name or None, the comment above it, and its text."""

    def __init__(self, is_needed, name, comment, text):
        self.is_needed, self.name, self.comment, self.text = is_needed, name, comment, text


class Item:
    """An item of a file, of an impl or of a trait: its doc comment, its head, its clauses, and what stands in its braces."""

    def __init__(self, doc, head, clauses, body):
        self.doc, self.head, self.clauses, self.body = doc, head, clauses, body
        visible = PUBLIC.match(head)
        self.is_public = head.startswith("pub ")
        named = NAMED.match(head[visible.end():] if visible else head)
        self.kind, self.name = named.groups() if named else (head.split(None, 1)[0].split("<")[0], None)

    @property
    def is_claimed(self):
        return any(not clause.is_needed for clause in self.clauses)

    @property
    def is_law(self):
        return self.kind == "fn" and self.body.strip() == "" and re.search(r"fn \w+\(\)\s*$", self.head) is not None


def behind(text, at):
    """The place behind the bracket that closes the one at a place."""
    depth = 0
    for token in TOKEN.finditer(text, at):
        depth += {"{": 1, "(": 1, "[": 1, "}": -1, ")": -1, "]": -1}.get(token[0], 0)
        if depth == 0:
            return token.end()
    raise ValueError(f"no bracket closes this: {text[at:at + 80]}")


def end_of_head(text, at):
    """The place of the brace or the semicolon that ends the head of an item."""
    depth = 0
    for token in TOKEN.finditer(text, at):
        if depth == 0 and token[0] in ("{", ";"):
            return token.start()
        depth += {"(": 1, "[": 1, ")": -1, "]": -1}.get(token[0], 0)
    raise ValueError(f"nothing ends this head: {text[at:at + 80]}")


def line_at(text, at):
    return text[at:].split("\n", 1)[0]


def clauses_at(text, at):
    """The clauses that stand at a place, and the place behind them."""
    clauses, comment = [], []
    while True:
        at = BLANK.match(text, at).end()
        found = CLAUSE.match(text, at)
        if text.startswith("//", at):
            line = line_at(text, at)
            comment.append(line[2:].strip())
            at += len(line)
        elif found:
            at = behind(text, found.end())
            clauses.append(Clause(found[1] == "requires", found[2], " ".join(comment), text[found.end():at]))
            comment = []
        else:
            return clauses, at


def item_at(text, at, doc):
    """The item at a place, and the place behind it."""
    end = end_of_head(text, at)
    head, clauses = text[at:end], []
    contract = CONTRACT.search(head) if NAMED.match(PUBLIC.sub("", head, count=1)) else None
    if contract:
        head = head[:contract.start()]
        clauses, end = clauses_at(text, at + contract.start())
    if text[end] == ";":
        return Item(doc, head, clauses, ""), end + 1
    closed = behind(text, end)
    if re.match(r"(pub(\([\w ]+\))? )?use\b|ghost\b", head):    # what stands in braces there is a part of the head
        semicolon = text.index(";", closed)
        return Item(doc, text[at:semicolon], clauses, ""), semicolon + 1
    return Item(doc, head, clauses, text[end + 1:closed - 1]), closed


def items_of(text):
    """The items of a file, or of what stands in the braces of an impl or a trait."""
    items, doc, at = [], [], 0
    while True:
        at = BLANK.match(text, at).end()
        if at == len(text):
            return items
        if text.startswith("//", at):
            line = line_at(text, at)
            if line.startswith("///"):
                doc.append(line[3:].strip())
            at += len(line)
        elif text.startswith("#", at):
            at = behind(text, text.index("[", at))
        elif text[at] == ";":    # behind the braces of a constant
            at += 1
        else:
            item, at = item_at(text, at, doc)
            items.append(item)
            doc = []


def uses_of(text):
    """The file of definitions from which each name comes, as crate and place in its specs/."""
    uses = {}
    for crate, place, names in USE.findall(text):
        if crate != "std" and not place.startswith("declared") and place not in NAMES_ALONE:
            for name in names.split(","):
                uses[name.split(" as ")[-1].strip()] = (crate, place.replace(".", "/"))
    return uses


class File:
    """A file of src/."""

    def __init__(self, path):
        self.path = path
        with open(f"{ROOT}/{path}", encoding="utf-8") as file:
            text = file.read()
        self.head = [line[3:].strip() for line in text.split("\n") if line.startswith("//!")]
        self.uses = uses_of(re.sub(r"\n +ghost use[^;]*;", "", text))
        self.items = items_of(text)


class Crate:
    """A crate: its files, its items each with its file, and the modules that its root names."""

    def __init__(self, name):
        self.name = name
        self.folder = f"crates/{name}/src"
        places = [os.path.join(at, file) for at, _, files in os.walk(f"{ROOT}/{self.folder}") for file in files]
        self.files = [File(os.path.relpath(place, ROOT)) for place in sorted(places) if place.endswith(".rt")]
        roots = (f"{self.folder}/lib.rt", f"{self.folder}/main.rt")
        self.root = next(file for file in self.files if file.path in roots)
        self.is_program = self.root.path == roots[1]
        self.items = [(file, item) for file in self.files for item in file.items]
        self.modules = {item.head.split()[-1] for item in self.root.items if item.kind == "mod"}

    def declared(self):
        """Its public items with their files, as its root names them; of a program all items of its files."""
        if self.is_program:
            return [(file, item) for file, item in self.items if item.name]
        found = []
        for item in self.root.items:
            use = re.fullmatch(r"pub use ([\w:]+)::(?:\{(.*)\}|(\w+))", item.head, re.S)
            if use and use[1].split("::")[0] in self.modules:
                found += [self.item_named(name) for name in re.findall(r"\w+", use[2] or use[3])]
            elif item.is_public and item.name:
                found.append((self.root, item))
        return found

    def item_named(self, name):
        for file, item in self.items:
            if item.is_public and item.name == name:
                return file, item
        raise ValueError(f"{self.root.path} names {name}, which no file declares")

    def impls_of(self, name):
        """The impls of a type: the file, the trait or None, and the impl."""
        for file, item in self.items:
            if item.kind == "impl":
                trait, of = implemented(item.head)
                if of == name:
                    yield file, trait, item


def implemented(head):
    """The trait that an impl is of, or None, and the type."""
    head = head.removeprefix("impl").replace("->", "").strip()
    if head.startswith("<"):
        depth = 0
        for at, letter in enumerate(head):
            depth += {"<": 1, ">": -1}.get(letter, 0)
            if depth == 0:
                head = head[at + 1:]
                break
    trait, _, kind = head.rpartition(" for ")
    name = re.search(r"[A-Z]\w*", kind or head)
    return re.match(r"\s*([\w:]+)", trait)[1].split("::")[-1] if trait else None, name and name[0]


# ---- the page, written ----


class Row:
    """A row of the page: of which public item, and its cells."""

    def __init__(self, owner, path, call, does, clauses, cites, kind=""):
        self.owner, self.path, self.call, self.does = owner, path, call, does
        self.clauses, self.cites, self.kind = clauses, cites, kind

    def text(self):
        call = f"{self.kind} [`{self.call}`](../{self.path})".strip()
        cells = [cell.replace("|", "\\|") for cell in (call, self.does, self.clauses, ", ".join(self.cites))]
        return f"| {' | '.join(cells)} |"


def said(doc):
    """The first paragraph of a doc comment, as far as whole sentences go, and without its links."""
    paragraph = " ".join(doc[:doc.index("")] if "" in doc else doc)
    paragraph = re.sub(r"\[(`[^`]*`)\](\([^)]*\))?", r"\1", paragraph).replace("`crate::", "`")
    taken = ""
    for sentence in re.split(r"(?<=[.!?]) (?=[A-Z`])", paragraph):
        if taken and len(taken) + len(sentence) > LONG:
            break
        taken = f"{taken} {sentence}".strip()
    return taken


def cites_of(crate, uses, texts):
    """The files of definitions that texts cite: those of the crate, then those of others."""
    found = []
    for text in texts:
        for name in re.findall(r"(?<![\w.'])[A-Za-z_]\w*'*", re.sub(r"--[^\n]*", "", text)):
            if name in uses and uses[name] not in found:
                found.append(uses[name])
    for at, place in found:
        if at in os.listdir(f"{ROOT}/crates") and not os.path.exists(f"{ROOT}/crates/{at}/specs/{place}.antt"):
            raise ValueError(f"{crate.name} cites {at}/{place}, and there is no such file")
    return [place for at, place in found if at == crate.name] + sorted(f"{at}/{place}" for at, place in found if at != crate.name)


def clauses_said(clauses):
    """The names of clauses, each with its comment, and behind them what is needed; a dash is a clause without a name."""
    parts = []
    for clause in sorted(clauses, key=lambda clause: clause.is_needed):
        name = f"`{clause.name}`" if clause.name else "-"
        comment = f" {clause.comment.rstrip('.')}" if clause.comment else ""
        parts.append(f"{'needs ' if clause.is_needed else ''}{name}{comment}")
    return "; ".join(parts)


def call_row(crate, file, uses, item, owner):
    call = item.name if owner == item.name else f"{owner}::{item.name}"
    cites = cites_of(crate, uses, [clause.text for clause in item.clauses])
    return Row(owner, file.path, call, said(item.doc), clauses_said(item.clauses), cites, "law" if item.is_law else "")


def type_row(crate, file, item, traits):
    """What is proved of all values of a type; None where nothing is, and contracts see its fields."""
    kept, cites, is_seen = [], [], False
    for at, trait, one in crate.impls_of(item.name):
        is_seen = is_seen or trait == "Model"
        uses = {**at.uses, **uses_of(one.body)}
        ghosts = {member.head.split()[1]: member.head for member in items_of(one.body) if member.kind == "ghost"}
        own = [name for name in ("invariant", "output", "from_gives") if name in ghosts]
        found = cites_of(crate, uses, [ghosts[name] for name in own] if own else list(ghosts.values()))
        if trait in traits:
            kept.append(f"as `{trait}`")
        elif own and (found or own != ["from_gives"]):
            kept += [f"`{name}`" for name in own if f"`{name}`" not in kept]
        else:
            continue
        cites += [cite for cite in found if cite not in cites]
    if not kept and not is_seen:
        return None
    return Row(item.name, file.path, item.name, said(item.doc), "; ".join(kept), cites)


def trait_row(file, item):
    return Row(item.name, file.path, item.name, said(item.doc), "", [], "trait")


def methods_of(crate, file, item):
    """The public methods of a type or of a trait, each with its file and what it uses."""
    if item.kind == "trait":
        uses = {**file.uses, **uses_of(item.body)}
        return [(file, uses, method) for method in items_of(item.body) if method.kind == "fn"]
    return [
        (at, {**at.uses, **uses_of(one.body)}, method)
        for at, trait, one in crate.impls_of(item.name) if trait is None
        for method in items_of(one.body) if method.kind == "fn" and method.is_public
    ]


def rows_of(crate, traits):
    """The rows of a crate, and the public calls of which no clause says anything."""
    rows, unclaimed = [], []
    for file, item in crate.declared():
        if item.kind == "fn":
            calls = [(file, file.uses, item)]
        elif item.kind == "trait":
            calls = methods_of(crate, file, item)
            rows.append(trait_row(file, item) if item.name in traits else None)
        else:
            calls = methods_of(crate, file, item) if item.kind in ("struct", "enum") else []
            rows.append(type_row(crate, file, item, traits))
        for at, uses, call in calls:
            row = call_row(crate, at, uses, call, item.name)
            if call.is_claimed:
                rows.append(row)
            elif not crate.is_program:
                unclaimed.append(row.call)
    return [row for row in rows if row], unclaimed


def in_order(crate, rows):
    """Rows in the order in which the head of the crate names them, then the rest as they come, and laws last."""
    head = " ".join(crate.root.head)

    def place(row):
        found = re.search(rf"`{row.owner}\b", head)
        return row.kind == "law", found.start() if found else len(head)

    return sorted(rows, key=place)


def part_of(crate, traits):
    """What the page says of a crate."""
    rows, unclaimed = rows_of(crate, traits)
    lines = [f"### {crate.name}", "", said(crate.root.head), ""]
    if rows:
        lines += ["| Call | What it does | Clauses | Definitions |", "|---|---|---|---|"]
        lines += [*(row.text() for row in in_order(crate, rows)), ""]
    if unclaimed:
        lines += [f"Without a clause: {', '.join(f'`{call}`' for call in unclaimed)}.", ""]
    if not rows and not unclaimed:
        lines += ["It has no public call.", ""]
    return lines


def is_claimed_trait(item):
    """Whether it is a public trait with a call of which a clause says something."""
    return item.kind == "trait" and item.is_public and any(method.is_claimed for method in items_of(item.body))


def groups():
    """The groups of crates.txt, each with its title and its crates."""
    found = []
    with open(f"{ROOT}/crates.txt", encoding="utf-8") as file:
        for line in file:
            if line.startswith("# "):
                found.append((line[2:].strip(), []))
            elif re.match(r"\w+:", line):
                found[-1][1].append(line.split(":")[0])
    return [(title, names) for title, names in found if names]


def made():
    """What stands below the page's line."""
    grouped = groups()
    crates = [Crate(name) for _, names in grouped for name in names]
    traits = {item.name for crate in crates for _, item in crate.items if is_claimed_trait(item)}
    lines = ["## Crate by crate", ""]
    for title, names in grouped:
        lines.append(f"- {title[0].upper()}{title[1:]}: {', '.join(f'[{name}](#{name})' for name in names)}")
    lines.append("")
    for crate in crates:
        lines += part_of(crate, traits)
    return "\n".join(lines)


def main():
    if sys.argv[1:] not in (["--check"], ["--write"]):
        print(__doc__.split("\n\n")[1], file=sys.stderr)
        return 2
    with open(f"{ROOT}/{PAGE}", encoding="utf-8") as file:
        old = file.read()
    if old.count(LINE) != 1:
        print(f"{PAGE} must have the line {LINE} once")
        return 1
    try:
        new = f"{old.partition(LINE)[0]}{LINE}\n\n{made()}"
    except ValueError as why:
        print(why)
        return 1
    if sys.argv[1] == "--write":
        with open(f"{ROOT}/{PAGE}", "w", encoding="utf-8") as file:
            file.write(new)
        return 0
    difference = list(difflib.unified_diff(old.split("\n"), new.split("\n"), PAGE, "what the code has", lineterm="", n=0))
    if difference:
        print("\n".join(difference))
        print(f"{PAGE} isn't up to date: tests/proved.py --write")
        return 1
    print(f"{PAGE} is up to date")
    return 0


if __name__ == "__main__":
    sys.exit(main())
