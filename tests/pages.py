#!/usr/bin/env python3
"""Checks README.md, the pages of docs/, and each other .md of the repository.

usage: tests/pages.py PROGRAM          (the built program)

- Commands print what is shown. A block whose lines begin with `$ ` is run: such a line is typed, and what stands below it is
  printed, notes included; a line `..` stands for lines that are left out. The commands of a page are typed one after another,
  each in a new shell, in a folder that has the files of samples/, and samples/ itself. No other block is run: what needs
  something installed stands in a block with `sh` behind its three backticks.
- Each command of the program that is named is one of its help, and so is each option behind it. A script of the repository
  has the options that it is called with.
- Each link leads to a file, each path names one, and each heading that is named stands in its page. A file may be named
  without its end, and one of a crate as `crate/file`. A part of a path in capitals stands for any name.
- Each identifier with an underscore or in CamelCase, in backticks or as a crate's name, stands somewhere in the sources.
- What is written by hand in README.md and docs/ has at most 150,000 bytes. What a script writes doesn't count: PROVED.md behind
  the comment that says so, and in ATTACKS.md what stands between two such comments.
- tests/proved.py --check, which says whether PROVED.md is up to date, passes.

What is wrong is printed with its page, and the last line counts.
"""
import fnmatch
import os
import re
import shutil
import subprocess
import sys
import tempfile

ROOT = os.path.dirname(os.path.dirname(os.path.abspath(__file__)))
PROGRAM = os.path.abspath(sys.argv[1]) if len(sys.argv) == 2 else sys.exit(__doc__)
MOST = 150_000
# Folders with sources, in which symbols are looked for.
SOURCES = (".ci", "attacks", "crates", "edits", "packaging", "recorders", "tests", "trials")
NO_SOURCE = (".md", ".log", ".frames", "tests/pages.py")
TALLY = {True: 0, False: 0}

# Words that look like symbols or files of the repository and are none, and whose they are.
OF_OTHERS = {
    "Cap'n Proto's C++": """
        CapabilityServerSet ClientInner ImportClient PipelineClient PipelineInner PostReturnRpcPipeline
        PromiseClient QuestionRef QueuedClient QueuedPipeline RevocableServer RpcConnectionState RpcServerResponseImpl
        RpcSystemBase TribbleRaceBlocker exportsByCap getResolutionAtReturnTime handleDisembargo handleReturn receiveCap remoteRefcount resolveExportedPromise resolveOp
        writeDescriptor""",
    "Rust's capnp-rpc": """
        ConnectionState client_hook eagerly_evaluate exports_by_cap get_pipelined_cap_move handle_message release_export
        resolve_exported_promise resolve_op set_sender_hosted write_descriptor write_target""",
    "the toolchain's atomic_table": "close_with",
    "the reader's": "other/X your_network",
    "a build's": "crates/vataudit/out/vataudit",
}
NO_SYMBOLS = {word for words in OF_OTHERS.values() for word in words.split()}


def must(what, is_so, *told):
    TALLY[bool(is_so)] += 1
    if not is_so:
        print(what, *told, sep=": ", flush=True)


# ---- what there is

def tracked():
    """The files of the repository, without what is built."""
    for folder, folders, files in os.walk(ROOT):
        folders[:] = [name for name in folders if name not in (".git", "build", "out", "target", "__pycache__")]
        for name in files:
            yield os.path.relpath(os.path.join(folder, name), ROOT)


def names_of(path):
    """What a page may call a file or folder: its path from any folder on, and that of a crate without src, specs or proofs."""
    parts = path.split("/")
    inner = [part for part in parts if part not in ("src", "specs", "proofs")]
    for spelled in (parts, inner):
        for at in range(len(spelled)):
            name = "/".join(spelled[at:])
            yield name
            yield os.path.splitext(name)[0]


class Sources:
    """The names of all files and folders, and all words of the sources."""

    def __init__(self, files):
        self.names, self.words = set(), set()
        for path in files:
            while path:
                self.names.update(names_of(path))
                path = os.path.dirname(path)
        for path in files:
            if path.startswith(tuple(f"{folder}/" for folder in SOURCES)):
                self.words.update(re.split(r"\W+", path))
                if not path.endswith(NO_SOURCE):
                    with open(f"{ROOT}/{path}", encoding="utf-8", errors="replace") as file:
                        self.words.update(re.findall(r"\w+", file.read()))

    def has_path(self, path):
        path = path.rstrip("/").removesuffix("/..")
        if path in self.names or path in NO_SYMBOLS:
            return True
        # `edits/CRATE`, or `tests/storm/scripts/NAME.storm`
        pattern = re.sub(r"(?<![\w.])[A-Z]+(?!\w|\.md)", "*", path)
        return "*" in pattern and (pattern.startswith("*") or bool(fnmatch.filter(self.names, pattern)))

    def has_word(self, word):
        return word in self.words or word in NO_SYMBOLS


# ---- the parts of a page

class Page:
    def __init__(self, name):
        self.name = name
        with open(f"{ROOT}/{name}", encoding="utf-8") as file:
            self.text = file.read()
        self.blocks, prose = [], []
        block = None
        for line in self.text.split("\n"):
            fence = re.match(r" *```(\w*)$", line)
            if block and block.fenced:
                if fence:
                    block = None
                else:
                    block.lines.append(line)
            elif fence:
                block = Block(fence[1], True)
                self.blocks.append(block)
            elif line.startswith("    ") and (block or not prose or not prose[-1]):
                if not block:
                    block = Block("", False)
                    self.blocks.append(block)
                block.lines.append(line[4:])
            else:
                block = None
                prose.append(line)
        self.prose = "\n".join(prose)
        self.headings = [heading.replace("`", "") for heading in re.findall(r"^#+ (.*)$", self.prose, re.M)]

    def spans(self):
        """What stands in backticks."""
        return re.findall(r"`([^`\n]+)`", self.prose)

    def lines(self):
        """What stands in backticks, and the lines of the blocks."""
        return self.spans() + [line for block in self.blocks for line in block.lines]

    def plain(self):
        """What doesn't."""
        return re.sub(r"`[^`\n]+`", "``", self.prose)


class Block:
    def __init__(self, language, fenced):
        self.language, self.fenced, self.lines = language, fenced, []

    def commands(self):
        """Each command with the lines below it; none where the block isn't to be run."""
        commands = []
        for line in self.lines:
            if line.startswith("$ "):
                commands.append((line[2:], []))
            elif commands:
                commands[-1][1].append(line)
        return commands


# ---- commands

def fits(shown, came):
    """Whether these lines are shown so; `..` stands for any."""
    pattern = "".join("(?:.*\n)*" if line == ".." else re.escape(line) + "\n" for line in shown)
    return re.fullmatch(pattern, "".join(line + "\n" for line in came)) is not None


def run_commands(page, room):
    samples = f"{ROOT}/samples"
    shutil.copytree(samples, room, dirs_exist_ok=True)
    shutil.copytree(samples, f"{room}/samples")
    os.mkdir(f"{room}/bin")
    os.symlink(PROGRAM, f"{room}/bin/vataudit")
    path = {"PATH": f"{room}/bin:{os.environ['PATH']}", "LC_ALL": "C.UTF-8"}
    for block in page.blocks:
        for command, shown in block.commands():
            must(page.name, block.language == "", f"a block of {block.language} has a line that begins with $", command)
            ran = subprocess.run(["bash", "-c", command], cwd=room, env={**os.environ, **path}, stdin=subprocess.DEVNULL,
                                 stdout=subprocess.PIPE, stderr=subprocess.STDOUT, timeout=60)
            came = ran.stdout.decode(errors="replace").splitlines()
            while shown and not shown[-1]:
                shown.pop()
            must(page.name, fits(shown, came), command, "what it prints isn't what is shown:\n" + "\n".join(came))


class Commands:
    """The commands of the program, each with its options."""

    def __init__(self):
        text = self.help()
        self.common = set(re.findall(r"--[a-z-]+", text))
        named = re.search(r"^Commands:\n((?:  .*\n)+)", text, re.M)[1]
        names = re.findall(r"^  (\w+)", named, re.M)
        self.options = {name: set(re.findall(r"--[a-z-]+", self.help(name))) for name in names}

    def help(self, *words):
        return subprocess.run([PROGRAM, *words, "--help"], capture_output=True).stdout.decode()

    def check(self, page):
        """Whether each that is named is one, and so its options."""
        for words in re.findall(r"(?:^|[\s(])vataudit ([^|;>#&)\n]*)", "\n".join(page.lines()), re.M):
            words = words.split()
            command = next((word for word in words if re.fullmatch(r"[a-z]+", word)), None)
            if command:
                known = self.options.get(command, set()) | self.common
                options = {word.split("=")[0] for word in words if word.startswith("--") and word != "--"}
                must(page.name, command in self.options and options <= known, "no such command", f"vataudit {' '.join(words)}")


def check_scripts(page):
    """Whether the scripts of the repository that are called have the options behind them."""
    for line in page.lines():
        called = re.match(r"(?:bash )?((?:tests|packaging|recorders|\.ci)/[\w./-]+) ([^#]*)", line)
        if called and os.path.isfile(f"{ROOT}/{called[1]}"):
            with open(f"{ROOT}/{called[1]}", encoding="utf-8") as file:
                script = file.read()
            for option in re.findall(r"(?<!\S)--[a-z-]+", called[2]):
                must(page.name, option in script, "no such option", line)


# ---- links, paths and headings

def slug(heading):
    return re.sub(r"[^\w\- ]", "", heading.lower()).replace(" ", "-")


def page_of(name, pages):
    """The first page whose path is this one, or ends with it."""
    return next((page for page in pages if page.name == name or page.name.endswith("/" + name)), None)


def check_links(page, pages):
    for target in re.findall(r"\[[^]]*\]\(([^)\s]+)\)", page.plain()):
        if "://" in target:
            continue
        path, _, anchor = target.partition("#")
        path = os.path.normpath(os.path.join(os.path.dirname(page.name), path)) if path else page.name
        must(page.name, os.path.exists(f"{ROOT}/{path}"), "no file", target)
        if anchor:
            named = next((it for it in pages if it.name == path), None)
            must(page.name, named and anchor in map(slug, named.headings), "no heading", target)


def check_headings(page, pages):
    quoted = r'"[^"\n]+"'
    several = rf"{quoted}(?:(?:, | and |, and ){quoted})*"
    for name, named in re.findall(rf"([\w/.-]+\.md),? ({several})", page.prose):
        for heading in re.findall(r'"([^"]+)"', named):
            other = page_of(name, pages)
            must(page.name, other and heading.replace("`", "") in other.headings, "no heading", f'{name}, "{heading}"')
    for before, heading, after in re.findall(rf'(under )?("[^"\n]+")(,? (?:below|above)\b)?', page.prose):
        if before or after:
            must(page.name, heading[1:-1].replace("`", "") in page.headings, "no heading", heading)


def check_paths(page, sources):
    folders = "|".join(("docs", "samples", *(folder for folder in SOURCES if folder != ".ci")))
    named = rf"(?<![\w/.$-])(?:{folders})/[\w./*-]*|(?<![\w/.-])[A-Z]+\.md"
    blocks = [line for block in page.blocks for line in block.lines]
    for path in sorted(set(re.findall(named, "\n".join([page.plain(), *blocks])))):
        path = path.rstrip(".*")
        must(page.name, sources.has_path(path), "no file", path)


# ---- symbols

def is_symbol(word):
    """Whether it looks like one: with an underscore within, or in CamelCase."""
    return re.fullmatch(r"[A-Za-z]\w*_\w+|[A-Za-z]\w*[a-z0-9][A-Z]\w*", word) is not None


def check_symbols(page, sources):
    for span in page.spans():
        for path in re.findall(r"(?<![\w/.:$-])[A-Za-z.][\w.-]*/[\w./*-]*", span):
            must(page.name, sources.has_path(path), "no file", path)
        for file in re.findall(r"(?<![\w/.*-])\w+\.(?:antt|edit|md|py|rattle|rt|sh|storm)\b", span):
            must(page.name, sources.has_path(file), "no file", file)
    for word in sorted(set(re.findall(r"\w+", " ".join(page.spans())) + re.findall(r"\b[a-z]+_\w+", page.plain()))):
        if is_symbol(word):
            must(page.name, sources.has_word(word), "no symbol", word)


# ---- what is written by hand

def made_by(script):
    """What the comment looks like that says what is made by a script."""
    return rf"<!--[^>]*made by {re.escape(script)}[^>]*-->"


def by_hand(page):
    """How many bytes of a page are."""
    text = page.text
    if page.name == "docs/PROVED.md":
        text = re.split(made_by("tests/proved.py"), text, maxsplit=1)[0]
    if page.name == "docs/ATTACKS.md":
        mark = made_by("tests/attacks.sh")
        text = re.sub(rf"{mark}[\s\S]*?{mark}", "", text)
    return len(text.encode())


def main():
    files = list(tracked())
    sources = Sources(files)
    commands = Commands()
    pages = [Page(name) for name in sorted(files) if name.endswith(".md")]
    for page in pages:
        with tempfile.TemporaryDirectory() as room:
            run_commands(page, room)
        commands.check(page)
        check_scripts(page)
        check_links(page, pages)
        check_headings(page, pages)
        check_paths(page, sources)
        check_symbols(page, sources)
    sizes = {page.name: by_hand(page) for page in pages if page.name == "README.md" or page.name.startswith("docs/")}
    each = ", ".join(f"{name} {size}" for name, size in sizes.items())
    must("written by hand", sum(sizes.values()) <= MOST, f"{sum(sizes.values())} bytes, where {MOST} are allowed", each)
    proved = f"{ROOT}/tests/proved.py"
    if os.path.exists(proved):
        must("docs/PROVED.md", subprocess.run([proved, "--check"], cwd=ROOT).returncode == 0, "tests/proved.py --check fails")
    print(f"{TALLY[True]} passed, {TALLY[False]} failed")
    sys.exit(TALLY[False] > 0)


main()
