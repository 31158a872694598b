"""The blocks between fences of the documents, worked on the program; a module of tests/docs.

What a block is, its own lines tell. Of README.md and docs/GUIDE.md each is one of these four:
- Its first line begins with `$ `: a session. Each such line is worked in a new folder, where `racf` is the program and `examples`
  the repository's, at a new database, where the session makes none; and what it prints is what stands below it, where a line
  `..` stands for lines that are left out. A file that isn't there is what `$ cat FILE` shows of it, or that of an example, where
  one alone has a file of that name.
- A line proves or compiles the program (KIT): not run, and counted.
- Its first line begins with `racf` or a word of the shell: worked as a whole in such a folder, and it ends with 0, or with 4.
- It begins with a command or a request: a part of a deck. Behind the parts above it in its section, at a new database, no line
  of it is refused.
On the other pages stand parts of programs, whose first line ends in `;` or `{`, and walks through the code, which begin with
a crate's name (tests/docs holds their names). A block that is none of all these is a fault.
"""
import collections
import os
import pathlib
import re
import shutil
import subprocess
import tempfile

import databases
from statements import REQUESTS

TOP = pathlib.Path(__file__).resolve().parent.parent
WORKED = ("README.md", "docs/GUIDE.md")
KIT = re.compile(r"(?m)^(?:\$ )?(?:rt|\.ci/\w+|tests/run|\S*racf try)\b")
SHELL = re.compile(r"\S*racf |(?:mkdir|cd|touch|cp) ")
PART = re.compile(r"[^/]*[;{] *(?://.*)?")
SECONDS = 60
# What `racf` is in the folder of a block: the tools, and in place of what the launcher would prove the program that is tested.
RACF = """#!/bin/bash
if [ -f "{top}/tools/$1" ]; then exec "{top}/tools/$1" "${{@:2}}"; fi
exec "{program}" "$@"
"""


class Folder:
    """A new folder in which a shell works, with `racf` and the examples. `at` is where the shell stands."""

    def __init__(self, program):
        # a folder in memory may be one from which nothing is started
        self.place, self.started = databases.new_folder(), tempfile.TemporaryDirectory()
        self.at = self.top = pathlib.Path(self.place.name)
        launcher = pathlib.Path(self.started.name, "racf")
        launcher.write_text(RACF.format(top=TOP, program=program))
        launcher.chmod(0o755)
        for name, place in (("racf", launcher), ("examples", TOP / "examples")):
            (self.top / name).symlink_to(place)

    def __enter__(self):
        return self

    def __exit__(self, *how):
        self.place.cleanup()
        self.started.cleanup()

    def work(self, words, given=""):
        """How bash ends with these words; what is said on standard error stands within what is printed."""
        shell = os.environ | {"PATH": f"{self.top}:{os.environ['PATH']}", "STANDS": f"{self.top}/.at"}
        ended = subprocess.run(["bash", "-c", f"trap 'pwd >$STANDS' EXIT\n{words}"], cwd=self.at, env=shell, input=given,
                               stdout=subprocess.PIPE, stderr=subprocess.STDOUT, text=True, errors="replace", timeout=SECONDS)
        self.at = pathlib.Path((self.top / ".at").read_text().rstrip("\n"))
        return ended

    def begin(self, lines):
        """Makes a database, where these lines make none."""
        if not re.search(r"\bracf init\b", "\n".join(lines)):
            self.work("racf init")

    def lay(self, words):
        """Copies the files among the words that one example has."""
        for word in words.split():
            found = list(TOP.glob(f"examples/*/{word}")) if re.fullmatch(r"[\w-]+", word) else []
            if len(found) == 1 and not (self.at / word).exists():
                shutil.copy(found[0], self.at)


def commands():
    """The first words of commands and requests, by the guide's table."""
    guide = (TOP / "docs" / "GUIDE.md").read_text()
    return set(re.findall(r"(?m)^\| ([A-Z]+) \| [A-Z]+ \|", guide)) | REQUESTS


def kind_of(name, lines, crates):
    """What the block of this document is; None where it is nothing that is known."""
    first = lines[0] if lines else ""
    if name not in WORKED:
        return "part" if PART.fullmatch(first) else "walk" if first.split(" ")[0] in crates else None
    if KIT.search("\n".join(lines)):
        return "kit"
    if first.startswith("$ "):
        return "session"
    if SHELL.match(first):
        return "shell"
    return "deck" if first.split(" ")[0] in commands() else None


def steps_of(lines):
    """The lines that begin with `$ `, each with those below it."""
    steps = []
    for line in lines:
        if line.startswith("$ "):
            steps.append((line[2:], []))
        else:
            steps[-1][1].append(line)
    return steps


def is_printed(printed, shown):
    """What is shown is what was printed, but for the lines that `..` stands for."""
    pattern = "".join(r"(?:.*\n)*" if line == ".." else re.escape(line) + "\n" for line in shown)
    return re.fullmatch(pattern, printed) is not None


def session(folder, lines):
    """Whether each step of a session prints what stands below it."""
    folder.begin(lines)
    for words, shown in steps_of(lines):
        file = folder.at / words.removeprefix("cat ")
        if words.startswith("cat ") and not file.exists():
            file.write_text("".join(line + "\n" for line in shown))
            continue
        folder.lay(words)
        ended = folder.work(words)
        yield is_printed(ended.stdout, shown), f"`{words}` prints {ended.stdout!r}"


def shell(folder, lines):
    """Whether the lines end with 0 or, for a refused line of a deck, with 4."""
    folder.begin(lines)
    ended = folder.work("\n".join(lines))
    yield ended.returncode in (0, 4), f"`{lines[0]}` ends with {ended.returncode}, and says {ended.stdout!r}"


def deck(folder, lines):
    """Whether each of the lines is accepted, or answered, at a new database."""
    ended = folder.work("racf init && racf script - -", "".join(line + "\n" for line in lines))
    for line in ended.stdout.splitlines():
        yield re.fullmatch(r"\d+ (?!REFUSED).*|AUDIT .*", line), f"this deck gives: {line}"


class Blocks:
    """The blocks of the documents: what each is, and how many there are of each kind."""

    def __init__(self, program, crates):
        self.program, self.crates = program, crates
        self.counted = collections.Counter()

    def held(self, name, blocks):
        """What holds of the blocks of a document and what doesn't, each with its fault in words."""
        parts = collections.defaultdict(list)
        for heading, number, lines in blocks:
            kind = kind_of(name, lines, self.crates)
            self.counted[kind or "unknown"] += 1
            yield kind, f"{name}:{number}: a block that is neither run nor told apart"
            parts[heading] += lines if kind == "deck" else []
            for holds, fault in self.worked(kind, parts[heading] if kind == "deck" else lines):
                yield holds, f"{name}:{number}: {fault}"

    def worked(self, kind, lines):
        """What holds of a block that can be worked, where there is a built program."""
        work = {"session": session, "shell": shell, "deck": deck}.get(kind)
        if work and self.program:
            with Folder(self.program) as folder:
                yield from work(folder, lines)
