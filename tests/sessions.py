"""Several words, one after another in one folder, as a file NAME.session has them; a module of tests/conform.

A line `$ WORD ..` is a call of the program; `<FILE` among its words is a file that is laid down before, with the bytes of NAME.FILE,
and `>FILE` an output that has them afterwards.
Lines `> TEXT` below it are its standard input, `= STATUS SAID` how it ends and the first line that it says where it fails, and
all others what it prints. A line `. disks X` lays down NAME.X.db1 and NAME.X.db2 as the database, without the file that lacks, and
`. are X` says that it has these bytes, or `. are none` that there is none; `. as before` says that the call in front of it left its
files as they were, `. folder NAME` makes a folder, and `. long FILE N` lays that file down, N bytes long. A line that begins with
`#` is a comment.
"""
import os
import subprocess

import databases

# From this status on a program says why.
FAILED = 8


def steps_of(text):
    """The steps, each with the lines that belong to it."""
    steps = []
    for line in text.split("\n"):
        if line.startswith(("$ ", ". ")):
            steps.append((line, []))
        elif line and not line.startswith("#"):
            steps[-1][1].append(line)
    return steps


def lay(session, folder, name):
    """Lays down a file that the session has beside it, where it isn't there yet."""
    if not (folder / name).exists():
        (folder / name).write_bytes(session.with_suffix(f".{name}").read_bytes())


def call_fault(program, session, folder, words, lines, seconds):
    """What is wrong with a call, in words; None where nothing is."""
    given = "".join(line[2:] + "\n" for line in lines if line.startswith("> "))
    ends, *printed = [line for line in lines if not line.startswith("> ")]
    for word in words:
        if word.startswith("<"):
            lay(session, folder, word[1:])
    run = subprocess.run([program, *(word.lstrip("<>") for word in words)], input=given.encode(), cwd=folder, capture_output=True, timeout=seconds)
    said = run.stderr.decode().split("\n")[0] if run.returncode >= FAILED else ""
    wanted = (ends, "".join(line + "\n" for line in printed))
    got = (f"= {run.returncode} {said}".rstrip(), run.stdout.decode())
    if got != wanted:
        return f"wanted {wanted}, got {got}"
    for name in (word[1:] for word in words if word.startswith(">")):
        if (folder / name).read_bytes() != session.with_suffix(f".{name}").read_bytes():
            return f"another {name}"
    return None


def held_by(folder):
    """What each file of the database holds; None where there is none."""
    return [(folder / disk).read_bytes() if (folder / disk).exists() else None for disk in databases.DISKS]


def stored(session, name):
    """What each file of a stored database holds; None where the database is without it."""
    files = [session.with_suffix(f".{name}.{disk.removeprefix('racf.')}") for disk in databases.DISKS]
    return [file.read_bytes() if file.exists() else None for file in files]


def lay_disks(session, folder, name):
    """Lays a stored database down in place of the one that is there."""
    for disk, data in zip(databases.DISKS, stored(session, name)):
        (folder / disk).unlink(missing_ok=True)
        if data is not None:
            (folder / disk).write_bytes(data)


def step_fault(session, folder, words, before):
    """Does a step that is no call; what is wrong, in words; None where nothing is. The files held `before` in front of the last call."""
    match words:
        case ["are", "none"]:
            return None if held_by(folder) == [None, None] else "a file is there"
        case ["are", name]:
            return None if held_by(folder) == stored(session, name) else "the files hold something else"
        case ["disks", name]:
            lay_disks(session, folder, name)
        case ["as", "before"]:
            return None if held_by(folder) == before else "a file was changed"
        case ["folder", name]:
            (folder / name).mkdir()
        case ["long", name, length]:
            lay(session, folder, name)
            os.truncate(folder / name, int(length))
        case _:
            return "no step that is known"
    return None


def session_fault(program, session, folder, seconds):
    """The first step of a session that fails, in words; None where none does."""
    before = held_by(folder)
    for line, lines in steps_of(session.read_text()):
        words = line[2:].split(" ")
        if line.startswith("$ "):
            before = held_by(folder)
            fault = call_fault(program, session, folder, words, lines, seconds)
        else:
            fault = step_fault(session, folder, words, before)
        if fault:
            return f"{line}: {fault}"
    return None
