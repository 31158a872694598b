"""Tables of docs/GUIDE.md, worked on the program: what a wrong word or line gets, and what profiles cover; a module of tests/docs.

Each line that standard error may have is brought about by the words that CAUSES has for it, or by another script of tests/, in
which the words of its reason stand: those that take a failing call, little memory or another user. Each row of what you wrote,
what you get and what to write instead is worked at a new database, behind the lines of FRONTS: what stands first in the second
cell is what is said or printed of what stands first in the first, and nothing is refused of what stands in the third. A cell
that doesn't begin with such a text, and a text with `..`, tell it in words, which nobody works. Of the table of what profiles
cover each name is asked about at a new database that has the profile.
"""
import pathlib
import re

from documents import cells, names_in, section
from shown import Folder, commands

TOP = pathlib.Path(__file__).resolve().parent.parent
USAGE = 8
# By a line of standard error, the words that bring it about in a folder with a database and the file deck. A number is any.
CAUSES = {
    "USAGE": "racf",
    "READ FAULT": "racf script nosuch out",
    "WRITE FAULT": "racf script deck nosuch/out",
    "DISK FAULT": "flock racf.db1 racf compact",
    "NOT FORMATTED": "rm racf.db2; racf compact",
    "DAMAGED AT p": "printf x | dd of=racf.db1 bs=1 seek=40 conv=notrunc status=none; racf compact",
    "INPUT TOO LONG": "truncate -s 268435457 deck; racf script deck out",
    "racf: nosuch: no such file": "racf script nosuch out",
    "racf: deck: a folder": "rm deck; mkdir deck; racf script deck out",
    "racf: racf.db1: in use by another run": "flock racf.db1 racf compact",
    "racf: racf.db2: a symbolic link": "mv racf.db2 away; ln -s away racf.db2; racf compact",
    "racf: racf.db2: no regular file": "rm racf.db2; mkfifo racf.db2; racf compact",
    "racf: out: a link that leads to no file": "ln -s nosuch out; racf script deck out",
    "racf: racf.lost: a folder": "mkdir racf.lost; racf compact",
    "racf: out: no room": "ln -s /dev/full out; racf script deck out",
    "racf: out: longer than the system lets a file be": "trap '' XFSZ; ulimit -f 1; racf make 300 out",
    "racf: standard output: nobody reads it": "racf make 10000 - | true",
    "racf: standard input: closed": "racf script - out <&-",
    "racf: out: an input too": "ln deck out; racf script deck out",
    "racf: out: another output too": "cp deck a; cp deck b; touch a.out; ln a.out b.out; racf run 2 a b",
    "racf: out: a file of the database": "ln racf.db1 out; racf script deck out",
    "racf: out: a file of a database": "cp racf.db1 out; racf script deck out",
    "racf: out: locked by another program": "touch out; flock out racf script deck out",
    "racf: deck: longer than 2^28 bytes": "truncate -s 268435457 deck; racf script deck out",
    "racf: no database in this folder: racf init makes one": "rm racf.db1 racf.db2; racf compact",
    "racf: racf.db1: no such file": "rm racf.db1; racf compact",
    "racf: racf.db1: a database may be here: racf init over makes a new one": "racf init",
    "racf: script: IN OUT behind it, ..": "racf script deck",
}
# By what is written, the lines in front of it, where those of a new database aren't enough.
FRONTS = {
    "ADDSD PAY.**": ["ADDGROUP PAY"],
    "PERMIT BPX.DAEMON ID(JOE)": ["ADDUSER JOE", "RDEFINE FACILITY BPX.DAEMON"],
    "PERMIT 'SYS1.**' ID(JOE) ACCESS(R)": ["ADDUSER JOE", "ADDSD 'SYS1.**'"],
    "PERMIT BPX.DAEMON CLASS(FACILITY) ID(JOE) ACCESS(READ)":
        ["ADDUSER JOE", "RDEFINE FACILITY BPX.DAEMON", "SETROPTS RACLIST(FACILITY)"],
    "racf init": ["racf init"],
    "SETROPTS REFRESH": ["SETROPTS RACLIST(FACILITY)"],
    "FASTAUTH A FACILITY BPX.DAEMON READ": ["SETROPTS CLASSACT(FACILITY)"],
    "RDELETE FACILITY A-": ["RDEFINE FACILITY (A-)"],
}


def lines_of_errors(guide):
    """The lines of standard error in the guide's tables, each with its status, where it stands beside one."""
    for row in cells(section(guide, "Starting the program")):
        front = ""
        for name in names_in(row[-1] if row[0].isdigit() else row[0]):
            if row[0].isdigit():
                yield name, int(row[0])
            elif name.startswith("racf: "):
                front = name.rpartition(": ")[0] + ": "
                yield name, None
            elif front:
                yield front + name, None


def stands_in_a_script(line):
    """Some script has the words of a line's reason, the names of files apart."""
    parts = re.split(r"racf\.\w+", line.split(": ")[-1])
    scripts = [path.read_text() for path in (TOP / "tests").iterdir() if path.is_file() and not path.suffix]
    return any(all(part in text for part in parts) for text in scripts)


def check_errors(program, guide):
    """Whether each line of standard error comes as the guide says; yields what holds with its fault."""
    for line, status in lines_of_errors(guide):
        if line not in CAUSES:
            yield stands_in_a_script(line), f"no script of tests/ brings about `{line}`"
            continue
        with Folder(program) as folder:
            ended = folder.work("racf init; echo ADDUSER JOE >deck; " + CAUSES[line])
        # `p` is any number, `..` any rest, and the output of a run has a name of its own
        pattern = re.sub(r"p$", r"\\d+", re.escape(line)).replace(r"\.\.", ".*").replace(r"\ out:", r"\ (?:\w+\.)?out:")
        yield re.search(f"(?m)^{pattern}$", ended.stdout), f"`{CAUSES[line]}` says {ended.stdout!r}, and not `{line}`"
        yield status in (None, ended.returncode), f"`{CAUSES[line]}` ends with {ended.returncode}, and not with {status}"


def is_line(text):
    return text.startswith("racf ") or text.split(" ")[0] in commands()


def instead(row, written):
    """What the third cell says to write: each time the lines that go in place of what is written."""
    for part in re.split(r", or |: ", row[2]):
        for name in names_in(part):
            operand = re.match(r"([A-Z]+)\(", name)
            if ".." in name:
                continue
            if is_line(name):
                yield [name, written] if part.startswith("first ") else [written, name] if part.startswith("behind it ") else [name]
            elif operand:
                yield [re.sub(operand[1] + r"\([^)]*\)", name, written)]


def work(program, written, lines):
    """How it ends where these lines are worked behind those in front of what is written."""
    verify = ["VERIFY A IBMUSER"] if re.match(r"(AUTH|FASTAUTH) ", written) else []
    with Folder(program) as folder:
        folder.work("echo ADDUSER JOE >deck")
        if lines[0].startswith("racf "):
            return folder.work("; ".join(FRONTS.get(written, []) + lines))
        stream = "".join(line + "\n" for line in FRONTS.get(written, []) + verify + lines)
        return folder.work("racf init; racf script - -", stream)


def is_refused(ended):
    return ended.returncode >= USAGE or re.search(r"(?m)^\d+ REFUSED ", ended.stdout)


def says(ended, wanted):
    """The last line that is said or printed of what was written has these words at its front, behind the number."""
    return re.search(rf"(?m)^(\d+ (REFUSED )?)?{re.escape(wanted.removeprefix('REFUSED '))}( .*)?$", ended.stdout)


def row_held(program, row):
    """What holds of a row of the table of what you wrote."""
    written, wanted = [(names_in(cell) if cell.startswith("`") else [""])[0] for cell in row[:2]]
    if written and wanted and ".." not in written:
        ended = work(program, written, [written])
        yield says(ended, wanted), f"docs/GUIDE.md: `{written}` gets {ended.stdout!r}, and not `{wanted}`"
    for lines in instead(row, written):
        ended = work(program, written, lines)
        yield not is_refused(ended), f"docs/GUIDE.md: {lines}, instead of `{written}`, gets {ended.stdout!r}"


def check_written(program, guide):
    for row in cells(section(guide, "You wrote, you get, write instead")):
        yield from row_held(program, row)


def check_covers(program, guide):
    """Whether each profile of the guide's table covers the names that it is said to cover, and not the others."""
    table = [row for row in cells(section(guide, "Classes and the names of profiles")) if row[1] in ("DATASET", "FACILITY")]
    for profile, kind, covered, others in table:
        names = names_in(covered) + names_in(others)
        define = f"ADDSD '{names_in(profile)[0]}'" if kind == "DATASET" else f"RDEFINE FACILITY {names_in(profile)[0]}"
        lines = ["ADDGROUP PAY", "SETROPTS CLASSACT(FACILITY)", f"{define} UACC(READ)", "VERIFY A IBMUSER"]
        with Folder(program) as folder:
            ended = folder.work("racf init; racf script - -", "\n".join(lines + [f"AUTH A {kind} {name} READ" for name in names]))
        answers = [line.split()[2] for line in ended.stdout.splitlines()[len(lines):]]
        wanted = ["UACC"] * len(names_in(covered)) + ["NOPROFILE"] * len(names_in(others))
        yield answers == wanted, f"docs/GUIDE.md: {profile} of {kind}: {names} are answered {answers}"
