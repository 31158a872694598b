"""How a tool that a person calls ends: with a status as the program's, and one line on standard error where it isn't 0.

8 is usage, 12 an input that can't be read, 16 an output that can't be written, 130 a run that was stopped by Ctrl-C. Nothing is
said of a pipe that nobody reads.
"""
import errno
import fcntl
import os
import stat

from databases import DISKS

USAGE, READ_FAULT, WRITE_FAULT, STOPPED = 8, 12, 16, 130
REASONS = {errno.ENOENT: "no such file", errno.EACCES: "permission denied", errno.EISDIR: "a folder", errno.ENOSPC: "no room",
           errno.EBADF: "closed"}


# How a file of a database begins, and the file beside it that a sync which failed leaves.
BEGINNING, LOST = b"RACFDB01", "racf.lost"
OF_DATABASE = "a file of a database"


class End(Exception):
    """The status, and the line."""

    def __init__(self, status, line):
        super().__init__(line)
        self.status, self.line = status, line


def reason(fault):
    return REASONS.get(fault.errno) or os.strerror(fault.errno).lower()


def read(name):
    """The bytes of a file, or of standard input where the name is `-`."""
    try:
        with open(0 if name == "-" else name, "rb", closefd=name != "-") as file:
            return file.read()
    except OSError as fault:
        raise End(READ_FAULT, f"racf: {'standard input' if name == '-' else name}: {reason(fault)}")


def same_as(status, name):
    """A name, or standard input where it is `-`, is that of the file with this status."""
    try:
        return os.path.samestat(status, os.fstat(0) if name == "-" else os.stat(name))
    except OSError:
        return False


def has_name_of_database(name):
    return os.path.basename(os.path.realpath(name)) in (*DISKS, LOST)


def is_of_database(status, path):
    """A file is one of a database: of this folder's by its place, or of any by its name or by how it begins."""
    if has_name_of_database(path) or any(same_as(status, disk) for disk in (*DISKS, LOST)):
        return True
    try:
        with open(path, "rb") as file:
            return file.read(len(BEGINNING)) == BEGINNING
    except PermissionError:
        return False


def is_locked(path):
    """Another program holds the file locked. Where locks aren't known, none does."""
    file = os.open(path, os.O_WRONLY)
    try:
        fcntl.flock(file, fcntl.LOCK_EX | fcntl.LOCK_NB)
    except BlockingIOError:
        return True
    except OSError:
        pass
    finally:
        os.close(file)
    return False


def why_kept(out, inputs):
    """Why an output that is open is kept as it is; None where it is written."""
    status, path = os.fstat(out), f"/proc/self/fd/{out}"
    if not stat.S_ISREG(status.st_mode):
        return None
    if any(same_as(status, name) for name in inputs):
        return "an input too"
    if is_of_database(status, path):
        return OF_DATABASE
    return "locked by another program" if is_locked(path) else None


def opened(name):
    """The file of that name, open to be written and as it is; it is made where none is there, but not behind a link."""
    try:
        return os.open(name, os.O_WRONLY)
    except FileNotFoundError:
        pass
    try:
        return os.open(name, os.O_WRONLY | os.O_CREAT | os.O_EXCL, 0o666)
    except FileExistsError:
        raise End(WRITE_FAULT, f"racf: {name}: a link that leads to no file")


def write(name, data, inputs=()):
    """Writes the bytes to a file, or to standard output where the name is `-`. One of the inputs, what is of a database, and what
    another program holds locked, are kept as they are."""
    is_named, told = name != "-", "standard output" if name == "-" else name
    try:
        if is_named and has_name_of_database(name):
            raise End(WRITE_FAULT, f"racf: {told}: {OF_DATABASE}")
        with open(opened(name) if is_named else 1, "wb", closefd=is_named) as file:
            kept = why_kept(file.fileno(), inputs)
            if kept:
                raise End(WRITE_FAULT, f"racf: {told}: {kept}")
            if is_named and stat.S_ISREG(os.fstat(file.fileno()).st_mode):
                file.truncate()
            file.write(data)
    except BrokenPipeError:
        raise
    except OSError as fault:
        raise End(WRITE_FAULT, f"racf: {told}: {reason(fault)}")


def say(lines):
    """Says lines on standard error; where nobody hears them the status stays."""
    try:
        with open(2, "wb", closefd=False) as out:
            out.write("".join(line + "\n" for line in lines).encode())
    except OSError:
        pass


def status_of(work):
    """The status that `work` answers, or that its end has."""
    try:
        return work()
    except End as end:
        say([end.line])
        return end.status
    except KeyboardInterrupt:
        say(["racf: stopped"])
        return STOPPED
    except BrokenPipeError:
        return WRITE_FAULT
