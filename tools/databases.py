"""New databases, each in a folder of its own, for the scripts that run the built program.

`racf script` works at the database of the folder that it runs in, and each command that it accepts waits for two syncs. So
these folders lie in memory, where the system has a place for files there.
"""
import os
import subprocess
import tempfile

IN_MEMORY = "/dev/shm"
# The files of a database.
DISKS = ("racf.db1", "racf.db2")


def new_folder():
    """A temporary folder, which `with` takes away again."""
    return tempfile.TemporaryDirectory(dir=IN_MEMORY if os.access(IN_MEMORY, os.W_OK | os.X_OK) else None)


def init(program, folder):
    """Makes a new database in the folder, whatever its files held."""
    subprocess.run([program, "init", "over"], cwd=folder, stdin=subprocess.DEVNULL, check=True, timeout=60)


def record(text, issuer="IBMUSER", group="SYS1"):
    """The record of a command: its canonical text, with who gave it and the group that was current for him."""
    rest = issuer.ljust(8).encode() + group.ljust(8).encode() + text.encode()
    return len(rest).to_bytes(4, "big") + rest
