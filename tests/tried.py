"""What the scripts that try the built program at its edges share: what holds is counted, and what doesn't is printed."""
import os
import subprocess
import sys

sys.path.append(os.path.join(os.path.dirname(os.path.realpath(__file__)), "..", "tools"))
import databases

DONE, REFUSALS, USAGE, READ_FAULT, WRITE_FAULT, DISK_FAULT, NO_DATABASE, NO_MEMORY, TOO_LONG = 0, 4, 8, 12, 16, 20, 24, 28, 36
# The first line on standard error of each status from 8 on.
WORDS = {USAGE: "USAGE", READ_FAULT: "READ FAULT", WRITE_FAULT: "WRITE FAULT", DISK_FAULT: "DISK FAULT", NO_DATABASE: "NOT FORMATTED",
         NO_MEMORY: "NO MEMORY", TOO_LONG: "INPUT TOO LONG"}
SECONDS = 60


class Tried:
    """A script's program, and what held of it."""

    def __init__(self, name):
        if len(sys.argv) != 2 or not os.path.isfile(sys.argv[1]):
            sys.exit(f"{name}: no built program at " + " ".join(sys.argv[1:]) + "; .ci/run and ./racf build it")
        self.name, self.program = name, os.path.abspath(sys.argv[1])
        self.held, self.failed = 0, 0

    def hold(self, fact, told):
        """Counts what holds, and prints what doesn't."""
        if fact:
            self.held += 1
        else:
            self.failed += 1
            print(f"{self.name}: {told}")

    def run(self, *words, **how):
        """How the program ends with these words."""
        how = {"stdin": subprocess.DEVNULL, "capture_output": True, "timeout": SECONDS} | how
        if "input" in how:
            del how["stdin"]
        if "stdout" in how or "stderr" in how:
            del how["capture_output"]
        return subprocess.run([self.program, *words], **how)

    def ends(self, status, *words, says=None, prints=None, **how):
        """Runs the program and holds its status, the first line on standard error with these lines behind it, and what it prints.
        Gives how it ended."""
        ended = self.run(*words, **how)
        told = f"racf {' '.join(words)}: status {ended.returncode}, printed {(ended.stdout or b'')[:120]!r}, said {(ended.stderr or b'')[:300]!r}"
        self.hold(ended.returncode == status, f"{told}; the status is to be {status}")
        if says is not None:
            wanted = [WORDS[status], *says] if status in WORDS else list(says)
            self.hold((ended.stderr or b"").decode().splitlines() == wanted, f"{told}; to be said is {wanted}")
        if prints is not None:
            self.hold((ended.stdout or b"").decode() == prints, f"{told}; to be printed is {prints!r}")
        return ended

    def finish(self):
        """Says what held, and ends with its status."""
        print(f"{self.name}: {self.held} hold" + (f", {self.failed} don't" if self.failed else ""))
        sys.exit(1 if self.failed else 0)


def content(name):
    """What a file holds; None where there is none."""
    try:
        with open(name, "rb") as file:
            return file.read()
    except FileNotFoundError:
        return None


def put(name, text):
    """Makes a file of these bytes."""
    with open(name, "wb") as file:
        file.write(text)


def database():
    """What the two files of the database in this folder hold."""
    return [content(disk) for disk in databases.DISKS]


def verified(tried, *users):
    """What VERIFY answers for each of these users, without the number, at the database of this folder."""
    stream = "".join(f"VERIFY A{place} {user}\n" for place, user in enumerate(users)).encode()
    ended = tried.run("script", "-", "-", input=stream)
    return [line.split(" ", 1)[1] for line in ended.stdout.decode().splitlines()]
