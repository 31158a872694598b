#!/usr/bin/env python3
"""asker.py PROGRAM USER CLASS NAME LEVEL: asks racf through pipes whether a user may use a resource at a level.

PROGRAM is racf, and this folder has its database. Prints what was answered; lines of AUDIT go to standard error. The exit status is
0 for yes, 1 for everything else, and 2 where racf can't be started or ended, which has said why on standard error then.
"""
import re
import subprocess
import sys

# A word of a request: without a blank and the end of a line in it, so that it stays one word of one line.
WORD = re.compile(r"[A-Za-z0-9#$@._/:-]{1,246}")
# No database has this user: whatever the lines hold, no command is accepted.
NOBODY = "NOBODY"
# The name of the one ACEE, which stands for a question alone.
ACEE = "A"


class Ended(Exception):
    """racf ended, with this status: nothing is answered any longer."""


class Asker:
    """racf at work at the database of a folder, which is asked line by line. What it says goes to the log, and lines of AUDIT."""

    WORDS = ["script", "--issuer", NOBODY, "-", "-"]

    def __init__(self, program, folder=".", log=sys.stderr):
        self.racf = subprocess.Popen([program, *self.WORDS], cwd=folder, stdin=subprocess.PIPE, stdout=subprocess.PIPE, stderr=log)
        self.log = log

    def line(self):
        """The next line that racf printed."""
        line = self.racf.stdout.readline().decode()
        if not line.endswith("\n"):
            raise Ended(self.racf.wait())
        return line[:-1]

    def write(self, line):
        """Writes a line."""
        try:
            self.racf.stdin.write(line.encode() + b"\n")
            self.racf.stdin.flush()
        except BrokenPipeError:
            raise Ended(self.racf.wait()) from None

    def answer(self, *words):
        """The answer to a request of these words. What is logged of the request before it stands in front."""
        self.write(" ".join(words))
        line = self.line()
        while line.startswith("AUDIT "):
            print(line, file=self.log, flush=True)
            line = self.line()
        return line

    def may(self, user, kind, name, level):
        """Whether the user may use the resource of this class at the level, and the answer that decided it."""
        for word in (user, kind, name, level):
            if not WORD.fullmatch(word):
                raise ValueError(f"no word of a request: {word!r}")
        answer = self.answer("VERIFY", ACEE, user)
        if answer.split(" ")[1:] != ["0", "VERIFIED"]:
            return False, answer
        answer = self.answer("AUTH", ACEE, kind, name, level)
        self.answer("DELETE", ACEE)
        return answer.split(" ")[1] == "0", answer

    def close(self):
        """Ends racf, and tells its status."""
        self.racf.stdin.close()
        self.racf.stdout.close()
        return self.racf.wait()


def main():
    if len(sys.argv) != 6:
        sys.exit("usage: asker.py PROGRAM USER CLASS NAME LEVEL")
    try:
        asker = Asker(sys.argv[1])
        allowed, answer = asker.may(*sys.argv[2:])
    except OSError as fault:
        print(f"asker.py: {fault}", file=sys.stderr)
        return 2
    except Ended as status:
        print(f"asker.py: racf ended with {status}", file=sys.stderr)
        return 2
    except ValueError as unfit:
        allowed, answer = False, unfit
    print(answer)
    asker.close()
    return 0 if allowed else 1


if __name__ == "__main__":
    sys.exit(main())
