#!/usr/bin/env python3
"""questions.py PROGRAM FILE: asks racf through pipes what users may do, and can change nothing.

PROGRAM is racf, and this folder has its database. Each line of FILE is a question: USER CLASS NAME LEVEL. Prints yes or no for each,
and what was answered; lines of AUDIT go to standard error. racf has read the database when the first is answered, and others go on
working it. The exit status is 0 where all are answered yes, 1 for everything else, and 2 where racf can't be started or ended.
"""
import sys

from asker import Asker, Ended


class Questions(Asker):
    """racf, which answers questions alone. In front of what it prints stands the number of the line that was written: so an answer
    is never taken for that of another question."""

    WORDS = ["ask", "-n", "-", "-"]

    def __init__(self, program, folder=".", log=sys.stderr):
        super().__init__(program, folder, log)
        self.written = 0

    def answer(self, *words):
        """The answer to a request of these words. What is logged of the request before it stands in front, with its number."""
        line = " ".join(words)
        self.written += 1 + line.count("\n")
        self.write(line)
        number, told = self.line().split(" ", 1)
        while int(number) < self.written and told.startswith("AUDIT "):
            print(told, file=self.log, flush=True)
            number, told = self.line().split(" ", 1)
        if int(number) != self.written:
            raise ValueError(f"{told!r} isn't the answer to {line!r}")
        return told


def main():
    if len(sys.argv) != 3:
        sys.exit("usage: questions.py PROGRAM FILE")
    all_allowed = True
    try:
        questions = Questions(sys.argv[1])
        with open(sys.argv[2]) as file:
            for question in map(str.split, file):
                try:
                    allowed, answer = questions.may(*question)
                except (TypeError, ValueError) as unfit:
                    allowed, answer = False, unfit
                print("yes" if allowed else "no", *question, "-", answer)
                all_allowed = all_allowed and allowed
        questions.close()
    except OSError as fault:
        print(f"questions.py: {fault}", file=sys.stderr)
        return 2
    except Ended as status:
        print(f"questions.py: racf ended with {status}", file=sys.stderr)
        return 2
    return 0 if all_allowed else 1


if __name__ == "__main__":
    sys.exit(main())
