"""The program `decision_times`, asked row by row, with the time of each answer."""
import os, subprocess, sys, time

top = os.path.dirname(os.path.dirname(os.path.realpath(__file__)))
program = os.environ.get("TIMES", os.path.join(top, "crates", "decision_times", "out", "decision_times"))
if not os.path.isfile(program):
    raise SystemExit(f"bench/{os.path.basename(sys.argv[0])}: no built program at {program}; .ci/run builds it")


class Program:
    """The program, given rows that make what is asked, and then asked."""

    def __init__(self, rows):
        self.process = subprocess.Popen([program], stdin=subprocess.PIPE, stdout=subprocess.PIPE, text=True)
        self.give(rows)

    def __enter__(self):
        return self

    def __exit__(self, *_):
        self.process.communicate()

    def give(self, rows):
        """Gives rows that print nothing."""
        self.process.stdin.writelines(row + "\n" for row in rows)

    def ask(self, row, lines=1):
        """The lines that a row prints."""
        self.process.stdin.write(row + "\n")
        self.process.stdin.flush()
        printed = [self.process.stdout.readline().rstrip("\n") for _ in range(lines)]
        if "" in printed:
            raise SystemExit(f"decision_times: no answer to {row[:60]}")
        return printed

    def seconds(self, row, yes, runs=10):
        """The seconds of a row that is answered with the number `yes`: the least of some runs."""
        return min(self.run(row, yes) for _ in range(runs))

    def microseconds(self, row, yes, questions=1):
        """Microseconds of each of the questions that a row asks so many times as it is given, of which `yes` are answered so.
        They are asked until it takes 20 milliseconds, and what the row takes without them is taken off."""
        self.run(row(0), 0)  # waits for the rows that were given
        times = 1
        while self.seconds(row(times), times * yes, runs=3) < 0.02:
            times *= 2
        return (self.seconds(row(times), times * yes) - self.seconds(row(0), 0)) * 1e6 / (times * questions)

    def run(self, row, yes):
        begun = time.monotonic()
        (printed,) = self.ask(row)
        took = time.monotonic() - begun
        if printed != str(yes):
            raise SystemExit(f"decision_times: {row[:60]} gave {printed} and not {yes}")
        return took
