"""Runs of decks and request files, held against `script`, for the scripts that run the built program.

What a run prints depends on how its threads meet; but it is right exactly where some stream prints the same. So the accepted
commands of all decks are laid into one stream, in the order of their numbers, each behind a line that names its issuer. Into it
go, file by file, the other lines of a deck or of a request file, each behind so many accepted commands as the number that was
printed for it says, and `script` works that stream at a copy of the database as it was before the run: it has to print the same.
The stream of the accepted commands alone has to leave the same disks. What a stream can't tell is held here: that the numbers of
a file don't fall, that a line which decides nothing has the number that its worker saw last, that no number is accepted twice, and
that `*AFTER` holds. `script` itself is held against an independent program by the stored streams.
"""
import itertools
import os
import pathlib
import shutil
import subprocess
import tempfile

import databases
import statements

BEFORE = "before"
SECONDS = 120
# How much of a fault is told.
MOST_BYTES = 300
ACCEPTED, NEVER, AUDIT = b"ACCEPTED", b"NEVER", b"AUDIT"
# What lines that decide nothing print behind their number: one of a deck, and those of a request file.
TOO_LONG, DELETED, REFUSED = b"REFUSED LINETOOLONG", b"0 DELETED", b"REFUSED "
# The status where a line was refused.
REFUSALS = 4
# A word that no command has, in place of a request's in a deck, where that is a command which isn't known.
NO_COMMAND = b"NOSUCHCOMMAND"
FIRST_ISSUER = b"*ISSUER IBMUSER"


class Wrong(Exception):
    """What is wrong with a run, in words."""


def told(output, is_cut):
    """The lines of an output. One that was cut off may end within a line."""
    lines = output.split(b"\n")
    if lines.pop() and not is_cut:
        raise Wrong("the output's last line doesn't end")
    return lines


def number_of(line):
    word = line.partition(b" ")[0]
    if not word.isdigit():
        raise Wrong(f"no number in front of {line[:MOST_BYTES]!r}")
    return int(word)


class Placed:
    """A statement, the lines printed for it, and behind how many accepted commands it stands."""

    def __init__(self, number, lines, printed, issuer=FIRST_ISSUER):
        self.number, self.lines, self.printed, self.issuer = number, lines, printed, issuer


def in_stream(lines):
    """A deck's command as the stream has it: one whose first word is that of a request begins with no command's word, and one that
    goes on where the deck ends has an empty line behind it."""
    word = statements.first_word(statements.text_of(lines[0]))
    if word in statements.REQUESTS - {"*ISSUER"}:
        at = lines[0].upper().index(word.encode())
        lines = [lines[0][:at] + NO_COMMAND + lines[0][at + len(word):], *lines[1:]]
    goes_on = word != "*ISSUER" and len(lines[-1]) <= statements.LONGEST_LINE and statements.goes_on(statements.text_of(lines[-1]))
    return [*lines, b""] if goes_on else lines


class Deck:
    """What a deck says of the history: its accepted commands by their numbers, its other lines, and what wasn't answered."""

    def __init__(self, data, output, is_cut, first):
        self.accepted, self.others, self.unanswered, self.lowest = {}, [], [], first
        answers, issuer = iter(told(output, is_cut)), FIRST_ISSUER
        for lines in statements.commands_of(data):
            names = statements.NAMES_ISSUER.fullmatch(statements.text_of(lines[0]))
            if statements.is_skipped(lines[0]):
                continue
            if names and len(lines[0]) <= statements.LONGEST_LINE:
                issuer = b" ".join(word for word in (b"*ISSUER", *names.groups()) if word)
                continue
            answer = next(answers, None)
            if answer is None:
                self.unanswered.append((lines, issuer))
                continue
            self.place(number_of(answer), in_stream(lines), answer, issuer)
        self.end(next(answers, None), is_cut)

    def place(self, number, lines, answer, issuer):
        words = answer.partition(b" ")[2]
        is_accepted = words == ACCEPTED
        decides = words != TOO_LONG and statements.first_word(statements.text_of(lines[0])) != "*ISSUER"
        if number < self.lowest + is_accepted or (number != self.lowest and not decides):
            raise Wrong(f"{answer[:MOST_BYTES]!r} behind {self.lowest}")
        self.lowest = number
        if is_accepted:
            self.accepted[number] = Placed(number, lines, [answer], issuer)
        else:
            self.others.append(Placed(number, lines, [answer], issuer))

    def is_refused(self):
        return bool(self.others)

    def end(self, more, is_cut):
        if more is not None or (self.unanswered and not is_cut):
            raise Wrong("a line without an answer, or an answer without a line")


class Requests:
    """What a file of requests says of the history: each line, behind the number that it printed."""

    def __init__(self, data, output, is_cut, first, last):
        self.others, self.answers, self.has_refused = [], told(output, is_cut), False
        # What was seen last: behind a wait its least is known.
        self.lowest, self.last, self.is_exact = first, last, True
        for line in statements.lines_of(data):
            if is_cut and not self.answers:
                return
            if not statements.is_skipped(line) and not self.waits(line):
                self.place(line)
        if self.answers:
            raise Wrong(f"no line for {self.answers[0][:MOST_BYTES]!r}")

    def waits(self, line):
        """Whether this line is `*AFTER` with a number: it printed nothing where that was reached, else NEVER and the last number."""
        text = statements.text_of(line)
        is_after = statements.first_word(text) == "*AFTER" and len(line) <= statements.LONGEST_LINE
        after = statements.number_after(text) if is_after else None
        if after is None:
            return False
        if after <= self.last:
            self.is_exact = self.is_exact and after <= self.lowest
            self.lowest = max(self.lowest, after)
        elif self.answers[:1] == [b"%s %d" % (NEVER, self.last)]:
            self.answers.pop(0)
            self.rise(self.last, True)
            self.has_refused = True
        else:
            raise Wrong(f"{self.answers[:1]!r} for a wait for {after} of {self.last}")
        return True

    def rise(self, number, decides):
        if not self.lowest <= number <= self.last or (self.is_exact and not decides and number != self.lowest):
            raise Wrong(f"{number} behind {self.lowest} of {self.last}")
        self.lowest, self.is_exact = number, True

    def place(self, line):
        if not self.answers:
            raise Wrong(f"nothing printed for {line[:MOST_BYTES]!r}")
        printed = [self.answers.pop(0)]
        number = number_of(printed[0])
        while self.answers and self.answers[0].partition(b" ")[0] == AUDIT:
            printed.append(self.answers.pop(0))
        words = printed[0].partition(b" ")[2]
        self.rise(number, words != DELETED and not words.startswith(REFUSED))
        text = statements.text_of(line)
        if len(line) <= statements.LONGEST_LINE and statements.first_word(text) not in statements.REQUESTS - {"*ISSUER"}:
            at = 1 + len(text) - len(text.lstrip(b" \t"))
            if printed != [b"%d REFUSED BADLINE %d" % (number, at)]:
                raise Wrong(f"{printed!r} for a line that is no request")
            self.has_refused = True
            return
        self.others.append(Placed(number, [line], printed))

    def is_refused(self):
        return self.has_refused or any(is_refusal(placed) for placed in self.others)


def is_refusal(placed):
    return placed.printed[0].split(b" ")[1] == b"REFUSED"


def merged(first, accepted, others):
    """A stream of the accepted commands behind the first ones, with the others between, and what it has to print."""
    stream, wanted, rest = [], [], list(others)
    for number in [first, *sorted(accepted)]:
        if number in accepted:
            stream += [accepted[number].issuer, *accepted[number].lines]
            wanted += accepted[number].printed
        while rest and rest[0].number <= number:
            placed = rest.pop(0)
            stream += [placed.issuer, *placed.lines]
            wanted += placed.printed
    if rest:
        raise Wrong(f"{rest[0].printed[0][:MOST_BYTES]!r}, and fewer were accepted")
    return b"".join(line + b"\n" for line in stream), b"".join(line + b"\n" for line in wanted)


def worked(program, before, stream):
    """What the program prints for a stream at a copy of the database as it was, and the disks that it leaves."""
    with databases.new_folder() as folder:
        for disk in databases.DISKS:
            shutil.copyfile(pathlib.Path(before) / disk, pathlib.Path(folder) / disk)
        run = subprocess.run([program, "script", "-", "-"], input=stream, cwd=folder, capture_output=True, timeout=SECONDS)
        return run.stdout, [(pathlib.Path(folder) / disk).read_bytes() for disk in databases.DISKS]


def hold(program, before, name, history, others):
    """Holds the lines of one file, or the accepted commands alone, against `script`, and gives the disks that these leave."""
    stream, wanted = merged(*history, others)
    printed, disks = worked(program, before, stream)
    for want, got in itertools.zip_longest(wanted.split(b"\n"), printed.split(b"\n")):
        if want != got:
            raise Wrong(f"{name}: printed {(want or b'nothing')[:MOST_BYTES]!r}, and script prints {(got or b'nothing')[:MOST_BYTES]!r}")
    return disks


def together(decks):
    """The accepted commands of all decks by their numbers."""
    accepted = {}
    for deck in decks:
        for number, placed in deck.accepted.items():
            if number in accepted:
                raise Wrong(f"{number} is accepted twice")
            accepted[number] = placed
    return accepted


def begin_with(disks, front):
    """Whether these disks begin with all of the others but their last gate."""
    return all(disk.startswith(other[:-1]) for disk, other in zip(disks, front))


def unacknowledged(program, before, disks, first, accepted, decks, number):
    """The command of this number, which no deck was told of: one that stands unanswered in a deck, and leads to the disks. What was
    refused in front of it may be unanswered too, since refusals wait to be written."""
    earlier = {earlier: placed for earlier, placed in accepted.items() if earlier < number}
    for deck in decks:
        for lines, issuer in deck.unanswered:
            placed = Placed(number, in_stream(lines), [b"%d ACCEPTED" % number], issuer)
            stream, wanted = merged(first, {**earlier, number: placed}, [])
            printed, front = worked(program, before, stream)
            if printed == wanted and begin_with(disks, front):
                deck.unanswered = []
                return placed
    raise Wrong(f"{number} is the number of no command of a deck")


def history(program, before, disks, decks, first, last):
    """How many commands led to the run, and the accepted ones by their numbers, which leave these disks."""
    accepted = together(decks)
    for number in range(first + 1, last + 1):
        if number not in accepted:
            accepted[number] = unacknowledged(program, before, disks, first, accepted, decks, number)
    if sorted(accepted) != list(range(first + 1, last + 1)):
        raise Wrong(f"the disks have the commands from {first + 1} to {last}, and the decks were told of {sorted(accepted)}")
    if hold(program, before, "the decks", (first, accepted), []) != disks:
        raise Wrong("the accepted commands leave other disks")
    return first, accepted


def number_at(program, folder):
    """How many commands the database has, by itself."""
    printed, disks = worked(program, folder, b"*AFTER %d\n" % statements.MOST_NUMBER)
    if not printed.startswith(NEVER + b" "):
        raise Wrong(f"the database isn't opened, or more is printed: {printed[:MOST_BYTES]!r}")
    return int(printed.split(b" ")[1]), disks


def judge(program, before, after, decks, names, is_killed=False, status=None):
    """Raises what is wrong with a run, of which the folders `before` and `after` have the disks, and `after` the files."""
    after = pathlib.Path(after)
    (first, _), (last, disks) = number_at(program, before), number_at(program, after)
    files = []
    for place, name in enumerate(names):
        output = after / f"{name}.out"
        data = output.read_bytes() if output.exists() or not is_killed else b""
        given = (after / name).read_bytes(), data, is_killed, first
        try:
            files.append(Deck(*given) if place < decks else Requests(*given, last))
        except Wrong as wrong:
            raise Wrong(f"{name}: {wrong}") from None
    along = history(program, before, disks, [file for file in files if isinstance(file, Deck)], first, last)
    for name, file in zip(names, files):
        hold(program, before, name, along, file.others)
    if status is not None and status != (REFUSALS if any(file.is_refused() for file in files) else 0):
        raise Wrong(f"status {status}")


def keep_disks(folder):
    """Copies the disks of the folder, for what is held against the run."""
    before = pathlib.Path(folder) / BEFORE
    before.mkdir(exist_ok=True)
    for disk in databases.DISKS:
        (before / disk).unlink(missing_ok=True)
        if (pathlib.Path(folder) / disk).exists():
            shutil.copyfile(pathlib.Path(folder) / disk, before / disk)


def words(program, decks, names):
    """The words of a run of the program."""
    return [program, "run", str(decks), *names]


def verdict(program, folder, decks, names, is_killed=False, status=None):
    """What is wrong with a run since the disks were kept, in words; None where nothing is."""
    try:
        judge(program, pathlib.Path(folder) / BEFORE, folder, decks, names, is_killed, status)
    except Wrong as wrong:
        return f"run {decks} {' '.join(names)}: {wrong}"
    return None


def run_fault(program, folder, decks, names):
    """Runs these decks and request files at the database of the folder: what is wrong, in words; None where nothing is."""
    keep_disks(folder)
    run = subprocess.run(words(program, decks, names), cwd=folder, capture_output=True, timeout=SECONDS)
    if run.stdout or run.stderr:
        return f"run {decks} {' '.join(names)}: status {run.returncode}, said {(run.stdout + run.stderr)[:MOST_BYTES]!r}"
    return verdict(program, folder, decks, names, status=run.returncode)


def kept(folder):
    """A copy of a folder that stays, for whoever looks for the fault."""
    copy = tempfile.mkdtemp(prefix="racf-run-")
    return shutil.copytree(folder, os.path.join(copy, "run"))
