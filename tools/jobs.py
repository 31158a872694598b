"""What of a file is TSO's input: the lines between JCL, and the commands in them without their comments.

Of a job that is what SYSTSIN reads from the job itself; of a file without JCL it is every line. READY, what TSO and RACF print, and
sequence numbers are taken away. A report keeps what was done with which lines.
"""
import codecs
import collections
import re

from commands import BLANKS, GAPS
from statements import goes_on, joined, lines_of, text_of

STATEMENT = re.compile(r"//(\S*) +(\S+) *(.*)")
IN_STREAM = re.compile(r"(\*|DATA)(?=,|\s|$)")
DELIMITER = re.compile(r"\bDLM=(?:'(..)'|([^\s,]{2}))")
# Who gives the commands of a job, and the command that a step begins with.
BESIDES = (
    (re.compile(r"\bUSER=[('\"]*([A-Za-z0-9#$@]+)"), "left out: {} gives the commands there; here IBMUSER does, or whom a line *ISSUER names"),
    (re.compile(r"\b(PARM)="), "left out: {} of a step, which may be a command"),
)
SEQUENCE_NUMBER = re.compile(r".{72}[0-9]{8}")
PRINTED = re.compile(r"\s*(?:ICH|IKJ|IRR|IEF)[0-9]+[A-Z]\b")
# Where a line stands.
JCL, INPUT, OTHER = "JCL", "the input of TSO", "other data"
TAKEN = "JCL, taken away"
CLOSES = re.compile(r"\*/(?=[ \t]|$)")


class Report:
    """What was done, each with the lines that it is about, and whether something was left out by it."""

    def __init__(self):
        self.entries = []

    def put(self, first, last, text, is_left_out=False):
        """Neighbours of which the same is said become one entry."""
        if self.entries and self.entries[-1][1:3] == (first - 1, text):
            first = self.entries.pop()[0]
        self.entries.append((first, last, text, is_left_out))

    def lines(self):
        for first, last, text, _ in sorted(self.entries, key=lambda entry: entry[0]):
            yield f"racf: line {first}: {text}" if first == last else f"racf: lines {first} to {last}: {text}"

    def has_left_out(self):
        return any(is_left_out for _, _, _, is_left_out in self.entries)


class Job:
    """Reads the lines of a file, and keeps those of TSO's input in parts: no command goes on from one part to the next."""

    def __init__(self, report, is_job):
        self.report, self.is_job, self.place, self.parts = report, is_job, JCL if is_job else INPUT, [[]]
        # of the data: the name of its DD, what ends it, and whether lines of JCL are data in it
        self.name, self.delimiter, self.holds_jcl = "", "/*", False
        self.goes_on, self.was_ready = False, False

    def take(self, number, line):
        is_data = self.place != JCL
        if self.is_job and is_data and line.startswith(self.delimiter):
            self.report.put(number, number, "JCL that ends the input, taken away" if line[2:].strip() else TAKEN)
            self.leave()
        elif self.is_job and line.startswith("//") and not (is_data and self.holds_jcl):
            self.report.put(number, number, TAKEN)
            self.statement(number, line)
        elif self.place == INPUT:
            self.input(number, line)
        elif not is_data and line.startswith("/*"):
            self.report.put(number, number, TAKEN)
        elif line.strip(BLANKS):
            self.report.put(number, number, f"left out: {'data of ' + self.name if is_data else 'it stands'} outside SYSTSIN", True)

    def leave(self):
        self.place = JCL
        self.parts.append([])

    def statement(self, number, line):
        """A line of JCL: a comment, a statement, or more of the statement before."""
        if line.startswith("//*"):
            if not self.goes_on:
                self.leave()
            return
        for form, text in BESIDES:
            found = form.search(line)
            if found:
                self.report.put(number, number, text.format(found.group(1)), True)
        is_more, self.goes_on = self.goes_on, line[:71].rstrip().endswith(",")
        if not is_more:
            self.leave()
            self.definition(number, STATEMENT.match(line))
        given = DELIMITER.search(line)
        if given:
            self.delimiter, self.holds_jcl = given.group(1) or given.group(2), True

    def definition(self, number, found):
        """What a statement says of the data behind it, where it is a DD statement."""
        if not found or found.group(2) != "DD":
            return
        self.name = found.group(1) or self.name
        in_stream, is_input = IN_STREAM.match(found.group(3)), self.name.split(".")[-1] == "SYSTSIN"
        if in_stream:
            self.place = INPUT if is_input else OTHER
            self.delimiter, self.holds_jcl = "/*", in_stream.group(1) == "DATA"
        elif is_input:
            self.report.put(number, number, "left out: SYSTSIN reads what isn't in this file", True)

    def input(self, number, line):
        """A line of TSO's input."""
        if SEQUENCE_NUMBER.fullmatch(line):
            line = line[:72]
            self.report.put(number, number, "the sequence number in columns 73 to 80, taken away")
        word = line.strip(BLANKS).upper()
        is_end = word == "END" and self.was_ready
        self.was_ready = word == "READY"
        if self.was_ready or is_end or PRINTED.match(line):
            self.report.put(number, number, "what TSO printed, taken away")
            self.parts.append([])
        else:
            self.parts[-1].append((number, line))


def begins_comment(text, at):
    """A comment begins there: at the beginning, or behind a blank, a comma or a parenthesis."""
    return text.startswith("/*", at) and (at == 0 or text[at - 1] in GAPS + "()")


def without_comments(text):
    """The text with a blank for each comment, and whether the last one is left open; quotes hide them."""
    if "/*" not in text:
        return text, False
    kept, at, is_quoted = [], 0, False
    while at < len(text):
        if is_quoted or not begins_comment(text, at):
            is_quoted ^= text[at] == "'"
            kept.append(text[at])
            at += 1
            continue
        end = text.find("*/", at + 2)
        if end < 0:
            return "".join(kept), True
        kept.append(" ")
        at = end + 2
    return "".join(kept), False


def rest_behind_comment(lines):
    """Takes the lines of a comment away that began before them, and tells the last one's number; None where none of them closes it
    before another one begins. What stands behind the comment stays, as a line."""
    for count, (number, line) in enumerate(lines):
        closes = CLOSES.search(line.partition("/*")[0])
        if closes:
            for _ in range(count + 1):
                lines.popleft()
            lines.appendleft((number, line[closes.end():]))
            return number
        if "/*" in line:
            return None
    return None


def text_over(taken):
    """The text of a command over its lines."""
    return joined([line.encode("latin-1") for _, line in taken])[0].decode("latin-1")


def is_going_on(line):
    return goes_on(line.encode("latin-1"))


def commands_in(part, report):
    """The commands of a part of TSO's input: the first and the last line of each, its text, and whether the part ends within it."""
    lines = collections.deque(part)
    while lines:
        taken = [lines.popleft()]
        while is_going_on(taken[-1][1]) and lines:
            taken.append(lines.popleft())
        first, last, text = taken[0][0], taken[-1][0], text_over(taken)
        kept, is_open = without_comments(text)
        end = rest_behind_comment(lines) if is_open else None
        if end:
            report.put(last, end, "a comment over lines without a mark, which TSO would read as commands: left out", True)
        elif kept != text:
            report.put(first, last, "comment, taken away")
        if kept.strip(GAPS):
            yield first, last, kept, is_going_on(taken[-1][1])


def commands_of(data, report):
    """The commands of a file."""
    lines = [text_of(line).decode("latin-1") for line in lines_of(data.removeprefix(codecs.BOM_UTF8))]
    job = Job(report, any(line.startswith("//") for line in lines))
    for number, line in enumerate(lines, 1):
        job.take(number, line)
    for part in job.parts:
        yield from commands_in(part, report)
