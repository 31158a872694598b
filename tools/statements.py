"""What the lines of a deck or of a file of requests are, for the scripts that lay what was printed beside them.

A command goes on over lines that end in `-` or `+`; all else stands in one line. Blank lines and comments are skipped.
"""
import re

LONGEST_LINE = 4096
MOST_NUMBER = 2**62
REQUESTS = {"VERIFY", "AUTH", "FASTAUTH", "DELETE", "*AFTER", "*ISSUER"}
NAMES_ISSUER = re.compile(rb"[ \t]*\*ISSUER[ \t]+([A-Z0-9$#@]{1,8})(?:[ \t]+(GROUP\([A-Z$#@][A-Z0-9$#@]{0,7}\)))?[ \t]*", re.I)


def lines_of(data):
    """The lines of a stream: their bytes without the end of the line."""
    lines = data.split(b"\n")
    if lines[-1] == b"":
        lines.pop()
    return lines


def text_of(line):
    return line[:-1] if line.endswith(b"\r") else line


def words_of(text):
    return [word for word in text.replace(b"\t", b" ").split(b" ") if word]


def first_word(text):
    words = words_of(text)
    return words[0].upper().decode("latin-1") if words else ""


def is_skipped(line):
    text = text_of(line)
    return len(line) <= LONGEST_LINE and (first_word(text) == "" or text.startswith(b"/*"))


def number_after(text):
    """The number that a line of `*AFTER` asks for; None where the line has another form, and is refused."""
    words = words_of(text)
    if len(words) != 2 or not words[1].isdigit() or (words[1][:1] == b"0" and words[1] != b"0"):
        return None
    return int(words[1]) if len(words[1]) <= 19 and int(words[1]) <= MOST_NUMBER else None


def goes_on(text):
    return text.rstrip(b" \t").endswith((b"-", b"+"))


def commands_of(data, requests=()):
    """The items of a deck: each a list of the lines that it stands in, one that is skipped too. A line whose first word is one of
    `requests`, or `*ISSUER`, stands alone."""
    lines, at = lines_of(data), 0
    while at < len(lines):
        first, line = at, lines[at]
        at += 1
        alone = is_skipped(line) or first_word(text_of(line)) in {"*ISSUER", *requests}
        while not alone and goes_on(text_of(line)) and len(line) <= LONGEST_LINE and at < len(lines):
            line = lines[at]
            at += 1
        yield lines[first:at]


def joined(lines):
    """The text of a command over its lines, and where the part of each line begins: in the text, and in the line."""
    parts, places, length, strips = [], [], 0, False
    for line in map(text_of, lines):
        begin = len(line) - len(line.lstrip(b" \t")) if strips else 0
        marked = line.rstrip(b" \t")
        part = marked[begin:-1] if goes_on(line) else line[begin:]
        strips = marked.endswith(b"+")
        places.append((length, begin))
        parts.append(part)
        length += len(part)
    return b"".join(parts), places


def shown(text):
    """A text as it is printed: bytes that aren't UTF-8, and what no terminal shows, are written as \\xNN and \\uNNNN."""
    letters = text.decode("utf-8", "backslashreplace")
    return letters if letters.isprintable() else "".join(letter if letter.isprintable() or letter == "\t" else escaped(letter) for letter in letters)


def escaped(letter):
    return f"\\x{ord(letter):02x}" if ord(letter) < 0x80 else f"\\u{ord(letter):04x}"
