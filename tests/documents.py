"""The parts of a document: prose, sections, rows of tables, names in backquotes, blocks between fences; a module of tests/docs."""
import re


def prose(text):
    """The lines that are neither a table's nor between fences, each with its number."""
    fenced = False
    for number, line in enumerate(text.split("\n"), 1):
        if line.lstrip().startswith("```"):
            fenced = not fenced
        elif not fenced and not line.startswith("|"):
            yield number, line


def unfenced(text):
    return re.sub(r"^```.*?^```", "", text, flags=re.S | re.M)


def section(text, heading):
    return text.split(f"\n## {heading}\n")[1].split("\n## ")[0]


def cells(text):
    """The cells of each row of a section's tables whose first cell isn't a heading."""
    for line in text.split("\n"):
        if line.startswith("| ") and not re.match(r"\| (crate|what|words|definitions|status|line|you wrote) ", line):
            yield [cell.strip() for cell in line.strip("|").split("|")]


def names_in(text):
    return re.findall(r"`([^`]+)`", text)


def blocks(text):
    """The blocks between fences: the heading above each, the number of its first line, its lines."""
    heading, block = "", None
    for number, line in enumerate(text.split("\n"), 1):
        if line.startswith("```"):
            if block is not None:
                yield heading, number - len(block), block
            block = [] if block is None else None
        elif block is not None:
            block.append(line)
        elif line.startswith("## "):
            heading = line[3:]
