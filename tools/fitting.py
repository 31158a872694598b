"""Where in a line a refusal finds its fault, and what would fit there, by the table of commands.

A refusal is what is printed behind REFUSED. Places count from 1, as the program prints them. What is said of a line that the refusal
isn't of is of no use, and no fault.
"""
import re

from commands import CLASSES, COMMANDS, MAY_BE_BARE, ON_DATA_SETS, Unclosed, command_of, first_words, pieces, upper

ID = "1 to 8 bytes of A-Z, 0-9, #, $ and @"
NAME_OF_DATA_SET = "qualifiers of 1 to 8 bytes joined by periods, 44 bytes in all, each begun by a letter, #, $ or @"
GENERAL_NAME = "1 to 246 bytes of A-Z, 0-9, #, $, @, -, _, / and :, in qualifiers joined by periods"
# What stands in the parentheses of an operand, or in a positional place.
VALUES = {
    "user": f"a user, {ID}",
    "group": f"a group, {ID}, without a digit in front",
    "id": f"a user or a group, {ID}",
    "class": "a class, such as " + ", ".join(CLASSES[:3]),
    "class..": "classes, such as " + ", ".join(CLASSES[:3]),
    "level": f"a level, {ID}",
    "label": f"a label, {ID}",
    "category..": f"categories, each {ID}",
    "'text'": "1 to 20 bytes from blank to ~ in quotes, a quote among them written twice",
    "authority": "USE, CREATE, CONNECT or JOIN",
    "access": "NONE, EXECUTE, READ, UPDATE, CONTROL or ALTER",
    "audit": "NONE, ALL, or SUCCESS and FAILURES; behind these three perhaps (READ), (UPDATE), (CONTROL) or (ALTER)",
    "which": "ALL, STANDARD or WHEN",
    "id..": "users and groups, or * alone",
    "port(name)": "TERMINAL(name), CONSOLE(name), JESINPUT(name) or APPCPORT(name)",
    "member..": "name/access in GLOBAL, name/number from 1 to 254 in SECLEVEL, a name in CATEGORY; other profiles have no members",
    "FAILURES": "FAILURES",
    "word(class..)..": "ALWAYS, NEVER, SUCCESSES, FAILURES or DEFAULT, each once at most and with classes in parentheses behind it",
    "number": "1 to 246, the most bytes that the name of a profile in the class has",
    "YES|NO": "YES or NO",
    "FULL|ID": f"FULL, where names are those of general resources, or ID, where each is {ID}",
}
# The forms of requests, and of the line that names an issuer.
FORMS = {
    "VERIFY": "VERIFY a user, and then GROUP(g), TERMINAL(t), CONSOLE(c), JESINPUT(j), APPCPORT(p), APPL(x) or SECLABEL(l)",
    "AUTH": "AUTH a class name level, where level is READ, UPDATE, CONTROL or ALTER",
    "FASTAUTH": "FASTAUTH a class name level, where level is READ, UPDATE, CONTROL or ALTER",
    "DELETE": "DELETE a",
    "*AFTER": "*AFTER n",
    "*ISSUER": "*ISSUER id, and then perhaps GROUP(group)",
}
REQUEST_WORDS = ", ".join(word for word in FORMS if word != "*ISSUER")
# What fits where the refusal says all that decides it.
PLAIN = {
    "TEXTTOOLONG": "a text of at most 30,000 bytes",
    "LINETOOLONG": "a line of at most 4,096 bytes",
    "UNKNOWNCOMMAND": "a command: " + ", ".join(COMMANDS) + "; or a request: " + REQUEST_WORDS,
}
# Names of profiles, in classes that have their own.
NAMES_IN = {"SECDATA": "SECLEVEL or CATEGORY", "GLOBAL": "the name of a class", "SECLABEL": f"a label, {ID}; or a generic name",
            "CDT": f"the name of a class, {ID}"}


# The refusals that are about a line's text.
REFUSALS = re.compile(
    r"[0-9]+ REFUSED (LINETOOLONG|BADLINE [1-9][0-9]{0,5}|BADNAME (?:EMPTY|TOOLONG|(?:EMPTYQUALIFIER|QUALIFIERTOOLONG|BADBYTE) [1-9][0-9]{0,2})|"
    r"SYNTAX (?:UNKNOWNCOMMAND|TEXTTOOLONG|(?:UNKNOWNOPERAND|AMBIGUOUS|BADVALUE|UNCLOSED) [1-9][0-9]{0,5}|(?:MISSING|REPEATED) [A-Z]+|"
    r"EXCLUDED [A-Z]+ [A-Z]+))", re.A)


def refusal_of(answer):
    """The refusal of a line's text that is printed; '' where there is none."""
    found = REFUSALS.fullmatch(answer)
    return found.group(1) if found else ""


def words_of(text):
    return [upper(word) for word in re.findall(r"[^ \t]+", text)]


def first_word(text):
    return "".join(words_of(text)[:1])


def place_of(text, refusal):
    """The place of a fault in a line or in a command's text; None where the refusal names none."""
    words = refusal.split(" ")
    if words[0] == "BADNAME":
        return place_in_name(text, refusal)
    if refusal == "SYNTAX UNKNOWNCOMMAND":
        return len(text) - len(text.lstrip(" \t,")) + 1
    if words[:2] in (["SYNTAX", "REPEATED"], ["SYNTAX", "EXCLUDED"]):
        return place_of_operand(text, words[2:])
    return int(words[-1]) if words[-1].isdigit() else None


def place_of_operand(text, words):
    """The place of the second operand that is one of these."""
    command = command_of(text)
    found = list(pieces_in_front(text, command))[len(command.positions) + 1:] if command else []
    named = [begin + 1 for begin, piece in found if command.named_by(piece) in [[word] for word in words]]
    return named[1] if len(named) > 1 else None


def pieces_in_front(text, command):
    """The pieces of a command's text in front of what nothing closes."""
    try:
        yield from pieces(text, command.takes_quotes())
    except Unclosed:
        return


def place_in_name(text, refusal):
    """The place of what is wrong with a request's name: its byte, or its qualifier."""
    words = list(re.finditer(r"[^ \t]+", text))
    if len(words) < 4:
        return None
    name, number = words[3], re.search(r" ([1-9][0-9]{0,2})$", refusal)
    before = int(number.group(1)) - 1 if number else 0
    if " BADBYTE " not in refusal:
        before = sum(len(qualifier) + 1 for qualifier in name.group().split(".")[:before])
    return name.start() + before + 1


def fitting(text, refusal):
    """What would fit; '' where the refusal isn't about the text."""
    words = refusal.split(" ")
    if words[0] == "BADNAME":
        return NAME_OF_DATA_SET if "DATASET" in words_of(text)[2:3] else GENERAL_NAME
    if words[0] == "BADLINE" or (words[0] == "SYNTAX" and first_word(text) == "*ISSUER"):
        return FORMS.get(first_word(text), "a request: " + REQUEST_WORDS)
    if words[-1] in PLAIN:
        return PLAIN[words[-1]]
    command = command_of(text)
    return of_command(command, text, words[1:]) if words[0] == "SYNTAX" and command else ""


def of_command(command, text, words):
    """What would fit in a command's text, by the words behind SYNTAX."""
    fault, *named = words
    if fault == "MISSING":
        return lacking(command, named[-1], first_words(text)[1])
    if fault == "REPEATED":
        return f"{named[-1]} once"
    if fault == "EXCLUDED":
        return f"one of {named[0]} and {named[-1]}"
    at = int(named[-1]) - 1
    if fault == "UNCLOSED":
        return "a quote that closes this one" if text[at:at + 1] == "'" else "a parenthesis that closes this one"
    if fault == "BADVALUE":
        return value_at(command, text, at)
    return operands_at(command, text, at, fault == "AMBIGUOUS")


def lacking(command, word, class_name):
    """What a command lacks: a positional word, or one of the operands that it needs."""
    if word.lower() in command.positions:
        return f"{' '.join([command.name, *command.positions])}: {position(command, word.lower(), class_name)}"
    return {"ID": "ID(id..), or RESET where no entry is set", "RACLIST": "RACLIST(class..), GLOBAL(class..) or GENERIC(class..)"}.get(word, "")


def position(command, word, class_name):
    """What stands in a positional place, a profile's name behind that class."""
    if word != "profile":
        return VALUES[word]
    if command.name == "PERMIT":
        return "the name of a profile; in class DATASET in quotes, or without them for one of the issuer's own, else without"
    if command.name in ON_DATA_SETS:
        return f"{NAME_OF_DATA_SET}; in quotes, or without them for one of the issuer's own"
    return NAMES_IN.get(class_name, GENERAL_NAME + ", and generic characters")


def operands_at(command, text, at, is_ambiguous):
    """The operands that a word may be, where it begins several, or else all."""
    begun = re.compile(r"[^ \t,()]*").match(text, at).group()
    words = command.named_by(begun) if is_ambiguous else command.operands
    return ", ".join(command.form(word) for word in words) or f"nothing: {command.name} has no operands"


def value_at(command, text, at):
    """What fits at a place where a value isn't lawful: of a positional word, or of the operand in front."""
    operand, words = "", []
    for begin, piece in pieces_in_front(text, command):
        if begin > at:
            break
        if len(words) > len(command.positions) and not piece.startswith(("(", ")")):
            operand = piece
        words.append(upper(piece.strip("() \t,")))
    if len(words) <= len(command.positions) + 1:
        return position(command, command.positions[max(len(words), 2) - 2], "".join(words[1:2])) if command.positions else ""
    return value_of(command, command.named_by(operand))


def value_of(command, named):
    """What the value of an operand may be."""
    if len(named) != 1:
        return "an operand, with its value in parentheses"
    word = named[0]
    value = command.operands[word]
    if word == "GENERIC" and not value:
        return "GENERIC where the profile's name is generic, and no value behind it"
    if not value:
        return f"{word}, and no value behind it"
    alone = f", or {word} alone" if word in MAY_BE_BARE else ""
    besides = "; no DATASET, but perhaps USER" if word.endswith("CLAUTH") else ""
    return f"{command.form(word)}{alone}: {VALUES[value]}{besides}"
