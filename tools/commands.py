"""The commands as they are written, for the tools that read decks.

TABLE has each command with its abbreviation, its positional words and its operands, in the order of the program's own table;
`tests/deck-tools` holds it against crates/command_grammar. `pieces` parts a text as the program does. Texts have a
character for each byte, and places count from 0.
"""
import re

# name, abbreviation, positional words, operands with what stands in their parentheses
TABLE = """
ADDUSER  AU   user: NAME('text') DFLTGRP(group) OWNER(id) AUTHORITY(authority) SPECIAL NOSPECIAL OPERATIONS NOOPERATIONS AUDITOR
  NOAUDITOR RESTRICTED NORESTRICTED CLAUTH(class..) SECLEVEL(level) ADDCATEGORY(category..) SECLABEL(label)
ALTUSER  ALU  user: NAME('text') DFLTGRP(group) OWNER(id) SPECIAL NOSPECIAL OPERATIONS NOOPERATIONS AUDITOR NOAUDITOR RESTRICTED
  NORESTRICTED UAUDIT NOUAUDIT REVOKE RESUME CLAUTH(class..) NOCLAUTH(class..) SECLEVEL(level) NOSECLEVEL ADDCATEGORY(category..)
  DELCATEGORY(category..) SECLABEL(label) NOSECLABEL
DELUSER  DU   user:
ADDGROUP AG   group: SUPGROUP(group) OWNER(id)
ALTGROUP ALG  group: SUPGROUP(group) OWNER(id)
DELGROUP DG   group:
CONNECT  CO   user: GROUP(group) AUTHORITY(authority) SPECIAL NOSPECIAL OPERATIONS NOOPERATIONS AUDITOR NOAUDITOR REVOKE RESUME
REMOVE   RE   user: GROUP(group)
ADDSD    AD   profile: OWNER(id) UACC(access) WARNING NOWARNING AUDIT(audit) SECLEVEL(level) ADDCATEGORY(category..)
  SECLABEL(label) GENERIC
ALTDSD   ALD  profile: OWNER(id) UACC(access) WARNING NOWARNING AUDIT(audit) GLOBALAUDIT(audit) SECLEVEL(level) NOSECLEVEL
  ADDCATEGORY(category..) DELCATEGORY(category..) SECLABEL(label) NOSECLABEL GENERIC
DELDSD   DD   profile: GENERIC
RDEFINE  RDEF class profile: OWNER(id) UACC(access) WARNING NOWARNING AUDIT(audit) SECLEVEL(level) ADDCATEGORY(category..)
  SECLABEL(label) ADDMEM(member..)
RALTER   RALT class profile: OWNER(id) UACC(access) WARNING NOWARNING AUDIT(audit) GLOBALAUDIT(audit) SECLEVEL(level) NOSECLEVEL
  ADDCATEGORY(category..) DELCATEGORY(category..) SECLABEL(label) NOSECLABEL ADDMEM(member..) DELMEM(member..)
RDELETE  RDEL class profile:
PERMIT   PE   profile: CLASS(class) RESET(which) ID(id..) ACCESS(access) DELETE WHEN(port(name)) GENERIC
SETROPTS SETR : CLASSACT(class..) NOCLASSACT(class..) GRPLIST NOGRPLIST PROTECTALL(FAILURES) NOPROTECTALL MLS(FAILURES) NOMLS
  RACLIST(class..) NORACLIST(class..) GLOBAL(class..) NOGLOBAL(class..) GENERIC(class..) REFRESH LOGOPTIONS(word(class..)..)
"""
# The commands that have other operands in class CDT, whose profiles define classes.
IN_CDT = """
RDEFINE  RDEF class profile: OWNER(id) MAXLENGTH(number) OPERATIONS(YES|NO) NAMES(FULL|ID)
RALTER   RALT class profile: OWNER(id)
"""
# Operands that stand with a value or alone.
MAY_BE_BARE = ("RESET", "PROTECTALL", "MLS")
ON_DATA_SETS = ("ADDSD", "ALTDSD", "DELDSD")
CLASSES = ("DATASET FACILITY TERMINAL CONSOLE JESINPUT APPCPORT APPL OPERCMDS SURROGAT TAPEVOL DASDVOL SECDATA SECLABEL "
           "GLOBAL CDT").split()
ACCESSES = ("NONE", "EXECUTE", "READ", "UPDATE", "CONTROL", "ALTER")
PORTS = ("TERMINAL", "CONSOLE", "JESINPUT", "APPCPORT")
GAPS, BLANKS = " \t,", " \t"


def upper(text):
    """The text with the letters a to z in upper case, and no others: each character is a byte."""
    return text.encode("latin-1").upper().decode("latin-1")


class Command:
    """A row of the table: its names, its positional words, and what stands in the parentheses of each operand ('' for none)."""

    def __init__(self, row):
        head, _, operands = row.partition(":")
        self.name, self.short, *self.positions = head.split()
        self.operands = {word: value[1:-1] for word, value in re.findall(r"([A-Z]+)(\(\S+\))?", operands)}

    def form(self, word):
        value = self.operands[word]
        return f"{word}({value})" if value else word

    def named_by(self, word):
        """The operands that a word may be: itself, else those that begin with it."""
        word = upper(word)
        return [word] if word in self.operands else [operand for operand in self.operands if operand.startswith(word)]

    def takes_quotes(self):
        """The first positional word may be a name in quotes."""
        return self.positions[:1] == ["profile"]


def commands_of(table):
    return {command.name: command for command in map(Command, re.findall(r"^\w.*(?:\n  .*)*", table, re.M))}


COMMANDS, CLASS_COMMANDS = commands_of(TABLE), commands_of(IN_CDT)
BY_WORD = {word: command for command in COMMANDS.values() for word in (command.name, command.short)}


class Unclosed(Exception):
    """Nothing closes the parenthesis or the quote at `place`."""

    def __init__(self, place):
        self.place = place


def value_end(text, begin):
    """The place of the parenthesis that closes the one at `begin`; quotes hide parentheses."""
    depth, quote = 0, None
    for place in range(begin, len(text)):
        if text[place] == "'":
            quote = place if quote is None else None
        elif quote is None and text[place] in "()":
            depth += 1 if text[place] == "(" else -1
            if depth == 0:
                return place
    raise Unclosed(begin if quote is None else quote)


def word_end(text, begin, may_be_quoted):
    """The place behind the word that begins there."""
    at = begin
    if may_be_quoted and text[begin] == "'":
        at = text.find("'", begin + 1)
        if at < 0:
            raise Unclosed(begin)
    return re.compile(r"[^ \t,()]*").match(text, at).end()


def pieces(text, may_be_quoted=False):
    """The words of a text, and what stands in parentheses, with them: each with its place. Where `may_be_quoted` holds, the second
    may be a name in quotes."""
    at, count = 0, 0
    while at < len(text):
        if text[at] in GAPS:
            at += 1
            continue
        begin = at
        if text[at] == "(":
            at = value_end(text, at) + 1
        elif text[at] == ")":
            at += 1
        else:
            at = word_end(text, at, may_be_quoted and count == 1)
        yield begin, text[begin:at]
        count += 1


def is_tied(text, end, begin):
    """Nothing but blanks and tabs stands between a word and the parenthesis behind it."""
    return not text[end:begin].strip(BLANKS)


def command_of(text):
    """The command that the first word of a text names, in class CDT the one of its own; None where it names none."""
    command = BY_WORD.get(first_words(text)[0])
    return CLASS_COMMANDS.get(command.name, command) if command and first_words(text)[1] == "CDT" else command


def first_words(text):
    """The first two words of a text, of which the second may stand in parentheses."""
    words = re.match(r"[ \t,]*([^ \t,()]*)[ \t,]*(\([ \t,]*[^ \t,()]*[ \t,]*\)|[^ \t,()]*)", text).groups()
    return [upper(word.strip("() \t,")) for word in words]
