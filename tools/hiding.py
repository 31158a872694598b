"""What is shown of a command that isn't carried over, so that no secret is: a password, a phrase or a key.

Of a command all of whose words are surely operands of RACF the values of secrets are blotted out. Of another one that may hold a
secret its first word is shown, where that is a command's, and the user or the group behind it, and nothing else.
"""
import re

from carrying import FURTHER, Unsure, named, parts, positions, valued
from commands import BY_WORD, GAPS, upper
from secret_words import HOLDERS, OPERANDS, OTHERS, ends_with_word, has_secret, is_holder

BLOT = "(..)"
HIDDEN = "it may hold a secret, and is shown in part"
BEHIND = "it may be more of a secret in front of it, and is shown in part"
FIRST_WORD = re.compile(r"[ \t,]*([^ \t,(]*)")
TOKEN = re.compile(r"[A-Z0-9#$@]+|[^ \t,()'A-Z0-9#$@]+")
# A word behind the first one, in front of no parenthesis.
POSITIONAL = re.compile(r"[ \t,]*[^ \t,()]+[ \t,]+([A-Z0-9#$@]{1,8})(?=[ \t,]+[^ \t,(]|[ \t,]*$)", re.I)


def first_word(text):
    return FIRST_WORD.match(text).group(1)


def cut_down(text):
    """A command's first word, where it is one, and the user or the group that it names."""
    word = first_word(text)
    command = BY_WORD.get(upper(word))
    if command is None:
        return f"{word} .." if upper(word) in HOLDERS | OTHERS else ".."
    name = POSITIONAL.match(text) if command.positions[:1] in (["user"], ["group"]) else None
    return f"{word} {name.group(1)} .." if name and not has_secret(name.group(1)) else f"{word} .."


def values(command, text):
    """The pieces of a command, each with its place, and what stands in parentheses with the operand that it is the value of ('' for
    none). Unsure where a word is surely no operand of RACF, or where the value of a secret doesn't stand with it."""
    found = parts(text, command.takes_quotes())
    front = len(positions(command, found)) + 1
    given = [(named(command, word), value) for word, value in valued(text, found[front:])]
    if any(word in OPERANDS and value is None for word, value in given):
        raise Unsure("the value of a secret doesn't stand with its word")
    if any(has_secret(piece) for _, piece in found[1:front] if not piece.startswith("(")):
        raise Unsure("a word of a secret stands in front of the operands")
    words = [word for word, _ in given]
    for count, (begin, piece) in enumerate(found):
        if not piece.startswith("("):
            word = words.pop(0) if count >= front else ""
        yield begin, piece, word if piece.startswith("(") else None


def blotted(command, text):
    """The text of a command that is surely read, without the values of secrets."""
    shown, end = "", 0
    for begin, piece, word in values(command, text):
        is_secret = word is not None and (word.removeprefix("NO") in OPERANDS or has_secret(piece))
        shown += text[end:begin] + (BLOT if is_secret else piece)
        end = begin + len(piece)
    return shown + text[end:]


def may_hold(text):
    """A command that can't be read surely may hold a secret."""
    word = first_word(text)
    command = BY_WORD.get(upper(word))
    if command is None:
        return has_secret(text) or is_holder(word)
    return has_secret(text) or bool(OPERANDS & set(FURTHER[command.name].split()))


def tokens(text):
    return set(TOKEN.findall(upper(text)))


def shown_of(text):
    """What is shown of a command."""
    command = BY_WORD.get(upper(first_word(text)))
    if command:
        try:
            return blotted(command, text)
        except Unsure:
            pass
    return cut_down(text) if may_hold(text) else text


def hidden(text, reason):
    """Why a command stays a comment, and what is shown of it: the reason has no word that isn't shown."""
    shown = shown_of(text)
    return HIDDEN if tokens(reason) & (tokens(text) - tokens(shown)) else reason, shown


def hidden_behind(text):
    """The same of a command that may be more of a secret."""
    word = first_word(text)
    return BEHIND, f"{word} .." if upper(word) in HOLDERS | OTHERS | BY_WORD.keys() else ".."


def may_go_on(text, is_cut):
    """A secret in this command may go on in the next line, though no mark says so."""
    text = text.rstrip(GAPS)
    if ends_with_word(text) or (is_holder(first_word(text)) and "(" not in text):
        return True
    try:
        parts(text)
    except Unsure:
        is_cut = True
    return is_cut and may_hold(text)
