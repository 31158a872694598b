"""Where a command for RACF may hold a password, a phrase or a key, and which words tell that it does.

A word is looked at as it is spelled, cut or misspelled, and so more of them count than there are operands of secrets.
"""
import difflib
import re

from commands import upper

# Operands whose values are shown nowhere: secrets, segments that hold them, and fields whose meaning isn't known.
OPERANDS = set("CSDATA DCE KERB MFA OIDCARD PASSWORD PHRASE PROXY RVARYPW SESSION SSIGNON".split())
# Commands that may hold a secret anywhere, and those that aren't there and hold none, each with its abbreviation.
HOLDERS = set("LOGON PASSWORD PHRASE PW RACDCERT RACLINK".split())
OTHERS = set("DISPLAY HELP LISTDSD LD LISTGRP LG LISTUSER LU PROFILE RACMAP RACPRIV RESTART RLIST RL RVARY SEARCH SR SET SIGNOFF "
             "STOP TARGET".split())
# What a word of a secret has within it; what it may be cut to; what it may be cut to where it isn't part of a name; and words in
# whose parentheses secrets stand, RACLINK's DEFINE too.
WITHIN = "PAS|PHRA|PSW|PWD|SESSK|KEYM|KEYE|BINDP|RVARYP|LOGON|RACLINK|RACDCERT"
CUT, ALONE, AROUND = "PA|PH|PHR|PW", "P", "DEF[A-Z]*|KERB|PROX[A-Z]*|SESS[A-Z]*|SSI[A-Z]*"
LETTER = "[A-Z0-9#$@]"
SECRET = re.compile(rf"{WITHIN}|(?<!{LETTER})(?:(?:{CUT})(?!{LETTER})|(?:{AROUND})(?=[ \t,]*\())"
                    rf"|(?<![A-Z0-9#$@.*%'])(?:{ALONE})(?![A-Z0-9#$@.*%-])", re.I)
# How alike a misspelled command is to one that may hold a secret.
ALIKE = 0.75


def has_secret(text):
    """A word of the text may be that of a secret."""
    return SECRET.search(text) is not None


def told(text):
    """What a message says of a part of a command."""
    return ".." if has_secret(text) else text


def is_holder(word):
    """A word, as the first one of a command, may be that of a command which holds a secret."""
    return bool(difflib.get_close_matches(upper(word), HOLDERS, 1, ALIKE))


def ends_with_word(text):
    """What stands last may be the word of a secret, whose value comes behind it."""
    word = re.split(r"[ \t,()]", text)[-1]
    return not upper(word).startswith("NO") and has_secret(word + "(")
