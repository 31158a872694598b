"""What a command for RACF is here: commands that mean the same, with what is left out of it, and why.

`carried` answers the commands, or raises Unsure where they might mean something else.
"""
import itertools
import re

from commands import ACCESSES, BY_WORD, CLASS_COMMANDS, CLASSES, GAPS, MAY_BE_BARE, PORTS, Unclosed, is_tied, pieces, upper
from secret_words import told

# Operands of RACF that aren't here, by the reason why nothing is lost with them.
WITHOUT_MEANING = {
    "there are no passwords": "PASSWORD NOPASSWORD PHRASE NOPHRASE EXPIRED NOEXPIRED OIDCARD NOOIDCARD PWCLEAN PWCONVERT MFA NOMFA",
    "there are no segments": "CDTINFO CFDEF CICS CSDATA DCE DFP DLFDATA EIM ICSF ICTX IDTPARMS JES KERB LANGUAGE LNOTES MFPOLICY NDS "
    "NETVIEW OMVS OPERPARM OVM PROXY SESSION SIGVER SSIGNON STDATA SVFMR TME TSO WORKATTR NOCDTINFO NOCFDEF NOCICS NOCSDATA NODCE "
    "NODFP NODLFDATA NOEIM NOICSF NOICTX NOIDTPARMS NOJES NOKERB NOLANGUAGE NOLNOTES NOMFPOLICY NONDS NONETVIEW NOOMVS NOOPERPARM "
    "NOOVM NOPROXY NOSESSION NOSIGVER NOSSIGNON NOSTDATA NOSVFMR NOTME NOTSO NOWORKATTR",
    "no decision goes by it": "APPLDATA NOAPPLDATA DATA NODATA ERASE NOERASE LEVEL NOTIFY NONOTIFY RETPD ROAUDIT NOROAUDIT TIMEZONE "
    "NOTIMEZONE UNIVERSAL",
    "there are no volumes": "ADDVOL ALTVOL DELVOL FILESEQUENCE SET NOSET SINGLEDSN NOSINGLEDSN TAPE TVTOC NOTVTOC UNIT VOLUME",
    "it is so without it": "NOADSP NOCLAUTH NOGRPACC NOMODEL NORESUME NOREVOKE TERMUACC",
    "a new profile has UACC(NONE) where it names none": "UACC",
    "a connection has no owner": "OWNER",
}
# Operands that mean something with one command, though nothing with others: RALTER's add a volume to what a profile protects.
WITH_MEANING = {("REMOVE", "OWNER"), ("RALTER", "ADDVOL"), ("RALTER", "DELVOL")}
REASONS = {word: reason for reason, words in WITHOUT_MEANING.items() for word in words.split()}
# Further operands of RACF's commands, in whose stead nothing here stands.
USERS = ("ADSP NOADSP AT CICS CSDATA DATA DCE DFP EIM GRPACC KERB LANGUAGE LNOTES MFA MODEL NDS NETVIEW NOGRPACC NOOIDCARD NOPASSWORD "
         "NOPHRASE NOROAUDIT OIDCARD OMVS ONLYAT OPERPARM OVM PASSWORD PHRASE PROXY ROAUDIT TSO UACC WHEN WORKATTR ")
PROFILES = ("APPLDATA AT CDTINFO CFDEF CSDATA DATA DLFDATA EIM ICSF ICTX IDTPARMS JES KERB LEVEL MFA MFPOLICY NOTIFY ONLYAT PROXY "
            "SESSION SIGVER SINGLEDSN SSIGNON STDATA SVFMR TIMEZONE TME TVTOC WHEN ")
FURTHER = {
    "ADDUSER": USERS + "NOCLAUTH",
    "ALTUSER": USERS + "AUTHORITY EXPIRED GROUP NOCICS NOCSDATA NODATA NODCE NODFP NOEIM NOEXPIRED NOKERB NOLANGUAGE NOLNOTES NOMFA "
    "NOMODEL NONDS NONETVIEW NOOMVS NOOPERPARM NOOVM NOPROXY NORESUME NOREVOKE NOTSO NOWORKATTR PWCLEAN PWCONVERT",
    "DELUSER": "AT ONLYAT",
    "ADDGROUP": "AT CSDATA DATA DFP MODEL NOTERMUACC OMVS ONLYAT OVM TERMUACC TME UNIVERSAL",
    "ALTGROUP": "AT CSDATA DATA DFP MODEL NOCSDATA NODATA NODFP NOMODEL NOOMVS NOOVM NOTERMUACC NOTME OMVS ONLYAT OVM TERMUACC TME",
    "DELGROUP": "AT ONLYAT",
    "CONNECT": "ADSP AT GRPACC NOADSP NOGRPACC NORESUME NOREVOKE ONLYAT OWNER UACC",
    "REMOVE": "AT ONLYAT OWNER",
    "ADDSD": "AT CSDATA DATA DFP ERASE FCLASS FGENERIC FILESEQUENCE FROM FVOLUME LEVEL MODEL NOSET NOTIFY ONLYAT RETPD SET SETONLY "
    "TAPE TME UNIT VOLUME",
    "ALTDSD": "ADDVOL ALTVOL AT CSDATA DATA DELVOL DFP ERASE LEVEL NOCSDATA NODATA NODFP NOERASE NONOTIFY NOSET NOTIFY NOTME ONLYAT "
    "RETPD SET TME UNIT VOLUME",
    "DELDSD": "AT NOSET ONLYAT SET VOLUME",
    "RDEFINE": PROFILES + "FCLASS FGENERIC FROM FVOLUME",
    "RALTER": PROFILES + "ADDVOL DELVOL NOAPPLDATA NOCDTINFO NOCFDEF NOCSDATA NODATA NODLFDATA NOEIM NOICSF NOICTX NOIDTPARMS "
    "NOJES NOKERB NOMFA NOMFPOLICY NONOTIFY NOPROXY NOSESSION NOSIGVER NOSINGLEDSN NOSSIGNON NOSTDATA NOSVFMR NOTIMEZONE NOTME "
    "NOTVTOC",
    "RDELETE": "AT NOGENERIC ONLYAT",
    "PERMIT": "AT FCLASS FGENERIC FROM FVOLUME ONLYAT VOLUME",
    "SETROPTS": "ADDCREATOR ADSP APPLAUDIT AT AUDIT CATDSNS CMDVIOL COMPATMODE EGN ERASE GENCMD GENERICOWNER GENLIST INACTIVE "
    "INITSTATS INTERVAL JES KERBLVL LANGUAGE LIST MLACTIVE MLFSOBJ MLIPCOBJ MLNAMES MLQUIET MLSTABLE MODEL NOADDCREATOR NOADSP "
    "NOAPPLAUDIT NOAUDIT NOCATDSNS NOCMDVIOL NOCOMPATMODE NOEGN NOERASE NOGENCMD NOGENERIC NOGENERICOWNER NOGENLIST NOINACTIVE "
    "NOINITSTATS NOMLACTIVE NOMLNAMES NOMLQUIET NOMLSTABLE NOMODEL NOOPERAUDIT NOPREFIX NOREALDSN NOSAUDIT NOSECLABELAUDIT "
    "NOSECLABELCONTROL NOSECLBYSYSTEM NOSECLEVELAUDIT NOSESSIONINTERVAL NOSTATISTICS NOTAPEDSN NOWHEN ONLYAT OPERAUDIT PASSWORD "
    "PREFIX REALDSN RETPD RVARYPW SAUDIT SECLABELAUDIT SECLABELCONTROL SECLBYSYSTEM SECLEVELAUDIT SESSIONINTERVAL STATISTICS "
    "TAPEDSN TERMINAL WHEN",
}
# A pair of operands that doesn't exclude one another, though the one is the NO form of the other.
NO_PAIRS = ("CLAUTH", "CLASSACT", "RACLIST", "GLOBAL")
WITH_REFRESH = {"REFRESH", "RACLIST", "GLOBAL", "GENERIC"}
QUOTE = "'"
ID = re.compile(r"[A-Z0-9#$@]{1,8}")
GROUP = re.compile(r"[A-Z#$@][A-Z0-9#$@]{0,7}")
QUALIFIER = re.compile(r"(?=.{1,8}$)(?:\*\*|[A-Z#$@%][A-Z0-9#$@%-]*\*?|\*)")
GENERAL_QUALIFIER = re.compile(r"\*\*|(?=.)[A-Z0-9#$@%_/:-]*\*?")
QUOTED = re.compile(r"'((?:[^']|'')*)'")
USER_NAME = re.compile(r"(?:[ -&(-~]|''){1,20}")
# What an operand that names none goes by; OWNER, where a command makes something, by the issuer.
DEFAULTS = {"ADDUSER": ("DFLTGRP", "OWNER"), "ADDGROUP": ("SUPGROUP", "OWNER"), "CONNECT": ("GROUP",), "REMOVE": ("GROUP",),
            "ADDSD": ("OWNER",), "RDEFINE": ("OWNER",)}
# What the program adds to a text by writing it in full fits into the rest of its 30,000 bytes.
LONGEST_TEXT = 29_000
WITHOUT_OPERANDS = ("ALTUSER", "ALTGROUP", "ALTDSD", "RALTER", "SETROPTS")


class Unsure(Exception):
    """Why a command, or an operand of SETROPTS, stays a comment."""


class Carried:
    """What becomes of one command: the commands, and what was done, each with whether something was left out by it."""

    def __init__(self):
        self.commands, self.notes = [], []

    def note(self, text, is_left_out=False):
        self.notes.append((text, is_left_out))


def unquoted_words(text):
    """The words of a list without quotes and parentheses, in upper case."""
    if re.search(r"['()]", text):
        raise Unsure(f"{text.strip()} is no list of plain words")
    return [upper(word) for word in re.split(r"[ \t,]+", text) if word]


def one(words, what):
    if len(words) != 1:
        raise Unsure(f"{what} takes one word")
    return words[0]


def spelled(form, word):
    if not form.fullmatch(word):
        raise Unsure(f"{word} isn't spelled as a name here")
    return word


def whole(word, words):
    """The word of these that a word is, or is the beginning of."""
    fits = [other for other in words if other == word] or [other for other in words if other.startswith(word)]
    if len(fits) != 1:
        raise Unsure(f"{word} isn't one of {', '.join(words)}" if not fits else f"{word} may be {' or '.join(fits)}")
    return fits[0]


def known_classes(words, operand_word, carried, besides=()):
    """The classes of an operand that are there; `*` stands for none of them."""
    if "*" in words:
        raise Unsure("* in place of classes isn't there")
    gone = [word for word in words if word not in (*CLASSES, *besides)]
    if gone:
        carried.note(f"left out: {told(', '.join(gone))} of {operand_word}; there is no such class", True)
    if operand_word.endswith("RACLIST") and "CDT" in words:
        gone.append("CDT")
        carried.note(f"left out: CDT of {operand_word}; a class that it defines is there at once", True)
    return [word for word in words if word not in gone]


def class_of(word):
    if word not in CLASSES:
        raise Unsure(f"there is no class {word}")
    return word


def valued(text, found):
    """The words among these pieces of a text, each with what stands in parentheses behind it, if anything does."""
    words, end = [], 0
    for begin, piece in found:
        if piece.startswith("(") and words and words[-1][1] is None and is_tied(text, end, begin):
            words[-1] = (words[-1][0], piece[1:-1])
        elif piece[0] in "()":
            raise Unsure("a parenthesis stands behind no word")
        else:
            words.append((upper(piece), None))
        end = begin + len(piece)
    return words


def parts(text, may_be_quoted=False):
    """The pieces of a text, all of which is closed."""
    try:
        return list(pieces(text, may_be_quoted))
    except Unclosed as fault:
        raise Unsure(f"nothing closes the {'quote' if text[fault.place] == QUOTE else 'parenthesis'} in it")


def valued_words(text):
    return valued(text, parts(text))


def user_name(text, carried):
    """The text of NAME in quotes; None where it can't be a name here."""
    text = text.strip(GAPS)
    if not text.startswith("'") and re.fullmatch(r"[^ \t,'()]+", text):
        text = f"'{upper(text)}'"
    found = QUOTED.fullmatch(text)
    if not found:
        raise Unsure("NAME isn't one text in quotes")
    if not USER_NAME.fullmatch(found.group(1)):
        carried.note("left out: NAME, which isn't 1 to 20 bytes from blank to ~; no decision goes by it", True)
        return None
    return text


def audit(text):
    words = []
    for word, level in valued_words(text):
        word = whole(word, ("ALL", "SUCCESS", "FAILURES", "NONE"))
        words.append(word if level is None else f"{word}({whole(one(unquoted_words(level), word), ACCESSES[2:])})")
    names = [word.partition("(")[0] for word in words]
    if not words or len(set(names)) < len(names) or "NONE(" in " ".join(words) or (len(names) > 1 and {"ALL", "NONE"} & set(names)):
        raise Unsure(f"({text.strip()}) is no rule of auditing here")
    return " ".join(words)


def ports(text):
    """The values of WHEN, one for each name of the port's class."""
    found = valued_words(text)
    if len(found) != 1 or found[0][0] not in PORTS or not found[0][1]:
        raise Unsure(f"WHEN takes one of {', '.join(PORTS)}")
    names = [spelled(ID, word) for word in unquoted_words(found[0][1])]
    return [f"{found[0][0]}({name})" for name in names]


def log_options(text, carried):
    kept, names = [], []
    for word, classes in valued_words(text):
        names.append(whole(word, ("ALWAYS", "NEVER", "SUCCESSES", "FAILURES", "DEFAULT")))
        there = known_classes(unquoted_words(classes or ""), names[-1], carried)
        if there:
            kept.append(f"{names[-1]}({' '.join(there)})")
    if len(set(names)) < len(names):
        raise Unsure("a word of LOGOPTIONS stands twice")
    return " ".join(kept)


def member(word, class_name, profile, is_dropped):
    """A member of GLOBAL or SECDATA, as ADDMEM or DELMEM names it."""
    if class_name == "SECDATA":
        form = r"[A-Z0-9#$@]{1,8}/(?:[1-9]|[1-9][0-9]|1[0-9]{2}|2[0-4][0-9]|25[0-4])" if profile == "SECLEVEL" else ID.pattern
        return spelled(ID if is_dropped else re.compile(form), upper(word))
    name, _, access = (word, "", "") if is_dropped else word.rpartition("/")
    found = QUOTED.fullmatch(name)
    if profile == "DATASET" and not found:
        raise Unsure(f"{name} stands without quotes: RACF puts a prefix before it")
    text = upper(found.group(1) if found else name)
    variable = re.sub(r"(?<![^.])&RAC(?:UID|GPID)(?![^.])", "A", text)
    (data_set_name if profile == "DATASET" else general_name)(variable)
    written = f"'{text}'" if found else text
    return written if is_dropped else f"{written}/{whole(upper(access), ACCESSES)}"


def members(text, target, is_dropped):
    class_name, profile = target
    if class_name not in ("GLOBAL", "SECDATA"):
        raise Unsure(f"profiles of {class_name} have no members here")
    words = re.findall(r"'[^']*'[^ \t,]*|[^ \t,]+", text)
    if not words or "(" in text or ")" in text:
        raise Unsure("the members are no plain list")
    return " ".join(member(word, class_name, profile, is_dropped) for word in words)


def data_set_name(text):
    """The name of a data set profile, without its quotes."""
    first, *rest = text.split(".")
    if len(text) > 44 or not GROUP.fullmatch(first) or not all(QUALIFIER.fullmatch(qualifier) for qualifier in rest):
        raise Unsure(f"{text} is no name of a data set profile here")
    return text


def general_name(text):
    if len(text) > 246 or not all(GENERAL_QUALIFIER.fullmatch(qualifier) for qualifier in text.split(".")):
        raise Unsure(f"{text} is no name of a profile here")
    return text


def is_generic(name):
    return "%" in name or "*" in name


def profile_name(word, class_name):
    """The name of a profile as it is written in that class."""
    found = QUOTED.fullmatch(word)
    if class_name == "DATASET":
        if not found:
            raise Unsure(f"{word} stands without quotes: what is put before it depends on who gives the command")
        return f"'{data_set_name(upper(found.group(1)))}'"
    name = general_name(upper(word))
    if class_name == "GLOBAL":
        class_of(name)
    elif class_name == "SECDATA":
        spelled(re.compile("SECLEVEL|CATEGORY"), name)
    elif class_name == "CDT" or (class_name == "SECLABEL" and not is_generic(name)):
        spelled(ID, name)
    return f"({name})" if name.endswith("-") else name


SINGLE = {"authority": ("USE", "CREATE", "CONNECT", "JOIN"), "access": ACCESSES, "which": ("ALL", "STANDARD", "WHEN"),
          "FAILURES": ("FAILURES",)}
# Kinds of values besides, whose words may be cut.
SPELLED_OUT = ("audit", "member..", "word(class..)..")


def listed(kind, word, words, carried):
    """The value of an operand that holds plain words."""
    if not words:
        raise Unsure(f"{word} names nothing")
    if kind == "class..":
        if word.endswith("CLAUTH") and "DATASET" in words:
            raise Unsure(f"{word} takes no DATASET")
        return " ".join(known_classes(words, word, carried, ("USER",) if word.endswith("CLAUTH") else ()))
    if kind == "id.." and words == ["*"]:
        return "*"
    if kind.endswith(".."):
        return " ".join(spelled(ID, name) for name in words)
    if kind in SINGLE:
        return whole(one(words, word), SINGLE[kind])
    if kind == "class":
        return class_of(one(words, word))
    return spelled(GROUP if kind == "group" else ID, one(words, word))


def values(kind, word, text, target, carried):
    """What stands in the parentheses of an operand; of WHEN several, one for each command."""
    if kind == "port(name)":
        return ports(text)
    if kind == "'text'":
        return [user_name(text, carried)]
    if kind == "audit":
        return [audit(text)]
    if kind == "word(class..)..":
        return [log_options(text, carried)]
    if kind == "member..":
        return [members(text, target, word == "DELMEM")]
    return [listed(kind, word, unquoted_words(text), carried)]


def operand(command, word, text, target, carried):
    """The forms of an operand that is here; none where nothing of its value is left."""
    kind = command.operands[word]
    if not kind:
        if text is not None:
            raise Unsure(f"{word} takes no value here")
        return [word]
    if text is None:
        if word in MAY_BE_BARE and word != "MLS":
            return [word]
        raise Unsure(f"{word} stands without a value")
    found = [value for value in values(kind, word, text, target, carried) if value]
    if kind in (*SINGLE, *SPELLED_OUT) and found and found[0] != re.sub(r"[ \t,]+", " ", upper(text)).strip():
        carried.note(f"{word}({told(text.strip())}) written as {word}({told(found[0])})")
    return [f"{word}({value})" for value in found]


def named(command, word):
    """The operand of RACF's command that a word is, or is the beginning of."""
    words = [*command.operands, *FURTHER[command.name].split()]
    fits = [other for other in words if other == word] or [other for other in words if other.startswith(word)]
    if len(fits) != 1:
        raise Unsure(f"{word} is no operand of {command.name}" if not fits else f"{word} may be {' or '.join(fits)}")
    return fits[0]


def reason_without(command, word):
    """Why nothing is lost with an operand that isn't here; Unsure where something may be."""
    if command.name == "SETROPTS" and word not in ("AT", "ONLYAT"):
        return "generic names go by its rules always" if word == "EGN" else "there is no such option"
    if word not in REASONS or (command.name, word) in WITH_MEANING:
        raise Unsure(f"{word} of {command.name} isn't there")
    return REASONS[word]


def operands(command, given, target, carried):
    """The forms of each operand that is left, by its word."""
    forms = {}
    for begun, text in given:
        word = named(command, begun)
        if word in forms:
            raise Unsure(f"{word} stands twice")
        try:
            if word in command.operands:
                forms[word] = operand(command, word, text, target, carried)
                continue
            carried.note(f"left out: {word} of {command.name}; {reason_without(command, word)}", True)
        except Unsure as fault:
            # an option of SETROPTS stands for itself
            if command.name != "SETROPTS" or word in ("AT", "ONLYAT"):
                raise
            carried.note(f"left out: {word} of SETROPTS; {told(str(fault))}", True)
    return {word: texts for word, texts in forms.items() if texts}


def check(command, forms, names):
    """What excludes one another, and what lacks, as the program judges it."""
    pairs = [(word, "NO" + word) for word in command.operands if word not in NO_PAIRS]
    for pair in [*pairs, ("REVOKE", "RESUME"), ("ACCESS", "DELETE")]:
        if forms.keys() >= set(pair):
            raise Unsure(f"{pair[0]} and {pair[1]} exclude one another")
    if command.name == "PERMIT" and "ID" not in forms and ("RESET" not in forms or forms.keys() & {"ACCESS", "DELETE", "WHEN"}):
        raise Unsure("it names no ID")
    if "REFRESH" in forms and (len(forms) == 1 or forms.keys() - WITH_REFRESH):
        raise Unsure("REFRESH is of nothing that is there" if len(forms) == 1 else "REFRESH stands with RACLIST, GLOBAL and GENERIC alone")
    if "RESET" in forms and len(forms.get("WHEN", ())) > 1:
        raise Unsure("RESET stands with several ports of entry")
    if forms.keys() & {"ADDMEM", "DELMEM"} and len(names) > 1:
        raise Unsure("members stand with several profiles")
    if "GENERIC" in forms and names and not all(map(is_generic, names)):
        raise Unsure("GENERIC stands with a name that has no generic character")


def positions(command, found):
    """The words in a command's positional places, the last of them a list."""
    heads = []
    for place, what in enumerate(command.positions, 1):
        if place >= len(found) or found[place][1] == ")":
            raise Unsure(f"it names no {what}")
        piece = found[place][1]
        words = re.findall(r"'[^']*'[^ \t,]*|[^ \t,]+", piece[1:-1]) if piece.startswith("(") else [piece]
        if not words or (len(words) > 1 and (place < len(command.positions) or command.name == "PERMIT")):
            raise Unsure(f"it takes one {what}")
        heads.append(words)
    return heads


def name_of(command, word, class_name):
    """The last positional word as it is written."""
    if command.positions[-1] == "profile":
        return profile_name(word, class_name)
    return spelled(GROUP if command.positions[-1] == "group" else ID, upper(word))


def differences(command, forms, class_name, names, carried):
    """What a command leaves to who gives it, to the rules for a new profile, and to those for generic names."""
    lacking = [word for word in DEFAULTS.get(command.name, ()) if word not in forms]
    if lacking:
        carried.note(f"{' and '.join(lacking)} of {command.name} not named: who gives the command decides")
    if command.name in ("ADDSD", "RDEFINE") and "UACC" not in forms and class_name not in ("GLOBAL", "SECDATA"):
        carried.note(f"UACC of {command.name} not named: it is NONE")
    if class_name == "DATASET" and any(re.search(r"[^*]\*'$", name) and "**" not in name for name in names):
        carried.note("the * that ends the name stands for one qualifier, or a part of one, as with EGN")


def command_in(text):
    """The command that a text begins with."""
    word = upper(re.split(r"[ \t,(]", text.strip(GAPS), maxsplit=1)[0])
    if word not in BY_WORD:
        raise Unsure(f"there is no command {word}")
    return BY_WORD[word]


def carried(text):
    """The commands that one command for RACF becomes, and what was done."""
    result, command = Carried(), command_in(text)
    found = parts(text, command.takes_quotes())
    heads = positions(command, found)
    given = valued(text, found[len(heads) + 1:])
    class_name = class_of(upper(heads[0][0])) if len(heads) == 2 else "DATASET"
    if len(heads) == 2 and class_name == "DATASET":
        raise Unsure(f"{command.name} takes no DATASET")
    if class_name == "CDT" and command.name in CLASS_COMMANDS:
        raise Unsure(f"{command.name} has other operands in class CDT here")
    target = (class_name, upper(heads[-1][0])) if heads else None
    forms = operands(command, given, target, result)
    if "CLASS" in forms:
        class_name = forms["CLASS"][0][len("CLASS("):-1]
    names = [name_of(command, word, class_name) for word in heads[-1]] if heads else []
    if given and not forms and command.name in WITHOUT_OPERANDS:
        result.note(f"left out: {command.name}, of which nothing is left", True)
        return result
    check(command, forms, names)
    differences(command, forms, class_name, names, result)
    front = [command.name, class_name] if len(heads) == 2 else [command.name]
    result.commands = [" ".join([*front, *name, *form]) for name in ([[name] for name in names] or [[]])
                       for form in itertools.product(*forms.values())]
    if any(len(line) > LONGEST_TEXT for line in result.commands):
        raise Unsure(f"its text has more than {LONGEST_TEXT} bytes")
    if len(result.commands) > 1:
        result.note(f"{command.name} written as {len(result.commands)} commands")
    return result
