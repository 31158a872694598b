"""Images of databases, for the scripts that lay a large one down: at the limits, or at a part of them.

An image at the limits has 20,000 users with ten connections each, 8,000 groups, 50,000 profiles of data sets and as many of
resources, and 1,000,000 entries of access lists.
"""
CLASSES = ["DATASET", "FACILITY", "TERMINAL", "CONSOLE", "JESINPUT", "APPCPORT", "APPL",
           "OPERCMDS", "SURROGAT", "TAPEVOL", "DASDVOL", "SECDATA", "SECLABEL", "GLOBAL", "CDT"]
# At the limits: users and groups, connections of a user, profiles of each of two classes, and entries of a profile's two lists.
USERS, GROUPS, CONNECTIONS, PROFILES, ENTRIES, CONDITIONAL = 20_000, 8_000, 10, 50_000, 8, 2


def number(width, value):
    return value.to_bytes(width, "big")


def name(text):
    """An identifier, or none: eight bytes."""
    return text.ljust(8).encode()


def listed(width, items):
    """How many there are, and the items."""
    return number(width, len(items)) + b"".join(items)


def group_name(i):
    return f"G{i}" if i else "SYS1"


def group(i):
    """A group below another, eight of which have one superior group. The first is SYS1."""
    superior = group_name((i - 1) // 8) if i else ""
    return name(group_name(i)) + name(superior) + name("IBMUSER")


def connection(i, authority):
    return name(group_name(i)) + number(1, authority) + number(1, 0)


def user(i, groups):
    """A user with his connections, the first to his default group. The first is IBMUSER, with SPECIAL, OPERATIONS and
    AUDITOR, and JOIN in SYS1 alone."""
    own = [(i + 7 * step) % groups for step in range(CONNECTIONS)] if i else [0]
    connections = [connection(j, 0 if i else 3) for j in own]
    return (name(f"U{i}" if i else "IBMUSER") + name(group_name(own[0])) + name("SYS1") + number(1, 0)
            + number(1, 0 if i else 7) + number(1, 0) + bytes(32) + name("") + listed(1, []) + listed(2, connections))


def profile(text, i, users):
    """A profile with entries for users, READ each, and conditional ones for consoles."""
    whos = [name(f"U{(i * 31 + step * 997) % (users - 1) + 1}") for step in range(ENTRIES + CONDITIONAL)]
    standard = [who + number(1, 2) for who in whos[:ENTRIES]]
    conditional = [number(1, 2) + name("CN1") + who + number(1, 2) for who in whos[ENTRIES:]]
    return (number(2, len(text)) + text + name("IBMUSER") + bytes(7) + bytes(32) + name("")
            + listed(2, standard) + listed(2, conditional) + listed(2, []))


def profiles(count, users):
    """The profiles of a class in the order of their names, which stands by the digits."""
    return [profile(f"Q{i // 100:03}.P{i:05}.**".encode(), i, users) for i in range(count)]


def image_of(users, groups, count):
    """The image of a database with so many users, groups and profiles of each of two classes. One of one user, one group and
    no profile is that of a new database."""
    filled = {"DATASET": profiles(count, users), "FACILITY": profiles(count, users)}
    classes = [name(title) + number(1, title == "DATASET") + number(1, 0) + listed(4, filled.get(title, []))
               for title in CLASSES]
    return (number(1, 0) + listed(2, []) + listed(4, [group(i) for i in range(groups)])
            + listed(4, [user(i, groups) for i in range(users)]) + listed(2, classes))


def image(part):
    """The image of a database of so many parts of the limits."""
    return image_of(USERS // part, GROUPS // part, PROFILES // part)
