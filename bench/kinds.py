"""Commands of all kinds, for the scripts that measure what a long journal costs."""
BLOCK = 100


def commands(count):
    """So many commands, each by its canonical text: a group, 19 users, and 20 each of four other kinds, again and again."""
    for block in range(count // BLOCK):
        yield f"ADDGROUP G{block} SUPGROUP(SYS1) OWNER(SYS1)"
        for number in range(19 * block, 19 * block + 19):
            yield f"ADDUSER U{number} NAME('USER {number}') DFLTGRP(G{block})"
        for number in range(20 * block, 20 * block + 20):
            yield f"ADDSD 'G{block}.D{number * 7919 % 100_003}.**' OWNER(G{block}) UACC(READ)"
        for number in range(20 * block, 20 * block + 20):
            yield f"RDEFINE FACILITY {resource(number)} UACC(NONE)"
        for number in range(20 * block, 20 * block + 20):
            yield f"PERMIT {resource(number)} CLASS(FACILITY) ID(G{block} U{number % (19 * block + 19)}) ACCESS(UPDATE)"
        for number in range(20 * block, 20 * block + 20):
            yield f"CONNECT U{number * 104_729 % (19 * block + 19)} GROUP(G{number * 31 % (block + 1)})"


def resource(number):
    return f"Q{number % 500}.P{number * 7919 % 100_003}.**"
