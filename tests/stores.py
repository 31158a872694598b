"""The two files of a database as bytes, for the scripts that lay them down or look into them.

Each has eight bytes by which it is known, a head gate, an epoch, a number, the length of an image, the image, and behind it a
journal: each record behind an open gate, and a closed one at the end. Of the files whose head gate is open the one of the greater
epoch counts, and of equal epochs the first.
"""
import os
import pathlib
import sys

sys.path.append(os.path.join(os.path.dirname(os.path.realpath(__file__)), "..", "tools"))
import databases

KNOWN_BY, OPEN, CLOSED = b"RACFDB01", b"\x01", b"\x00"
HEAD_GATE, EPOCH, NUMBER, LENGTH, IMAGE = 8, 9, 17, 25, 33
# What `init` writes on the second file.
WITHOUT_CHECKPOINT = KNOWN_BY + CLOSED


def number_at(file, place):
    """The number in the eight bytes from a place on."""
    return int.from_bytes(file[place:place + 8], "big")


def written(epoch, number, image, records=()):
    """A file that counts beside one without a checkpoint."""
    head = KNOWN_BY + OPEN + b"".join(field.to_bytes(8, "big") for field in (epoch, number, len(image)))
    return head + image + b"".join(OPEN + record for record in records) + CLOSED


class Store:
    """What the two files in a folder say, where the one that counts is at rest; a ValueError where it isn't."""

    def __init__(self, folder):
        files = [(pathlib.Path(folder) / disk).read_bytes() for disk in databases.DISKS]
        if any(not file.startswith(KNOWN_BY) for file in files):
            raise ValueError("no database")
        counting = [side for side, file in enumerate(files) if file[HEAD_GATE:EPOCH] == OPEN]
        if not counting:
            raise ValueError("no head gate is open")
        self.side = max(counting, key=lambda side: (number_at(files[side], EPOCH), -side))
        self.file, self.other = files[self.side], files[1 - self.side]
        self.path = pathlib.Path(folder) / databases.DISKS[self.side]
        self.epoch, self.base = number_at(self.file, EPOCH), number_at(self.file, NUMBER)
        self.start = IMAGE + number_at(self.file, LENGTH)
        self.image, self.records = self.file[IMAGE:self.start], list(self.read())

    def read(self):
        """The records behind the checkpoint."""
        at = self.start
        while self.file[at:at + 1] == OPEN:
            end = at + 5 + int.from_bytes(self.file[at + 1:at + 5], "big")
            yield self.file[at + 1:end]
            at = end
        if self.file[at:] != CLOSED:
            raise ValueError(f"a journal that isn't at rest at {at}")

    @property
    def number(self):
        """How many commands led to what the files say."""
        return self.base + len(self.records)


def lay_down(program, folder, records):
    """Makes a new database in the folder, and lays these records down behind its checkpoint."""
    databases.init(program, folder)
    store = Store(folder)
    store.path.write_bytes(written(store.epoch, store.base, store.image, records))


def records_of(folder):
    """The records behind the checkpoint that counts in this folder."""
    return Store(folder).records
