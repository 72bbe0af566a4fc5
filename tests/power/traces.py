"""The record of a store's files that shim.c makes, and what the disk may hold after a loss of power. Used by power.py.

The model is the one that PostgreSQL arrived at after its trouble with fsync. A write is on the disk once a later sync of the same file has succeeded.
A failed sync marks as clean everything that wasn't on the disk yet: reads still show it, and no later sync writes it. After the loss of power each of
these writes is there or isn't. The same holds for each write that no sync followed. Bytes that a failed sync held are certain to be on the disk only
once they are written again and synced. Making, renaming or removing a file, and setting its length, take effect on the disk at once. A real disk may
be less kind there; this trial is about lost bytes and not about lost names.
"""
import bisect
import itertools
import os
import random
import struct

HEAD = struct.Struct("<cBBBiiiqq")
PAGE = 4096
PENDING, DURABLE, DROPPED = range(3)


class Write:
    """A write of a file, and whether it is on the disk."""

    __slots__ = ("turn", "at", "data", "state")

    def __init__(self, turn, at, data):
        self.turn, self.at, self.data, self.state = turn, at, data, PENDING


class Length:
    """A length that a file was given."""

    __slots__ = ("at", "state")

    def __init__(self, at):
        self.at, self.state = at, DURABLE


class Disk:
    """The files by their paths, and the changes to each so far."""

    def __init__(self):
        self.files, self.open, self.names, self.failed, self.turns = {}, {}, {}, [], itertools.count()

    def take(self, kind, told, made, process, file, name, at, data):
        """Applies the next record."""
        handle = process, file
        if kind == b"o":
            if made or name not in self.files:
                self.files[name] = []
            elif told:
                self.files[name].append(Length(0))
            self.open[handle], self.names[handle] = self.files[name], os.path.basename(name.decode())
        elif kind == b"w":
            self.open[handle].append(Write(next(self.turns), at, data))
        elif kind == b"t":
            self.open[handle].append(Length(at))
        elif kind == b"s":
            self.sync(self.open.get(handle, []), chr(told))  # there are no changes to the folder
            if told != ord("0"):
                self.failed.append(self.names[handle] if handle in self.open else "the folder")
        elif kind == b"c":
            self.open.pop(handle, None)
        elif kind == b"r" and name in self.files:
            self.files[data] = self.files.pop(name)
        elif kind == b"u":
            self.files.pop(name, None)

    @staticmethod
    def sync(changes, how):
        """Applies a sync: `0` succeeded, `f` failed, `d` failed and the writes were undone, `l` only said that it succeeded."""
        if how == "d":
            changes[:] = [change for change in changes if change.state != PENDING]
        elif how != "l":
            for change in changes:
                if change.state == PENDING:
                    change.state = DURABLE if how == "0" else DROPPED

    def unsure(self):
        """The writes of which nobody knows whether they are on the disk, in order, for all files that still exist."""
        return sorted((change for changes in self.files.values() for change in shown(changes)), key=lambda change: change.turn)

    def image(self, has=None):
        """The bytes of each file by its path. `has` returns the pieces of an unsure write that are on the disk; without it all writes are."""
        return {name: bytes_of(changes, has) for name, changes in self.files.items()}


def shown(changes):
    """The unsure writes of a file, without those that a later change has certainly replaced."""
    found, later = [], []
    for change in reversed(changes):
        if isinstance(change, Length):
            later.append((change.at, float("inf")))
        elif change.state == DURABLE:
            later.append((change.at, change.at + len(change.data)))
        elif not any(first <= change.at and change.at + len(change.data) <= last for first, last in later):
            found.append(change)
    return found[::-1]


def bytes_of(changes, has):
    """The bytes of a file after these changes."""
    found = bytearray()
    for change in changes:
        if isinstance(change, Length):
            del found[change.at:]
            found.extend(bytes(max(0, change.at - len(found))))
            continue
        pieces = [(change.at, change.data)] if change.state == DURABLE or not has else has(change)
        for at, data in pieces:
            found.extend(bytes(max(0, at - len(found))))
            found[at:at + len(data)] = data
    return found


def pages_of(change):
    """The pieces of a write, one for each page that it touches."""
    at, pieces = change.at, []
    while at < change.at + len(change.data):
        end = min((at // PAGE + 1) * PAGE, change.at + len(change.data))
        pieces.append((at, change.data[at - change.at:end - change.at]))
        at = end
    return pieces


class Record:
    """The records of a trace, and where each ends in it."""

    def __init__(self, path):
        with open(path, "rb") as file:
            text = file.read()
        self.records, self.ends, self.answers, at = [], [], [0], 0
        while at + HEAD.size <= len(text):
            kind, told, made, _, process, file, length, place, count = HEAD.unpack_from(text, at)
            at += HEAD.size
            name = text[at:at + length]
            at += length
            self.records.append((kind, told, made, process, file, name, place, text[at:at + count]))
            at += count
            self.ends.append(at)
            if kind == b"a":
                self.answers.append(at)
        if at != len(text):
            raise ValueError("the trace ends in a record")

    def answered(self, place):
        """The place of the trace at which an answer was given at the latest that had arrived by this place."""
        return self.answers[bisect.bisect_right(self.answers, place) - 1]

    def failed(self):
        """The files whose syncs failed."""
        return self.disk(self.ends[-1]).failed

    def failures(self):
        """Where the failed syncs end in the trace."""
        return [end for record, end in zip(self.records, self.ends) if record[0] == b"s" and record[1] != ord("0")]

    def disk(self, end):
        """The disk after the records up to that place."""
        disk = Disk()
        for record, place in zip(self.records, self.ends):
            if place > end:
                break
            disk.take(*record)
        return disk


def choices(count, most, dice):
    """Sets of the unsure writes that reached the disk, `most` at most: all sets if there are few writes. Otherwise none, all, all but the last, and
    the last alone; then the first few, all but one, one alone, and random sets, in turn."""
    if 2 ** min(count, 10) <= most:
        return [{at for at in range(count) if mask >> at & 1} for mask in range(2 ** count)]
    every = set(range(count))
    told = [set(), every, set(range(count - 1)), {count - 1}]
    while len(told) < most:
        one = dice.randrange(count)
        for there in (set(range(one)), every - {one}, {one}, {at for at in every if dice.random() < 0.5}):
            if there not in told:
                told.append(there)
    return told[:most]


def mixes(disk, most, seed):
    """Yields images that the disk may have, `most` at most, each with a text that describes it. In the last ones writes are torn between pages."""
    dice, unsure = random.Random(seed), disk.unsure()
    if not unsure:
        yield "no write is unsure", disk.image()
        return
    order = {id(change): at for at, change in enumerate(unsure)}  # what isn't in it is hidden by later changes
    whole = most - most // 4 if any(len(pages_of(change)) > 1 for change in unsure) else most
    for there in choices(len(unsure), whole, dice):
        image = disk.image(lambda change: [(change.at, change.data)] if order.get(id(change)) in there else [])
        yield f"{sorted(there)} of {len(unsure)} writes", image
    for turn in range(most - whole):
        yield f"torn, {turn}", disk.image(lambda change: [piece for piece in pages_of(change) if dice.random() < 0.5])


def lay_out(image, folder):
    """Writes the files of an image into an existing folder."""
    for name, text in image.items():
        with open(os.path.join(folder, os.path.basename(name.decode())), "wb") as file:
            file.write(text)
