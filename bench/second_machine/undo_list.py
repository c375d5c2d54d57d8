"""The undo list of a buffer: its records, its limits, and which of the records come next to undo."""
from dataclasses import dataclass, field
from typing import Optional

from faults import Fault, require
from values import NIL, T, DottedList, MarkerHandle, Symbol, text_of

MOST_RECORDS = 65_536
MOST_DELETED = 1_048_576


class Record:
    def fits(self, _start, _end):
        """Whether the places lie in an accessible part with these bounds."""
        return True

    def growth(self):
        """By how many characters the text grows when this is undone."""
        return 0


class Boundary(Record):
    def listed(self):
        return NIL


class FirstChange(Record):
    """The buffer was unmodified until here."""

    def listed(self):
        return DottedList((T,), 0)


@dataclass
class PointWas(Record):
    place: int

    def listed(self):
        return self.place + 1

    def fits(self, start, end):
        return start <= self.place <= end


@dataclass
class Inserted(Record):
    start: int
    end: int

    def listed(self):
        return DottedList((self.start + 1,), self.end + 1)

    def fits(self, start, end):
        return start <= self.start and self.end <= end

    def growth(self):
        return self.start - self.end


@dataclass
class Deleted(Record):
    characters: tuple
    properties: tuple
    place: int

    def listed(self):
        return DottedList((text_of(self.characters, self.properties),), self.place + 1)

    def fits(self, start, end):
        return start <= self.place <= end

    def growth(self):
        return len(self.characters)


@dataclass
class PropertyWas(Record):
    name: str
    value: Optional[object]
    start: int
    end: int

    def listed(self):
        value = NIL if self.value is None else self.value
        return DottedList((NIL, Symbol(self.name), value, self.start + 1), self.end + 1)

    def fits(self, start, end):
        return start <= self.start <= end and start <= self.end <= end


@dataclass
class MarkerMoved(Record):
    """How far a deletion moved a marker; it follows the record of that deletion."""
    marker: int
    adjustment: int

    def listed(self):
        return DottedList((MarkerHandle(self.marker),), self.adjustment)


@dataclass
class Entry:
    record: Record
    serial: int


@dataclass
class UndoList:
    """Entries, oldest first; those with a serial below `pending_below` are next to undo."""
    entries: list = field(default_factory=list)
    next_serial: int = 0
    pending_below: int = 0
    recording: bool = True
    deleted: int = 0

    def newest(self):
        return self.entries[-1].record if self.entries else None

    def starts_group(self):
        return self.newest() is None or isinstance(self.newest(), Boundary)

    def push(self, record):
        if not self.recording:
            return
        newest = self.newest()
        if isinstance(record, Inserted) and isinstance(newest, Inserted) and newest.end == record.start:
            self.entries[-1].record = Inserted(newest.start, record.end)
            return
        self.entries.append(Entry(record, self.next_serial))
        self.next_serial += 1
        self.deleted += deleted_characters(record)
        while len(self.entries) > MOST_RECORDS or self.deleted > MOST_DELETED:
            self.drop_oldest_group()

    def drop_oldest_group(self):
        """Drops all up to the first boundary, or everything where there is none."""
        size = next((index + 1 for index, entry in enumerate(self.entries) if isinstance(entry.record, Boundary)),
                    len(self.entries))
        self.deleted -= sum(deleted_characters(entry.record) for entry in self.entries[:size])
        del self.entries[:size]

    def end_group(self):
        if not self.starts_group():
            self.push(Boundary())

    def start(self):
        require(self.recording, Fault.UNDO_DISABLED)
        self.pending_below = self.next_serial

    def disable(self):
        self.entries = []
        self.deleted = self.pending_below = 0
        self.recording = False

    def plan(self, groups, start, end):
        """The records of that many groups, newest first, and the serial of the last entry taken."""
        require(self.recording, Fault.UNDO_DISABLED)
        pending = [entry for entry in self.entries if entry.serial < self.pending_below]
        require(pending, Fault.NO_FURTHER_UNDO)
        records = []
        for entry in reversed(pending):
            if not isinstance(entry.record, Boundary):
                records.append(entry.record)
                continue
            groups -= 1
            if groups == 0:
                break
        for record in records:
            require(record.fits(start, end), Fault.UNDO_OUTSIDE)
            end += record.growth()
        return records, entry.serial


def deleted_characters(record):
    return len(record.characters) if isinstance(record, Deleted) else 0
