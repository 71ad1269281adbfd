"""A restart of stores that were worked by hand: what it tells, which files it leaves, and that no stop, crash or failing call
changes what the next one tells."""
from dataclasses import dataclass, replace
from itertools import accumulate

import formats as f
from shapes import A, ANCHOR, B, LOG, Case, Done, Files, Run, Sweep, lines
from worked import DEAD, FREE, LIVE, Database, Log, packed


@dataclass(frozen=True)
class Stored:
    """Files, and what a restart makes of them."""
    name: str
    files: Files
    lists: str
    """Who was rolled back and who was deleted."""
    records: str
    left: Files
    next: int
    """The next transaction's number."""

    @property
    def told(self) -> str:
        return self.lists + self.records


def shown(*records: str) -> str:
    """What `show` prints of these records."""
    return lines(*records, f"records {len(records)}")


def lists(rolled_back: str = "none", deleted: str = "none") -> str:
    return lines(f"rolled back {rolled_back}", f"deleted {deleted}")


def two_records() -> Database:
    """Key 4 with abc in region 3, and key 5 with xyz in region 4."""
    database = Database(2, 3)
    database.insert(1, 4, b"abc", 3)
    database.insert(2, 5, b"xyz", 4)
    return database


def checkpointed() -> tuple[Database, Log, bytes]:
    """Two clients insert these records, and checkpoint 1 is made; then the value of key 4 is damaged."""
    database, log = Database(2, 3), Log(2, 3)
    log.flush(f.begin(1), *database.insert(1, 4, b"abc", 3), f.commit(1))
    log.flush(f.ended(1), f.begin(2), *database.insert(2, 5, b"xyz", 4), f.commit(2))
    log.flush(f.ended(2))
    image = f.image(log.header(1, 3), database.regions())
    log.flush(f.audit_begin(), f.audit_clean(15))
    database.poke(3, 11, 1 << 56)
    return database, log, image


def chain() -> Stored:
    """3 reads the damaged value and inserts key 6, which 5 reads; 4 reads neither."""
    database, log, image = checkpointed()
    log.flush(f.begin(3), *database.get(3, 4), *database.insert(3, 6, b"qq", 2), f.commit(3))
    log.flush(f.ended(3), f.begin(4), *database.update(4, 5, b"y"), f.commit(4))
    log.flush(f.ended(4), f.begin(5), *database.get(5, 6), f.commit(5))
    log.flush(f.ended(5), f.audit_begin(), f.audit_fail(39, [3]))
    files = f.files(log.file(), image, anchor=f.anchor(1))
    kept = two_records()
    kept.update(4, 5, b"y")
    second = f.image(log.header(2, 6), kept.regions())
    log.flush(f.restarted([], [3, 5]))
    left = f.files(log.file(), image, second, f.anchor(2))
    return Stored("a chain of two and a survivor", files, lists(deleted="3 5"), shown("4 abc", "5 y"), left, 6)


def undone() -> Stored:
    """3 changes key 5 before it reads the damaged value: the change is undone, and 4, who read it, is deleted."""
    database, log, image = checkpointed()
    log.flush(f.begin(3), *database.update(3, 5, b"q"), *database.get(3, 4), f.commit(3))
    log.flush(f.ended(3), f.begin(4), *database.get(4, 5), f.commit(4))
    log.flush(f.ended(4), f.audit_begin(), f.audit_fail(32, [3]))
    files = f.files(log.file(), image, anchor=f.anchor(1))
    second = f.image(log.header(2, 5), two_records().regions())
    log.flush(f.restarted([], [3, 4]))
    left = f.files(log.file(), image, second, f.anchor(2))
    return Stored("a change that is undone", files, lists(deleted="3 4"), shown("4 abc", "5 xyz"), left, 5)


def unfinished() -> Stored:
    """Checkpoint 2 has transaction 2 at work, with the two undos of an insert, and it changes key 5 behind it."""
    database, log = Database(1, 1), Log(1, 1)
    log.flush(f.begin(1), *database.insert(1, 5, b"abc", 1), f.commit(1))
    log.flush(f.ended(1), f.begin(2), *database.insert(2, 6, b"d", 1))
    undos = [f.Undo(6, 1, f.undo_free_cell(2)), f.Undo(6, 0, f.undo_free_entry(1))]
    image = f.image(log.header(2, 3), database.regions(), f.table(f.entry(2, 0, undos)))
    log.flush(f.audit_begin(), f.audit_clean(13))
    log.flush(*database.update(2, 5, b"zz"), *database.get(2, 6), f.audit_begin(), f.audit_clean(21))
    files = f.files(log.file(), b=image, anchor=f.anchor(2))
    # cell 2 and entry 1 are free again, and keep what stands behind their states
    database.words[1][8 + 2:16] = [3, *packed(b"abc")]
    database.words[1][16] = database.words[0][4] = FREE
    third = f.image(log.header(3, 3), database.regions())
    log.flush(f.restarted([2]))
    left = f.files(log.file(), third, image, f.anchor(3))
    return Stored("a transaction of the image's table", files, lists("2"), shown("5 abc"), left, 3)


def removal() -> Stored:
    """2 has committed the removal of key 5, whose cell and entry are still dead, and 3 is at work on that of key 6."""
    database, log = Database(1, 1), Log(1, 1)
    log.flush(f.begin(1), *database.insert(1, 5, b"abc", 1), *database.insert(1, 6, b"d", 1), f.commit(1))
    log.flush(f.ended(1), f.begin(2), *database.delete(2, 5), f.commit(2))
    log.flush(f.begin(3), *database.delete(3, 6))
    files = f.files(log.file(), anchor=f.anchor())
    assert database.words[1][8] == database.words[1][16] == DEAD
    database.words[1][8] = database.words[0][1] = FREE
    database.words[1][16] = database.words[0][4] = LIVE
    first = f.image(log.header(1, 4), database.regions())
    log.flush(f.restarted([3]))
    left = f.files(log.file(), first, anchor=f.anchor(1))
    return Stored("a removal that wasn't freed", files, lists("3"), shown("6 d"), left, 4)


def two_epochs() -> Log:
    """Two epochs without a checkpoint, with a failed audit in each: 2 reads a damaged value and inserts key 6, and is deleted by
    a restart; 4 changes a damaged value, and 5 does nothing."""
    database, log = Database(2, 3), Log(2, 3)
    log.flush(f.begin(1), *database.insert(1, 4, b"abc", 3), f.commit(1), f.ended(1))
    log.flush(f.audit_begin(), f.audit_clean(8))
    database.poke(3, 11, 1 << 56)
    log.flush(f.begin(2), *database.get(2, 4), *database.insert(2, 6, b"qq", 4), f.commit(2), f.ended(2),
              f.audit_begin(), f.audit_fail(20, [3]))
    log.flush(f.restarted([], [2]))
    database = Database(2, 3)
    database.insert(1, 4, b"abc", 3)
    log.flush(f.begin(3), *database.insert(3, 5, b"xyz", 2), f.commit(3), f.ended(3), f.audit_begin(), f.audit_clean(30))
    database.poke(2, 11, 1)
    log.flush(f.begin(4), *database.update(4, 5, b"zz"), f.begin(5), f.commit(4), f.ended(4),
              f.audit_begin(), f.audit_fail(39, [2]))
    return log


def epochs(stopped: bool) -> Stored:
    """These epochs; or the same behind a restart that was stopped before it moved the anchor, which the next one does."""
    log, database = two_epochs(), Database(2, 3)
    database.insert(1, 4, b"abc", 3)
    database.insert(3, 5, b"xyz", 2)
    before = log.file()
    first = f.image(log.header(1, 6), database.regions())
    log.flush(f.restarted([5], [4]))
    files = f.files(log.file() if stopped else before, anchor=f.anchor())
    left = f.files(log.file(), first, anchor=f.anchor(1))
    name = "a restart that was stopped" if stopped else "two epochs that failed"
    return Stored(name, files, lists("5", "4"), shown("4 abc", "5 xyz"), left, 6)


def formatted() -> Stored:
    files = f.files(f.log(f.formatted(1, 1)), anchor=f.anchor())
    return Stored("a first batch alone", files, lists(), shown(), files, 1)


CHAIN, UNFINISHED, EPOCHS, STOPPED = chain(), unfinished(), epochs(False), epochs(True)
STORES = [CHAIN, undone(), UNFINISHED, removal(), EPOCHS, STOPPED, formatted()]

# A transaction that begins, and is never ended: its client dies in its first operation, and an audit flushes the log.
BEGUN = "open\nclient 1\nbegin\ndie 1\nget 9\nend\naudit\n"


def restarted_twice(stored: Stored) -> Case:
    """What is left is the record of the restart, unless one ends the log, and an image that stands before it. The next restart
    tells the same, and leaves all as it is."""
    show = Run("open\nshow\n", stored.told)
    return Case(f"{stored.name} is restarted twice", [replace(show, after=stored.left), replace(show, after="same")], stored.files)


def begins_behind(stored: Stored) -> Case:
    """The log goes on at its end with the next number, and what was told before is told no more."""
    begun = stored.lists + lines(f"1 begin {stored.next}; 1 died; audit clean")
    later = lists(rolled_back=str(stored.next)) + stored.records
    return Case(f"a transaction begins behind {stored.name}", [Run(BEGUN, begun), Run("open\nshow\n", later)], stored.files)


FAULT = Run("open\n", "store fault\n", 6)


def in_order(stored: Stored, left: Files) -> bool:
    """Whether files that a restart left came by its order: it logs its record, then writes the image, and then moves the anchor."""
    end = len(stored.files[LOG]) - 1
    is_logged = stored.files[LOG] == stored.left[LOG] or left[LOG][end:end + 1] == f.OPEN
    side = A if stored.left[ANCHOR].count(f.OPEN) % 2 == 1 else B
    is_untouched = left.get(side) == stored.files.get(side)
    is_turned = left[ANCHOR].count(f.OPEN) > stored.files[ANCHOR].count(f.OPEN)
    return (is_logged or is_untouched) and (left.get(side) == stored.left[side] or not is_turned)


def stops(stored: Stored, choice: int) -> Sweep:
    """A restart that is stopped at a call, with a crash; another one that is stopped a little earlier, with a crash; and one
    that is not."""
    def runs(number: int) -> list[Run]:
        second = Run("open\n", None, None, passes=number - number // 4, crash=choice + 1)
        return [replace(FAULT, passes=number, crash=choice), second, Run("open\nshow\n", stored.told)]
    return Sweep(f"{stored.name}, stopped twice with crash {choice}", runs, Run("open\n", stored.lists), 20, files=stored.files,
                 holds=lambda _, done: in_order(stored, done[0].files))


def faults(stored: Stored) -> Sweep:
    """A restart one of whose calls fails, and the next one."""
    def runs(number: int) -> list[Run]:
        return [replace(FAULT, fail_calls=[number]), Run("open\nshow\n", stored.told)]
    return Sweep(f"{stored.name}, with a call that fails", runs, Run("open\n", stored.lists), 20, files=stored.files)


# What stands behind so many batches of a worked log, where a crash let it end there. An audit deletes nobody before it has failed.
CHAIN_ENDS = [
    (4, lists(), ["4 abc", "5 xyz"]), (5, lists(), ["4 abc", "5 xyz"]), (6, lists(), ["4 abc", "5 xyz", "6 qq"]),
    (7, lists(), ["4 abc", "5 y", "6 qq"]), (8, lists(), ["4 abc", "5 y", "6 qq"]), (9, lists(deleted="3 5"), ["4 abc", "5 y"]),
]
EPOCHS_END = [
    (1, lists(), []), (2, lists(), ["4 abc"]), (3, lists(), ["4 abc"]), (4, lists(deleted="2"), ["4 abc"]),
    (5, lists(deleted="2"), ["4 abc"]), (6, lists(), ["4 abc", "5 xyz"]), (7, lists("5", "4"), ["4 abc", "5 xyz"]),
]


def batches_of(log: bytes) -> list[bytes]:
    found, at = [], 0
    while log[at:at + 1] == f.OPEN:
        end = at + 5 + int.from_bytes(log[at + 1:at + 5], "big")
        found.append(log[at:end])
        at = end
    return found


def ends_at(stored: Stored, count: int, told: str, records: list[str]) -> Case:
    log = f.log(*batches_of(stored.files[LOG])[:count])
    return Case(f"{stored.name}, the first {count} batches", Run("open\nshow\n", told + shown(*records)), stored.files | {LOG: log})


# The log of the two epochs, cut at some length: the batch that is cut is bad at its length, and one that is missing at its gate.
PLACES = list(accumulate(map(len, batches_of(EPOCHS.files[LOG])), initial=0))


def cut_at(length: int) -> Run:
    place = max(it for it in PLACES if it <= length)
    told, status = (f"bad store log {place if place == length else place + 1}\n", 7) if length > 1 else ("unformatted\n", 8)
    return Run("open\n", told, status, before=lambda files: files | {LOG: files[LOG][:length]})


LENGTHS = sorted({*range(0, PLACES[-1], 9), *PLACES, *(it + 5 for it in PLACES[:-1])})


# A database is made by a sync, a length and a read; a length, two writes and two syncs; and the four calls of a batch. From the
# moment on in which the last gate is written it is there.
SIZE = Run("size 1 1\n", after=f.files(f.log(f.formatted(1, 1)), anchor=f.anchor()))
MADE_BY, GATE_WRITTEN = 12, 11


def is_made(number: int, done: list[Done]) -> bool:
    """Whether the second run found a database just where the first one had written its gate."""
    found = done[1].status == 9 and done[1].out == "formatted\n"
    return found if number >= GATE_WRITTEN else done[1].status == 0


def making(number: int) -> list[Run]:
    first = SIZE if number == MADE_BY else Run("size 1 1\n", "store fault\n", 6, passes=number)
    return [first, Run("size 1 1\n", None, None, after=SIZE.after)]


CASES = [
    *(restarted_twice(it) for it in STORES),
    *(begins_behind(it) for it in STORES),
    *(ends_at(CHAIN, *row) for row in CHAIN_ENDS),
    *(ends_at(EPOCHS, *row) for row in EPOCHS_END),
    *(stops(CHAIN, choice) for choice in range(5)),
    stops(UNFINISHED, 2), stops(STOPPED, 3), stops(EPOCHS, 4),
    *(faults(it) for it in (CHAIN, UNFINISHED, STOPPED)),
    Sweep("a log that is cut at any length", cut_at, LENGTHS, 160, files=EPOCHS.files),
    Sweep("a database that is made, with a stop at each call", making, range(MADE_BY + 1), MADE_BY + 1, holds=is_made),
    Case("an open gate alone is no database", SIZE, {"dali.log": b"\xa5"}),
    Case("a closed gate behind it makes one", Run("size 1 1\n", "formatted\n", 9, after="same"), {"dali.log": b"\xa5\0"}),
]
