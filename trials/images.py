"""The anchor and the image that it names: which a restart takes, at which place it refuses the others, what an image's table says
of transactions, and what a restart leaves of one."""
from collections.abc import Sequence
from dataclasses import replace

import formats as f
from shapes import Case, Files, Run, lines
from worked import FREE, LIVE, Database

SCRIPT = "open\nshow\n"

# Checkpoint 2 of one index region and one heap region, behind a log with an audit's begin: at place 21 behind 2 records of 11
# bytes, with 9 as the next number. The words of region 1 are 7, so that no state is live or dead.
FIRST = f.formatted(1, 1)
SHORT_LOG = f.log(FIRST, f.batch(f.audit_begin()))
HEADER = f.Header(1, 1, 2, 21, 2, 11, 9)
REGIONS = [f.region(), f.region(dict.fromkeys(range(f.WORDS), 7))]
TABLE = 64 + 2 * 512
"""Where the table begins."""


# Transaction 1 began, and a restart rolled it back: batches of 15, 14 and 22 bytes.
RESTARTED = f.log(FIRST, f.batch(f.begin(1)), f.batch(f.restarted([1])))


def image(table: bytes = f.table(), table_length: int | None = None, **fields: int) -> bytes:
    """The image with this table, and other numbers in these fields of its header."""
    return f.image(replace(HEADER, **fields), REGIONS, table, table_length)


def store(its_image: bytes = image(), log: bytes = SHORT_LOG, anchor: bytes = f.anchor(2)) -> Files:
    return f.files(log, b=its_image, anchor=anchor)


def undos(*of: f.Undo, state: int = 0) -> bytes:
    """A table with transaction 3, which has these undos."""
    return f.table(f.entry(3, state, of))


def undo(spelled: bytes, region: int = 1) -> f.Undo:
    return f.Undo(5, region, spelled)


PUT = undo(f.undo_free_cell(1))
NOBODY = lines("rolled back none; deleted none; records 0")
MANY = 2**40

TAKEN: list[tuple[str, Files, str]] = [
    ("a checkpoint", store(), NOBODY),
    ("bytes behind its table", store(image() + b"\5\6"), NOBODY),
    ("a closed batch between the first batch and its place", store(log=FIRST + b"\1\7" + bytes(6)), NOBODY),
    ("no record between the first batch and its place", store(log=FIRST + b"\0\0\0\0\x63" + f.audit_begin() + f.CLOSED), NOBODY),
    ("an anchor whose closed gate is 1", store(anchor=b"\xa5\xa5\1"), NOBODY),
    ("open gates behind the closed one of an anchor", store(anchor=b"\xa5\xa5\0\xa5"), NOBODY),
    ("no checkpoint, and gates behind the closed one", f.files(f.log(FIRST), anchor=b"\0\xa5"), NOBODY),
    ("three checkpoints", f.files(SHORT_LOG, image(number=3), anchor=b"\xa5\xa5\xa5\1"), NOBODY),
    ("an image that isn't current and has no header", f.files(f.log(FIRST), b"\1", b"", f.anchor()), NOBODY),
    ("an image behind the last restart, whose lists aren't read", store(image(place=51, records=3, length=36, next=2), RESTARTED), NOBODY),
    ("the least numbers", store(image(place=15, records=1, length=0, next=1), f.log(FIRST)), NOBODY),
    ("one at work", store(image(undos())), lines("rolled back 3; deleted none; records 0")),
    ("two at work", store(image(f.table(f.entry(3), f.entry(8)))), lines("rolled back 3 8; deleted none; records 0")),
    ("a committed one", store(image(undos(state=1))), NOBODY),
    ("one at work with an undo", store(image(undos(PUT))), lines("rolled back 3; deleted none; records 0")),
]

# A table of two: transaction 3 put key 5 into cell 2 of region 1 and added key 6 at entry 20 of region 0; 7 is committed.
TWO = f.table(f.entry(3, 0, [f.Undo(5, 1, f.undo_free_cell(2)), f.Undo(6, 0, f.undo_free_entry(20))]), f.entry(7, 1))
assert len(TWO) == 58

# In each row a byte of this table, what stands there, and the place of the field that is wrong then.
WRONG_BYTES = [
    ("a count of 3 in place of 2", 3, 3, 58), ("a count of 1", 3, 1, 45), ("a number that isn't below the next one", 11, 9, 4),
    ("a state of 2", 12, 2, 12), ("a committed one with undos", 12, 1, 13), ("one undo of two", 16, 1, 52),
    ("region 2^24 + 1", 25, 1, 25), ("region 2 of two", 28, 2, 25), ("an undo of a cell in region 0", 28, 0, 25),
    ("an undo of no kind", 29, 0, 29), ("an undo of kind 6", 29, 6, 29), ("an undo of an entry in region 1", 29, 4, 25),
    ("a restore without its words", 29, 3, 55), ("cell 0", 30, 0, 30), ("cell 8", 30, 8, 30),
    ("an undo of an entry in region 2^16", 40, 1, 39), ("an undo of an entry in region 1, its last", 42, 1, 39),
    ("a kind of a cell in region 0", 43, 2, 39), ("entry 21", 44, 21, 44), ("a number twice", 52, 3, 45),
    ("the next number", 52, 9, 45), ("an unknown state of the last one", 53, 2, 53), ("a committed one with an undo", 57, 1, 54),
]

# In each row the length that the header says this table has, and the place of the field that it cuts.
CUT_LENGTHS = [(0, 0), (3, 0), (4, 4), (12, 12), (13, 13), (17, 17), (25, 25), (29, 29), (30, 30), (57, 54)]

# Wrong tables of their own, and the place of the wrong field.
WRONG_TABLES = [
    ("a table without its count", f.table()[:3], 0), ("bytes behind the last one", f.table() + b"\0", 4),
    ("one that is missing", f.u32(1), 4), ("the next number in a table", f.table(f.entry(9)), 4),
    ("numbers that don't ascend", f.table(f.entry(3), f.entry(3)), 17), ("an unknown state", undos(state=2), 12),
    ("a committed one with undos of its own", undos(PUT, state=1), 13), ("no undo", undos(undo(f.NO_UNDO)), 29),
    ("an undo in no region", undos(undo(f.undo_free_cell(1), region=2)), 25),
    ("an undo of a cell in an index region", undos(undo(f.undo_free_cell(1), region=0)), 25),
    ("an undo of cell 8", undos(undo(f.undo_free_cell(8))), 30), ("an undo of entry 21", undos(undo(f.undo_free_entry(21), 0)), 30),
    ("a removal of entry 21", undos(undo(f.undo_revive_entry(21), 0)), 30),
    ("a removal of cell 0", undos(undo(f.undo_revive_cell(0))), 30),
    ("a restore of cell 0", undos(undo(f.undo_restore(0, 1, [0] * 5))), 30),
]

# Fields of the header, and the place of the first wrong one.
WRONG_FIELDS: list[tuple[str, dict[str, int], int]] = [
    ("no index region", {"index": 0}, 8), ("two index regions", {"index": 2}, 8), ("2^16 + 1 index regions", {"index": 65537}, 8),
    ("no heap region", {"heap": 0}, 8), ("two heap regions", {"heap": 2}, 8), ("2^24 + 1 heap regions", {"heap": 2**24 + 1}, 8),
    ("another number", {"number": 3}, 16), ("a place in the first batch", {"place": 14}, 24),
    ("a place at the end of the log", {"place": 22}, 24), ("no record", {"records": 0}, 32), ("2^40 records", {"records": MANY}, 32),
    ("2^40 bytes of records", {"length": MANY}, 40), ("a next number of 2^40", {"next": MANY}, 48),
    ("a next number of 0", {"next": 0}, 48),
    ("other sizes before all else", {"heap": 2, "number": 3, "place": 22, "records": 0, "length": MANY, "next": 0}, 8),
    ("another number before all behind it", {"number": 3, "place": 22, "records": 0, "length": MANY, "next": 0}, 16),
    ("a place before all behind it", {"place": 22, "records": 0, "length": MANY, "next": 0}, 24),
    ("no record before all behind it", {"records": 0, "length": MANY, "next": 0}, 32),
    ("the bytes before the next number", {"length": MANY, "next": 0}, 40),
]

BAD_TABLE = f.u32(1)

# In each row files, which of them is bad, and where. Where two are, the one that is read first is told.
REFUSED: list[tuple[str, Files, str, int]] = [
    ("an anchor of no gate", store(anchor=b""), "anchor", 0),
    ("no anchor behind a first batch", f.files(f.log(FIRST)), "anchor", 0),
    ("an anchor of open gates", store(anchor=b"\xa5\xa5"), "anchor", 2),
    ("a bad first batch before a bad anchor", store(log=f.log(f.batch(f.format_record(1, 1, version=2))), anchor=b""), "log", 5),
    ("a bad first batch before a bad image", store(image(BAD_TABLE, next=MANY), f.log(f.batch(f.begin(1)))), "log", 5),
    ("a first batch cut short", f.files(FIRST[:-1], anchor=f.anchor()), "log", 1),
    ("a length cut short", f.files(b"\xa5\0\0\0", anchor=f.anchor()), "log", 1),
    ("no gate behind the first batch", f.files(FIRST, anchor=f.anchor()), "log", 15),
    ("no image A", store(anchor=f.anchor(1)), "a", 0),
    ("no image B", store(b""), "b", 0),
    ("a header cut short", store(image()[:63]), "b", 0),
    ("another first byte", store(b"C" + image()[1:]), "b", 0),
    ("another eighth byte", store(image().replace(b"DALIIMG1", b"DALIIMG2")), "b", 0),
    ("a file without its last byte", store(image()[:-1]), "b", 56),
    ("a file of two regions without a table", store(image()[:TABLE]), "b", 56),
    ("a file that ends in its last region", store(image(b"")[:-1]), "b", 56),
    ("a table that is one longer than the file", store(image(TWO, 59)), "b", 56),
    ("another number before a short file", store(image(b"", 4, number=3)), "b", 16),
    ("a next number of 2^40 before a table", store(image(BAD_TABLE, next=MANY)), "b", 48),
    ("a place at the end of a log before a table", store(image(BAD_TABLE), SHORT_LOG[:-1]), "b", 24),
    ("a table before a bad log", store(image(BAD_TABLE), f.log(FIRST, f.batch(f.audit_begin()), f.batch(f.commit(1)))), "b", TABLE + 4),
    ("a table, and no gate before its image", store(image(BAD_TABLE), FIRST + b"\0\0\0\0\x63" + f.audit_begin() + f.CLOSED), "b", TABLE + 4),
    *((f"{name} in a header", store(image(**fields)), "b", at) for name, fields, at in WRONG_FIELDS),
    *((f"{name}, in a table", store(image(table)), "b", TABLE + at) for name, table, at in WRONG_TABLES),
    *((f"{name}, in a table of two", store(image(TWO[:at] + f.byte(number) + TWO[at + 1:])), "b", TABLE + field)
      for name, at, number, field in WRONG_BYTES),
    *((f"a table of two with the length {length}", store(image(TWO, length)), "b", TABLE + field) for length, field in CUT_LENGTHS),
]


# Logs behind the checkpoint, with one at work, a committed one, and one with an undo in its table.

def behind(table: bytes, *records: bytes) -> Files:
    return store(image(table), f.log(FIRST, f.batch(f.audit_begin()), f.batch(*records)))


BEHIND = 26
"""The place of the first record behind the image."""
GOES_ON: list[tuple[str, Files, str]] = [
    ("its next number begins behind it", behind(f.table(), f.begin(9)), lines("rolled back 9; deleted none; records 0")),
    ("an audit that ends behind it", behind(f.table(), f.audit_clean(1)), NOBODY),
    ("a commit of one at work", behind(undos(), f.commit(3), f.ended(3)), NOBODY),
    ("an end of one that is committed", behind(undos(state=1), f.ended(3)), NOBODY),
    ("an end of one at work", behind(undos(), f.ended(3)), NOBODY),
]
GOES_WRONG: list[tuple[str, Files, int]] = [
    ("a commit of nobody behind it", behind(f.table(), f.commit(1)), BEHIND),
    ("a number below its next number", behind(f.table(), f.begin(8)), BEHIND),
    ("an audit with the number of its next record", behind(f.table(), f.audit_clean(2)), BEHIND),
    ("a commit of one that is committed", behind(undos(state=1), f.commit(3)), BEHIND),
    ("an end of one with an undo", behind(undos(PUT), f.ended(3)), BEHIND),
]


# What a restart leaves of an image. An audit stands behind it, so that it has to write its own.

AUDIT = [f.audit_begin(), f.audit_clean(1)]


def renewed(name: str, before: Database, after: Database, table: bytes, rolled_back: Sequence[int] = (), old: bytes = b"") -> Case:
    """Image 1 with these words and this table, and image 2, which a restart leaves over the old bytes of that file."""
    header = f.Header(before.index, before.heap, 1, 15, 1, 10, 9)
    log = [f.formatted(before.index, before.heap), f.batch(*AUDIT)]
    first = f.image(header, before.regions(), table)
    files = f.files(f.log(*log), first, old, f.anchor(1))
    later = replace(header, number=2, place=sum(map(len, log)), records=3, length=10 + sum(map(len, AUDIT)))
    second = f.image(later, after.regions())
    left = f.files(f.log(*log, f.batch(f.restarted(rolled_back))), first, second + old[len(second):], f.anchor(2))
    told = lines(f"rolled back {' '.join(map(str, rolled_back)) or 'none'}; deleted none")
    return Case(name, Run("open\n", told, after=left), files)


def with_states(entries: dict[int, int], cells: dict[int, int]) -> Database:
    """One region of each kind, with these states of entries and cells."""
    database = Database(1, 1)
    for entry, state in entries.items():
        database.words[0][3 * entry + 1] = state
    for cell, state in cells.items():
        database.words[1][8 * cell] = state
    return database


def numbered(heap: int) -> Database:
    """Regions each of whose words has a number of its own, and none of which is a state."""
    database = Database(1, heap)
    for region, words in enumerate(database.words):
        words[:] = [1_000_000 + 64 * region + word for word in range(f.WORDS)]
    return database


# From the last one on: the entry is revived, the cell is revived, and then freed.
REMOVED = [undo(f.undo_free_cell(1)), undo(f.undo_revive_cell(1)), undo(f.undo_revive_entry(0), 0)]
RESTORED = [undo(f.undo_restore(1, 3, [1, 2, 3, 4, 5]))]


def restored() -> Database:
    database = with_states({}, {1: 1})
    database.words[1][8 + 2:16] = [3, 1, 2, 3, 4, 5]
    return database


LEFT = [
    renewed("undos are made from the last one on", with_states({0: 2}, {1: 2}), with_states({0: 1}, {1: 0}), undos(*REMOVED), [3]),
    renewed("a value is restored, with all its words", with_states({}, {1: 1}), restored(), undos(*RESTORED), [3]),
    renewed("the dead are freed, and the living stay", with_states({0: 2, 1: LIVE, 20: 2}, {1: 2, 2: LIVE, 7: 2}),
            with_states({0: FREE, 1: LIVE, 20: FREE}, {1: FREE, 2: LIVE, 7: FREE}), f.table()),
    renewed("the removals of a committed one are freed", with_states({0: 2}, {1: 2}), with_states({0: 0}, {1: 0}), undos(state=1)),
    renewed("an image over a shorter file", Database(1, 1), Database(1, 1), f.table(), old=b"\t" * 70),
    renewed("an image over a longer file", Database(1, 1), Database(1, 1), f.table(), old=b"\t" * 2000),
    renewed("130 regions are read and written", numbered(129), numbered(129), f.table()),
    renewed("a thousand regions are read and written", numbered(1023), numbered(1023), f.table()),
]


CASES = [
    *(Case(name, Run(SCRIPT, told), files) for name, files, told in [*TAKEN, *GOES_ON]),
    *(Case(name, Run(SCRIPT, f"bad store {file} {at}\n", 7, after="same"), files) for name, files, file, at in REFUSED),
    *(Case(name, Run(SCRIPT, f"bad store log {at}\n", 7, after="same"), files) for name, files, at in GOES_WRONG),
    *LEFT,
]
