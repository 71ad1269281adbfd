"""What may stand in a log of one index region and one heap region behind its first batch, and at which place a restart refuses
what may not; and what a restart makes of logs of several epochs."""
from collections.abc import Sequence

import formats as f
from shapes import Case, Run, lines
from worked import DEAD, FREE, LIVE, Database, Log, packed

FIRST = f.formatted(1, 1)

# Blocks of key 5: a look that finds nothing, a put into cell 1 of a region, and what takes it back.
STATES = {0: 0} | {3 * entry + 1: 0 for entry in range(21)}


def look(region: int) -> bytes:
    return f.block(5, region, f.LOOK, f.absent(), STATES)


def put(region: int) -> bytes:
    words = dict(enumerate([LIVE, 5, 1, *packed(b"a")], 8))
    return f.block(5, region, f.put(b"a"), f.was_put(1), dict.fromkeys(words, 0), words, f.undo_free_cell(1))


def freed(key: int = 5, state: int = LIVE) -> bytes:
    """Cell 1 of region 1, which has this state, becomes free."""
    return f.block(key, 1, f.free_cell(1), f.UNDONE, {8: state}, {8: FREE})


FREED_ENTRY = f.block(5, 0, f.free_entry(1), f.UNDONE, {4: 1}, {4: FREE})
PUT = [f.begin(1), f.operation(1, put(1))]
REMOVED = freed(state=FREE)

NOBODY = lines("rolled back none; deleted none")
NOTHING = lines("records 0")


def rolled_back(numbers: str) -> str:
    return lines(f"rolled back {numbers}; deleted none")


Batches = Sequence[Sequence[bytes]]

# In each row a name, the batches, and what `open` tells.
TAKEN: list[tuple[str, Batches, str]] = [
    ("the first record behind a format", [[f.begin(1)]], rolled_back("1")),
    ("the last number", [[f.begin(2**40 - 1)]], rolled_back("1099511627775")),
    ("a number that skips some", [[f.begin(7), f.begin(9)]], rolled_back("7 9")),
    ("an end of a committed one", [[f.begin(1), f.commit(1), f.ended(1)]], NOBODY),
    ("a commit with an undo left", [[*PUT, f.commit(1), f.ended(1)]], NOBODY),
    ("a taking back of a put", [[*PUT, f.back(1, freed()), f.ended(1)]], NOBODY),
    ("a removal of a committed one", [[f.begin(1), f.commit(1), f.solo(2, 1, REMOVED)]], NOBODY),
    ("a removal between two numbers", [[f.begin(1), f.commit(1), f.solo(2, 1, REMOVED), f.ended(1), f.begin(3)]], rolled_back("3")),
    ("an audit before the image", [[f.audit_clean(0)]], NOBODY),
    ("an audit", [[f.audit_begin(), f.audit_clean(1)]], NOBODY),
    ("a failed audit", [[f.audit_begin(), f.audit_fail(1, [0, 1])]], NOBODY),
    ("a restart behind a failed audit", [[f.audit_begin(), f.audit_fail(1, [0])], [f.restarted()]], NOBODY),
    ("a restart that tells nobody", [[f.restarted()]], NOBODY),
    ("a restart's lists at the image's place", [[f.restarted([7], [9])]], lines("rolled back 7; deleted 9")),
    ("a restart that leaves out a committed one", [[f.begin(1), f.commit(1)], [f.restarted()]], NOBODY),
    ("the lists of the last restart", [[*PUT], [f.restarted([1])]], rolled_back("1")),
    ("an epoch behind a restart", [[f.begin(1)], [f.restarted([1])], [f.begin(2), f.begin(3), f.ended(2)]], rolled_back("3")),
    ("a restart behind lists at the image's place", [[f.restarted([7])], [f.begin(1)], [f.restarted([1])]], rolled_back("1")),
    ("a restart in each of two epochs", [[f.begin(1)], [f.restarted([1])], [f.begin(2)], [f.restarted([2])]], rolled_back("2")),
]

# In each row a name, the batches, and the place that `open` names: that of the first record that may not stand there.
REFUSED: list[tuple[str, Batches, int]] = [
    ("a number of 0", [[f.begin(0)]], 20),
    ("a number of 2^40", [[f.begin(2**40)]], 20),
    ("a number twice", [[f.begin(7), f.begin(7)]], 29),
    ("a number below the next", [[f.begin(7), f.begin(6)]], 29),
    ("a format at the begin", [[f.format_record(1, 1)]], 20),
    ("a second format", [[f.begin(1)], [f.format_record(1, 1)]], 34),
    ("a done of nobody", [[f.done(1, f.delete(5), f.MISSING)]], 20),
    ("an operation of nobody", [[f.begin(2), f.operation(1, look(0))]], 29),
    ("an operation of a committed one", [[f.begin(1), f.commit(1), f.operation(1, look(0))]], 38),
    ("a commit of nobody", [[f.commit(1)]], 20),
    ("a commit twice", [[f.begin(1), f.commit(1), f.commit(1)]], 38),
    ("a commit twice in a later batch", [[f.begin(1)], [f.commit(1), f.commit(1)]], 43),
    ("an end of nobody", [[f.begin(1), f.ended(3)]], 29),
    ("an end twice", [[f.begin(1), f.ended(1), f.ended(1)]], 38),
    ("an end with an undo left", [[*PUT, f.ended(1)]], 145),
    ("a taking back with no undo", [[f.begin(1), f.back(1, freed())]], 29),
    ("a taking back by a look", [[*PUT, f.back(1, look(0))]], 145),
    ("a taking back under another key", [[*PUT, f.back(1, freed(key=6))]], 145),
    ("a taking back by another operation", [[*PUT, f.back(1, FREED_ENTRY)]], 145),
    ("an operation in no region", [[f.begin(1), f.operation(1, look(2))]], 29),
    ("a look in a heap region", [[f.begin(1), f.operation(1, look(1))]], 29),
    ("a put in an index region", [[f.begin(1), f.operation(1, put(0))]], 29),
    ("a removal of nobody", [[f.begin(1), f.solo(2, 1, REMOVED)]], 29),
    ("a removal of one at work", [[f.begin(1), f.begin(2), f.solo(3, 1, REMOVED)]], 38),
    ("a removal under a number below the next", [[f.begin(1), f.begin(2), f.commit(1), f.solo(2, 1, REMOVED)]], 47),
    ("a begin under the number of a removal", [[f.begin(1), f.commit(1), f.solo(2, 1, REMOVED), f.begin(2)]], 103),
    ("an audit that never began", [[f.begin(1), f.audit_clean(1)]], 29),
    ("an audit of its own number", [[f.audit_clean(1)]], 20),
    ("an audit of a later number", [[f.audit_begin(), f.audit_clean(2)]], 21),
    ("an audit of the epoch before", [[f.audit_begin()], [f.restarted()], [f.audit_clean(1)]], 40),
    ("a failed audit in no region", [[f.audit_begin(), f.audit_fail(1, [2])]], 21),
    ("a record behind a failed audit", [[f.audit_begin(), f.audit_fail(1, [0])], [f.begin(1)]], 43),
    ("an audit behind a failed audit", [[f.audit_begin()], [f.audit_fail(1, [1])], [f.audit_begin()]], 48),
    ("a clean audit behind a failed audit", [[f.audit_begin()], [f.audit_fail(1, [1])], [f.audit_clean(1)]], 48),
    ("other lists than those of the epoch", [[f.begin(1)], [f.restarted()]], 34),
    ("a restart that names a committed one", [[f.begin(1), f.commit(1)], [f.restarted([1])]], 43),
    ("a restart behind a restart", [[f.begin(1)], [f.restarted([1])], [f.restarted()]], 56),
    ("two restarts at the image's place", [[f.restarted()], [f.restarted()]], 34),
    ("a restart within a batch", [[f.begin(1), f.restarted([1])]], 29),
    ("one that was rolled back goes on", [[f.begin(1)], [f.restarted([1])], [f.commit(1)]], 56),
    ("a number of the epoch before", [[f.begin(1)], [f.restarted([1])], [f.begin(1)]], 56),
    ("an unknown record", [[f.begin(1), b"\x0d"]], 29),
    ("a record of number 0", [[f.begin(1), b"\0"]], 29),
    ("a record cut short", [[f.begin(1), f.begin(2)[:-1]]], 29),
    ("a rule broken before a spelling", [[f.commit(1), b"\x0d"]], 20),
]

BEGUN = FIRST + f.batch(f.begin(1))

# In each row a name, a log as its bytes are, and the place.
CUT: list[tuple[str, bytes, int]] = [
    ("a batch of no bytes", BEGUN + f.batch() + f.CLOSED, 30),
    ("a batch cut short", BEGUN + f.batch(f.begin(2))[:-1], 30),
    ("the only batch cut short", BEGUN[:-1], 16),
    ("no gate at the end", BEGUN, 29),
    ("a rule broken before a batch cut short", FIRST + f.batch(f.commit(1)) + f.batch(f.begin(1))[:-1], 20),
]


def log_of(batches: Batches) -> bytes:
    return f.log(FIRST, *(f.batch(*records) for records in batches))


def refused(name: str, log: bytes, at: int) -> Case:
    return Case(name, Run("open\nshow\n", f"bad store log {at}\n", 7, after="same"), f.files(log, anchor=f.anchor()))


def taken(name: str, log: bytes, told: str) -> Case:
    return Case(name, Run("open\nshow\n", told + NOTHING), f.files(log, anchor=f.anchor()))


# What a restart leaves of logs, word by word.

def leaves(name: str, log: Log, next_transaction: int, lists: tuple[list[int], list[int]], database: Database) -> Case:
    """These lists are told, and the image has these words and says where the log stood."""
    files = f.files(log.file(), anchor=f.anchor())
    image = f.image(log.header(1, next_transaction), database.regions())
    log.flush(f.restarted(*lists))
    named = [" ".join(map(str, numbers)) or "none" for numbers in lists]
    told = lines(f"rolled back {named[0]}; deleted {named[1]}")
    return Case(name, Run("open\n", told, after=f.files(log.file(), image, anchor=f.anchor(1))), files)


def two_puts() -> Case:
    """1 adds an entry, and stays; 2 puts a record and is rolled back by a restart, 3 puts one there and is at work at the end."""
    database, log = Database(1, 1), Log(1, 1)
    log.flush(f.begin(1), f.operation(1, database.add(7, 0, 9)), f.commit(1), f.begin(2), f.operation(2, database.put(2, 1, b"b")))
    log.flush(f.restarted([2]))
    database.words[1][8] = FREE
    log.flush(f.begin(3), f.operation(3, database.put(3, 1, b"c")))
    database.words[1][8] = FREE
    return leaves("each epoch is recovered over the one before", log, 4, ([3], []), database)


def reader() -> Case:
    """1 puts behind the clean place into the region that fails, and is deleted; 2 writes the other region, and stays."""
    database, log = Database(1, 1), Log(1, 1)
    log.flush(f.audit_begin(), f.audit_clean(1), f.begin(1), f.operation(1, database.put(1, 1, b"a")), f.commit(1))
    log.flush(f.begin(2), f.operation(2, database.add(7, 0, 9)), f.commit(2), f.audit_begin(), f.audit_fail(9, [1]))
    database.words[1] = Database(1, 1).words[1]
    return leaves("who read damage is left out", log, 3, ([], [1]), database)


def earlier_reader() -> Case:
    """1 puts before the clean place: it stays, though its region fails later."""
    database, log = Database(1, 1), Log(1, 1)
    log.flush(f.begin(1), f.operation(1, database.put(1, 1, b"a")), f.commit(1), f.audit_begin(), f.audit_clean(4))
    log.flush(f.begin(2), f.operation(2, database.add(7, 0, 9)), f.commit(2), f.audit_begin(), f.audit_fail(9, [1]))
    return leaves("who read before the clean place stays", log, 3, ([], []), database)


def epoch_on_the_way() -> Case:
    """1 puts in the first epoch. The audit of the second one fails, and its restart tells that 2, which put there, is deleted. 3 is
    at work in the last one."""
    database, log = Database(1, 1), Log(1, 1)
    log.flush(f.begin(1), f.operation(1, database.put(1, 1, b"a")), f.commit(1))
    log.flush(f.restarted())
    log.flush(f.begin(2), f.operation(2, database.put(2, 1, b"b")), f.commit(2), f.audit_begin(), f.audit_fail(8, [1]))
    log.flush(f.restarted([], [2]))
    database.words[1][16:24] = [FREE] * 8
    log.flush(f.begin(3), f.operation(3, database.add(7, 0, 9)))
    database.words[0][1] = FREE
    return leaves("an epoch on the way whose audit failed", log, 4, ([3], []), database)


def two_failed_epochs() -> Case:
    """The audits of both epochs failed; the first one was recovered, with 1 deleted. So the log is read three times."""
    database, log = Database(1, 1), Log(1, 1)
    log.flush(f.begin(1), f.operation(1, database.put(5, 1, b"a")), f.commit(1))
    log.flush(f.audit_begin())
    log.flush(f.audit_fail(4, [1]))
    log.flush(f.restarted([], [1]))
    database = Database(1, 1)
    log.flush(f.begin(2), f.operation(2, database.put(5, 1, b"a")), f.commit(2))
    log.flush(f.audit_begin())
    log.flush(f.audit_fail(10, [1]))
    return leaves("two epochs whose audits failed", log, 3, ([], [2]), Database(1, 1))


def dropped_records() -> Case:
    """2 puts, reads the damaged region, and changes what it put: this change and its commit are dropped, and the put is undone.
    1 has ended before."""
    database, log = Database(1, 2), Log(1, 2)
    log.flush(f.begin(1), f.operation(1, database.put(1, 2, b"a")), f.commit(1), f.ended(1), f.audit_begin(), f.audit_clean(5))
    log.flush(f.begin(2), f.operation(2, database.put(2, 1, b"b")), f.operation(2, database.read(1, 2, 1)))
    left = [list(words) for words in database.words]
    log.flush(f.operation(2, database.change(2, 1, 1, b"never")), f.commit(2), f.audit_begin(), f.audit_fail(12, [2]))
    database.words = left
    database.words[1][8] = FREE
    return leaves("what is dropped writes nothing", log, 3, ([], [2]), database)


def counted() -> Case:
    """A log of two batches: the image says where it ended, how many records it had, and the next number."""
    database, log = Database(1, 1), Log(1, 1)
    log.flush(f.begin(1), f.commit(1))
    log.flush(f.ended(1))
    return leaves("two batches", log, 2, ([], []), database)


def written_twice() -> Case:
    """The new words of two blocks of one region are written in the log's order, and what is dead at the end becomes free."""
    database, log = Database(1, 1), Log(1, 1)
    log.flush(f.begin(1), *database.insert(1, 5, b"first", 1), *database.update(1, 5, b"second"))
    log.flush(*database.insert(1, 6, b"x", 1), *database.delete(1, 6), f.commit(1))
    assert database.words[0][4] == database.words[1][16] == DEAD
    database.words[0][4] = database.words[1][16] = FREE
    return leaves("blocks are written in order, and the dead are freed", log, 2, ([], []), database)


def behind_a_bare_restart() -> Case:
    """A run over a log of the format and a restart's record, with no checkpoint: it commits 1, and its client dies in 2."""
    script = lines("open; client 1; begin; insert 5 abc; commit; begin; die 2; insert 6 d; end; audit; crash 0; restart; show")
    told = lines("rolled back none; deleted none; 1 begin 1; 1 insert ok; 1 commit ok; 1 begin 2; 1 died; audit clean; crash 0",
                 "rolled back 2; deleted none; 5 abc; records 1")
    return Case("a run behind a format and a restart", Run(script, told), f.files(log=log_of([[f.restarted()]]), anchor=f.anchor()))


CASES = [
    *(taken(name, log_of(batches), told) for name, batches, told in TAKEN),
    *(refused(name, log_of(batches), at) for name, batches, at in REFUSED),
    *(refused(*row) for row in CUT),
    taken("bytes behind the last gate", BEGUN + b"\x01\xa5\xa5", rolled_back("1")),
    two_puts(), reader(), earlier_reader(), epoch_on_the_way(), two_failed_epochs(), dropped_records(), counted(), written_twice(),
    behind_a_bare_restart(),
]
