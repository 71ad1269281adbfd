"""Checkpoints: the bytes that they write, how many calls of the store they make, what each of these leaves that fails, and two
at a time."""
from collections.abc import Callable
from dataclasses import replace

import formats as f
from shapes import A, ANCHOR, LOG, Case, Done, Run, Sweep, lines
from worked import Database, Log

# A transaction of client 1 that is at work, with nothing in its log but its begin: the client dies in its first operation.
AT_WORK, AT_WORK_LINES = "client 1\nbegin\ndie 1\nget 9\nend\n", "1 begin 1\n1 died\n"
SHOW = "open\nshow\n"

# How many calls of the store are made by a new database, by a flush, and by a checkpoint behind its first flush, beside one for each
# region that it writes: header, table, the flush of the audit's records, a sync of the image, and four for the anchor.
SIZE, FLUSH, REST = 12, 4, 1 + 1 + 4 + 1 + 4


# The bytes.

def written(name: str, script: str, out: str, database: Database, table: bytes, *records: bytes) -> Case:
    """A checkpoint behind these records, which are flushed by it alone: its image has these words and this table."""
    log = Log(1, 1)
    log.flush(*records)
    image = f.image(log.header(1, 2), database.regions(), table)
    log.flush(f.audit_begin(), f.audit_clean(1 + len(records)))
    return Case(name, Run(script, out, after=f.files(log.file(), image, anchor=f.anchor(1))))


def open_operation(name: str, dies_in: int) -> Case:
    """Transaction 1 inserts key 5, and its client dies in an operation of the insert of key 6. The image has what was logged, and
    none of the words that the open operation wrote; the table has the undos of what was logged."""
    script = f"size 1 1\nclient 1\nbegin\ninsert 5 abc\ndie {dies_in}\ninsert 6 d\nend\ncheckpoint\n"
    database = Database(1, 1)
    records = [f.begin(1), *database.insert(1, 5, b"abc", 1)]
    undos = [f.Undo(5, 1, f.undo_free_cell(1)), f.Undo(5, 0, f.undo_free_entry(0))]
    if dies_in > 1:
        records.append(f.operation(1, database.look(6, 0)))
    if dies_in > 2:
        records.append(f.operation(1, database.put(6, 1, b"d")))
        undos.append(f.Undo(6, 1, f.undo_free_cell(2)))
    told = lines("1 begin 1; 1 insert ok; 1 died; checkpoint 1")
    return written(name, script, told, database, f.table(f.entry(1, 0, undos)), *records)


def both_images() -> Case:
    """Two checkpoints of a database with one at work write A and B, and what stands behind the first one's audit is in B's header."""
    log, regions = Log(1, 1), Database(1, 1).regions()
    log.flush(f.begin(1))
    first = f.image(log.header(1, 2), regions, f.table(f.entry(1)))
    log.flush(f.audit_begin(), f.audit_clean(2))
    second = f.image(log.header(2, 2), regions, f.table(f.entry(1)))
    log.flush(f.audit_begin(), f.audit_clean(4))
    script = f"size 1 1\n{AT_WORK}checkpoint\ncheckpoint\n"
    told = AT_WORK_LINES + lines("checkpoint 1; checkpoint 2")
    return Case("two checkpoints write both images", Run(script, told, after=f.files(log.file(), first, second, f.anchor(2))))


def committed_one() -> Case:
    """Client 1 deletes a record beside client 2, who makes a checkpoint behind so many calls: one of these checkpoints meets the
    transaction where it is committed and has not ended, and its table says so. The next run is the same behind each."""
    def runs(calls: int) -> list[Run]:
        waits = "begin\n" + "get 9\n" * calls + "commit\n" if calls else ""
        script = ("size 1 1\nclient 1\nbegin\ninsert 5 abc\ncommit\nend\nnext\nclient 1\nbegin\ndelete 5\ncommit\nend\n"
                  f"client 2\n{waits}checkpoint\nend\n")
        return [Run(script, None, before=lambda _: {}), Run(SHOW, lines("rolled back none; deleted none; records 0"))]

    def some_is_committed(done: list[Done]) -> bool:
        return any(it.files[A].endswith(f.table(f.entry(2, 1))) for it in done[::2])
    return Case("a table with a committed one", [run for calls in range(8) for run in runs(calls)], holds=some_is_committed)


BYTES = [
    written("an image with one at work", f"size 1 1\n{AT_WORK}checkpoint\n", AT_WORK_LINES + "checkpoint 1\n",
            Database(1, 1), f.table(f.entry(1)), f.begin(1)),
    open_operation("an image without the words of an open look", 1),
    open_operation("an image without the words of an open put", 2),
    open_operation("an image without the words of an open add", 3),
    both_images(),
    committed_one(),
]


# The calls.

def takes(calls: int) -> Callable[[list[Done]], str]:
    """Whether the last run makes so many calls of the store."""
    return lambda done: "" if done[-1].calls == calls else f"makes {done[-1].calls} calls of the store, wanted {calls}"


def insert(transaction: int, key: int) -> tuple[str, str]:
    script = f"client 1\nbegin\ninsert {key} abc\ncommit\nend\nnext\n"
    return script, f"1 begin {transaction}\n1 insert ok\n1 commit ok\n"


# Checkpoints of regions 0, 1 and 2, of which the last is the heap: for each row what happens before it, and how many regions it
# writes. It writes those that changed since it was written to the same image.
CHECKPOINTS = [
    ("all to A", ("", ""), 3), ("all to B", ("", ""), 3), ("none to A", ("", ""), 0), ("none to B", ("", ""), 0),
    ("regions 0 and 2 to A", insert(1, 4), 2), ("regions 0 and 2 to B", ("", ""), 2), ("none to A again", ("", ""), 0),
    ("regions 1 and 2 to B", insert(2, 5), 2), ("regions 1 and 2 to A", ("", ""), 2), ("none to B again", ("", ""), 0),
    ("regions 0 and 2 to A again", insert(3, 6), 2),
]


def in_a_row(count: int) -> Case:
    """So many of these checkpoints, and how many calls they make in all. A commit flushes the log, and its end is flushed by the
    next checkpoint."""
    script, told, calls = "size 2 1\n", "", SIZE
    for number, (_, (commands, its_lines), writes) in enumerate(CHECKPOINTS[:count], 1):
        script += commands + "checkpoint\n"
        told += its_lines + f"checkpoint {number}\n"
        calls += (2 * FLUSH if commands else 0) + REST + writes
    return Case(f"calls of checkpoint {count}: {CHECKPOINTS[count - 1][0]}", Run(script, told), holds=takes(calls))


def of_many(heap: int, client: bool) -> Case:
    """The first checkpoint, a client's or one by itself, writes each region by one call."""
    script, speaks = ("client 1\ncheckpoint\nend\n", "1 ") if client else ("checkpoint\n", "")
    run = Run(f"size 1 {heap}\n{script}", f"{speaks}checkpoint 1\n")
    return Case(f"{heap + 1} regions of {'a client' if client else 'one'}", run, holds=takes(SIZE + REST + heap + 1))


CALLS = [
    *(in_a_row(count + 1) for count in range(len(CHECKPOINTS))),
    *(of_many(heap, client) for heap in (1, 4, 129) for client in (False, True)),
]


# Calls that fail. The begin of the one at work is flushed by the first four, of which the third opens its gate; the third of the
# last four opens the anchor's.

def failing(name: str, checkpoint: str, speaks: str, calls: int) -> Sweep:
    """A fuse that fails the checkpoint at each of its calls stops the engine. The next run finds the one at work where its begin
    was flushed."""
    def runs(number: int) -> list[Run]:
        ends = f"{speaks}checkpoint 1; records 0" if number == calls else f"{speaks}checkpoint store stopped; show stopped store"
        told = AT_WORK_LINES + lines(f"fuse {number}; {ends}")
        gates = int(number >= calls - 1)
        first = Run(f"size 1 1\n{AT_WORK}fuse {number}\n{checkpoint}show\n", told,
                    after=lambda files: files[ANCHOR].count(f.OPEN) == gates)
        begun = "1" if number >= 3 else "none"
        return [first, Run(SHOW, lines(f"rolled back {begun}; deleted none; records 0"))]
    return Sweep(name, runs, range(calls + 1), calls + 1)


# Two records, one after another, with a checkpoint behind each.
TWO = Run("size 2 3\nclient 1\nbegin\ninsert 5 abc\ncommit\ncheckpoint\nbegin\nupdate 5 z\ncommit\nend\ncheckpoint\n",
          lines("1 begin 1; 1 insert ok; 1 commit ok; 1 checkpoint 1; 1 begin 2; 1 update ok; 1 commit ok; checkpoint 2"))
STATES = ["records 0\n", "5 abc\nrecords 1\n", "5 z\nrecords 1\n"]


def keeps_the_told(number: int, done: list[Done]) -> bool:
    """The next run finds what the told commits left, or one more; and no database only where it wasn't made yet."""
    commits = done[0].out.count("commit ok")
    if done[1].status == 8:
        return number < SIZE and done[1].out == "unformatted\n"
    return done[1].status == 0 and done[1].out.endswith(tuple(STATES[commits:commits + 2]))


def stopped(choice: int) -> Sweep:
    def runs(number: int) -> list[Run]:
        return [replace(TWO, out=None, status=None, passes=number, crash=choice), Run(SHOW, None, None)]
    return Sweep(f"a stop at each call of two checkpoints, with crash {choice}", runs, TWO, 60, holds=keeps_the_told)


# Damage, and two at a time.

DAMAGE = "poke 1 5 10000000000\n"
"""It changes word 5 of region 1."""
FAILED = f.files(f.log(f.formatted(1, 1), f.batch(f.audit_begin(), f.audit_fail(1, [1]))), anchor=f.anchor())


def is_kept(files: dict[str, bytes]) -> bool:
    """The failure stands in the log, and no image is current."""
    return (files[LOG], files[ANCHOR]) == (FAILED[LOG], FAILED[ANCHOR])


CASES = [
    *BYTES,
    *CALLS,
    failing("each call of a checkpoint that fails", "checkpoint\n", "", FLUSH + REST + 2),
    failing("each call of a client's checkpoint that fails", "client 2\ncheckpoint\nend\n", "2 ", FLUSH + REST + 2),
    *(stopped(choice) for choice in range(5)),
    Case("damage leaves the anchor",
         Run(f"size 1 1\n{DAMAGE}checkpoint\ncheckpoint\n", lines("poke ok; checkpoint failed 1; checkpoint stopped damage 1"),
             after=is_kept)),
    Case("damage that a client's checkpoint finds leaves the anchor",
         Run(f"size 1 1\nclient 1\n{DAMAGE}checkpoint\ncheckpoint\nend\n",
             lines("1 poke ok; 1 checkpoint failed 1; 1 checkpoint stopped damage 1"), after=is_kept)),
    Case("one checkpoint at a time",
         Run("size 1 1\nclient 1\ncheckpoint\nend\nclient 2\ncheckpoint\ncheckpoint\nend\ncheckpoint\n",
             lines("1 checkpoint 1; 2 checkpoint in progress; 2 checkpoint in progress; checkpoint 2"))),
    Case("a restart behind a checkpoint that failed, and its own image",
         [Run("size 1 1\nfuse 0\ncheckpoint\ncrash 0\nrestart\ncheckpoint\n",
              lines("fuse 0; checkpoint store stopped; crash 0; rolled back none; deleted none; checkpoint 1")),
          Run("open\ncheckpoint\n", lines("rolled back none; deleted none; checkpoint 3"))]),
]
