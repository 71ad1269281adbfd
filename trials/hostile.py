"""Hostile files: logs that are cut within their first batch, anchors and images that are missing, and a small store in which one byte
after another is changed. What is refused is told by the file and the place that docs/FORMATS.md says, and nothing is written then."""
import re
from collections.abc import Callable, Sequence
from dataclasses import replace

import formats as f
from shapes import A, ANCHOR, B, LOG, NAMES, Case, Done, Files, Run, Sweep, lines
from worked import Database, Log

FIRST = f.formatted(1, 1)
OPEN = lines("open")


def refused(name: str, told: str, status: int, files: Files) -> Case:
    return Case(name, Run(OPEN, lines(told), status, after="same"), files)


def cut(count: int) -> Run:
    return Run(OPEN, lines("bad store log 1"), 7, after="same", before=lambda _: f.files(log=FIRST[:count], anchor=f.anchor()))


MANY = b"\xff" * 4


def logged(body: bytes) -> Files:
    return f.files(log=f.log(FIRST, f.batch(body)), anchor=f.anchor())


def tabled(table: bytes) -> Files:
    """Image 2 of two empty regions with this table, at place 21 behind an audit's begin."""
    image = f.image(f.Header(1, 1, 2, 21, 2, 11, 9), [f.region(), f.region({0: 1})], table)
    return f.files(log=f.log(FIRST, f.batch(f.audit_begin())), b=image, anchor=f.anchor(2))


ONE_RECORD = lines("size 1 1; client 1; begin; insert 5 abc; commit; end; show")

TABLE: list[Case | Sweep] = [
    refused("the first byte of a log", "unformatted", 8, f.files(log=FIRST[:1], anchor=f.anchor())),
    Sweep("the first bytes of a log, up to its first batch", cut, range(2, 15), least=13),
    refused("a first batch without a gate behind it", "bad store log 15", 7, f.files(log=FIRST, anchor=f.anchor())),
    refused("a commit without a begin", "bad store log 20", 7,
            f.files(log=FIRST + bytes.fromhex("a50000000905000000000000000100"), anchor=f.anchor())),
    refused("a first batch, and an anchor of no byte", "bad store anchor 0", 7, f.files(log=FIRST + b"\0")),
    refused("a first batch, and an anchor of an open gate alone", "bad store anchor 1", 7, f.files(log=FIRST + b"\0", anchor=b"\xa5")),
    refused("a first batch, and a checkpoint without its image", "bad store a 0", 7, f.files(log=FIRST + b"\0", anchor=b"\xa5\0")),
    # Counts of 2^32 - 1, where a few bytes follow.
    refused("a restart of many lists", "bad store log 20", 7, logged(b"\x0b" + MANY + bytes(40))),
    refused("a failed audit of many regions", "bad store log 21", 7, logged(f.audit_begin() + b"\x0a" + f.u64(1) + MANY + bytes(40))),
    refused("a table of many", "bad store b 1092", 7, tabled(MANY + bytes(7))),
    refused("one at work with many undos", "bad store b 1105", 7, tabled(f.u32(1) + f.u64(3) + b"\0" + MANY)),
    Case("a script in pieces of one byte, whose fourth read fails",
         Run(ONE_RECORD, lines("read fault"), 4, reads_of=1, fail_reads=[3], after={})),
    Case("the first write that fails", Run(ONE_RECORD, "", 5, fail_writes=[0])),
    Case("the first call of the store that fails", Run(ONE_RECORD, lines("store fault"), 6, fail_calls=[0], after={})),
]

# The small store: transaction 1 inserts key 5, and image 1 is made; an audit is clean; 2 inserts key 8, and image 2 is made before it
# commits; another audit is clean; 3 reads key 5 and is still at work.


def batches() -> tuple[list[list[bytes]], list[bytes]]:
    """The batches behind the first one, and the two images."""
    database, log = Database(1, 1), Log(1, 1)
    made: list[list[bytes]] = []

    def flush(*records: bytes) -> None:
        made.append(list(records))
        log.flush(*records)

    flush(f.begin(1), *database.insert(1, 5, b"abc", 1), f.commit(1))
    first = f.image(log.header(1, 2), database.regions(), f.table(f.entry(1, 1)))
    flush(f.ended(1), f.audit_begin(), f.audit_clean(log.records + 1))
    flush(f.begin(2), *database.insert(2, 8, b"z", 1))
    undos = [f.Undo(8, 1, f.undo_free_cell(2)), f.Undo(8, 0, f.undo_free_entry(1))]
    second = f.image(log.header(2, 3), database.regions(), f.table(f.entry(2, 0, undos)))
    flush(f.commit(2), f.audit_begin(), f.audit_clean(log.records + 1))
    flush(f.begin(3), *database.get(3, 5))
    return made, [first, second]


BATCHES, IMAGES = batches()
SMALL = f.files(f.log(FIRST, *(f.batch(*it) for it in BATCHES)), *IMAGES, f.anchor(2))
FOUND = lines("rolled back 3; deleted none; 5 abc; 8 z; records 2")

# How the lines of a dump begin, behind their numbers.
INSERTED = "op {0} 0 {1} look; op {0} 1 {1} put; op {0} 0 {1} add; done {0} insert {1} insert ok"
DUMPED = [f"{number} {line}" for number, line in enumerate("; ".join([
    "format 1 1; begin 1", INSERTED.format(1, 5), "commit 1; ended 1; audit begin; audit clean 8; begin 2", INSERTED.format(2, 8),
    "commit 2; audit begin; audit clean 16; begin 3; op 3 0 5 look; op 3 1 5 read; done 3 get 5 got abc"]).split("; "))]

# Where the batches and the records begin, and where the records end.
BEGINS, RECORDS, ENDS = [0], [], []
for its in [[f.format_record(1, 1)], *BATCHES]:
    at = BEGINS[-1] + 5
    for record in its:
        RECORDS.append(at)
        ENDS.append(at := at + len(record))
    BEGINS.append(at)
END = BEGINS.pop()
"""The place of the log's last gate."""
IMAGE_AT = BEGINS[4]
"""The place of image 2: the batch with the commit of 2 stands there."""
assert len(DUMPED) == len(RECORDS) and END == len(SMALL[LOG]) - 1

# Each byte in each of four ways.
WAYS: list[Callable[[int], int]] = [lambda it: it ^ 1, lambda it: it ^ 0x80, lambda it: it ^ 0xff, lambda it: 0xa5 if it != 0xa5 else 0]
PLACES = [(name, at) for name in NAMES for at in range(len(SMALL[name]))]
CHANGES = [(name, at, way(SMALL[name][at])) for name, at in PLACES for way in WAYS]
Change = tuple[str, int, int]


def changed(name: str, at: int, byte: int) -> Files:
    content = SMALL[name]
    return SMALL | {name: content[:at] + f.byte(byte) + content[at + 1:]}


def before(place: int) -> int:
    """How many records end at this place of the log or before it."""
    return sum(end <= place for end in ENDS)


def read_log(place: int, byte: int) -> tuple[int | None, int, bool]:
    """How a reader of the whole log with this change goes on: the place at which it must refuse it, or the least such place; how many
    records it meets first as they were; and whether it is known to refuse it. None: it isn't refused for its bytes."""
    if place == END:
        return (END + 1, len(RECORDS), True) if byte == 0xa5 else (None, len(RECORDS), False)
    batch = max(it for it in range(len(BEGINS)) if BEGINS[it] <= place)
    begin = BEGINS[batch]
    if place == begin:
        return None, before(begin), False
    if place <= begin + 4:
        content = bytearray(SMALL[LOG])
        content[place] = byte
        length = int.from_bytes(content[begin + 1:begin + 5], "big")
        end = begin + 5 + length
        if length == 0 or end > len(content):
            return begin + 1, before(begin), True
        if batch == 0:
            return 5, 0, True
        if end in RECORDS or end in BEGINS:
            return None, before(end), False
        # A record is cut short, or the next gate stands where a record is to begin.
        behind = [*BEGINS, END][batch + 1]
        wrong = max(it for it in [*RECORDS, behind] if it <= min(end, behind) and it >= begin)
        return wrong, before(wrong), True
    record = max(it for it in RECORDS if it <= place)
    return record, RECORDS.index(record), False


def dumps(change: Change, done: Done) -> bool | str:
    """Whether a dump tells what stands before the changed byte, and refuses at the place that is due."""
    name, place, byte = change
    told = done.out.splitlines()
    if name != LOG:
        place, byte = END, 0
    if place == 0:
        return (done.out, done.status) == (lines("unformatted"), 8)
    wrong, count, surely = read_log(place, byte)
    if done.status == 7:
        at = re.fullmatch(r"bad store log (\d+)\n", done.out)
        return bool(at) and wrong is not None and wrong <= int(at[1]) <= len(SMALL[LOG]) and not (surely and int(at[1]) != wrong)
    alike = all(line.startswith(start) for line, start in zip(told, DUMPED[:count]))
    whole = len(told) == count if wrong is None else len(told) >= count
    return done.status == 0 and not surely and alike and whole and all(line.startswith(f"{it} ") for it, line in enumerate(told))


OPENED = re.compile(
    r"rolled back (?:none|[\d ]+)\ndeleted (?:none|[\d ]+)\n(?:\d+ \S+\n)*records \d+\n(?:verify ok|verify differs|bad store log (\d+))\n")
REFUSED = re.compile(r"bad store (log|a|b|anchor) (\d+)\n")
HEADER = [0, 8, 12, 16, 24, 32, 40, 48, 56, 64]
TABLE_AT = 64 + 2 * 512


def due(change: Change) -> tuple[str, int, int] | None:
    """The file that a restart must refuse, and the least and the most place; None where it must not refuse any or may do either."""
    name, place, byte = change
    if name == ANCHOR and (place, byte) == (2, 0xa5):
        return "anchor", 3, 3
    if name == B and place < 24:
        at = [0, 8, 8, 16][[place < it for it in HEADER[1:5]].index(True)]
        return "b", at, at
    if name == LOG and place < 15:
        wrong, _, surely = read_log(place, byte)
        sizes = [place, byte] if place > 6 else []
        return ("log", wrong or 0, wrong or 0) if surely or not sizes else None
    return None


def opens(change: Change, done: Done) -> bool | str:
    """Whether a restart finds the records, or refuses the file that is bad, at its place; and what `verify` tells then."""
    name, place, byte = change
    if name == LOG and place == 0:
        return (done.out, done.status) == (lines("unformatted"), 8)
    told = REFUSED.fullmatch(done.out)
    wanted = due(change)
    if wanted:
        return bool(told) and done.status == 7 and told[1] == wanted[0] and wanted[1] <= int(told[2]) <= wanted[2]
    if told:
        # The header's sizes are compared with those of the log; its numbers are those of records.
        may = {LOG: ["log", "b"] if place < 15 else ["log"], A: [], B: ["b", "log"], ANCHOR: []}[name]
        least = {"log": 5 if name == LOG and place < 15 else read_log(place, byte)[0] or 0 if name == LOG else IMAGE_AT, "b": 8}
        if name == LOG and 15 <= place < IMAGE_AT:
            return "it refuses bytes that it needn't read"
        if name == B and told[1] == "b":
            fields = [it for it in [24, 32, 40, 48, 56, TABLE_AT] if it <= place]
            return done.status == 7 and fields != [] and int(told[2]) in range(fields[-1], len(SMALL[B]) + 1)
        return done.status == 7 and told[1] in may and int(told[2]) >= min(least[told[1]], len(SMALL[LOG]) - 1)
    opened = OPENED.fullmatch(done.out)
    if not opened or done.status != (7 if opened[1] else 0):
        return "it isn't told so"
    same = done.out.startswith(FOUND)
    if name in (A, ANCHOR):
        return same and done.out == FOUND + lines("verify ok")
    if name == LOG and (place < IMAGE_AT or place == END):
        return same
    return True


def both(number: int, done: list[Done]) -> bool | str:
    change = CHANGES[number]
    if REFUSED.fullmatch(done[0].out) and done[0].files != changed(*change):
        return f"{change}: a restart that refuses files changes them"
    for what, test, run in zip(("open", "dump"), (opens, dumps), done):
        verdict = test(change, run)
        if verdict is not True:
            return f"{change}: {what} ends with {run.status} and {run.out[-200:]!r}: {verdict or 'not as wanted'}"
    return True


def over(number: int) -> Sequence[Run]:
    """The restart and the dump, each over the changed files. A dump reads no image: so it is run over a part of these changes alone."""
    name, place, _ = CHANGES[number]
    files = changed(*CHANGES[number])
    opened = Run(lines("open; show; verify"), None, None, before=lambda _: files, writes_of=65_536, reads_of=65_536)
    dumped = replace(opened, script="", words="dump", after="same")
    return [opened, dumped] if name in (LOG, ANCHOR) or place < 8 else [opened]


CASES = [
    *TABLE,
    Case("the small store", [
        Run("", lambda out: [line.startswith(start) for line, start in zip(out.splitlines(), DUMPED, strict=True)].count(False) == 0,
            words="dump", after="same"),
        Run(lines("open; show; verify"), FOUND + lines("verify ok")),
    ], SMALL),
    Sweep("a changed byte of the small store", over, range(len(CHANGES)), least=4 * 2_500, holds=both),
]
