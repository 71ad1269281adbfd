"""The log as batches: bad ones are told at their place, as docs/FORMATS.md says; long ones are read; and a flush, as the move of the
anchor, is four calls of the store, each of which leaves what it should where it is the last one."""
from collections.abc import Callable, Iterator

import formats as f
from shapes import ANCHOR, LOG, Case, Done, Files, Run, Sweep, lines

FIRST = f.formatted(1, 1)
MOST = 2**30
"""The most bytes that the body of a batch has."""


def read(log: bytes) -> tuple[str, int]:
    """What `dump` tells of a log whose records, but the format in the first batch, are audits that begin, and its status."""
    if len(log) < 2 or log[:1] != f.OPEN:
        return lines("unformatted"), 8
    place, told = 0, []
    while place < len(log) and log[place:place + 1] == f.OPEN:
        length = int.from_bytes(log[place + 1:place + 5], "big")
        if place + 5 > len(log) or not 1 <= length <= MOST or place + 5 + length > len(log):
            return lines(f"bad store log {place + 1}"), 7
        body = log[place + 5:place + 5 + length]
        if place == 0:
            sizes = [int.from_bytes(body[at:at + 4], "big") for at in (2, 6)]
            if body != f.format_record(*sizes) or not (1 <= sizes[0] <= 2**15 and 1 <= sizes[1] <= 2**16):
                return lines("bad store log 5"), 7
            told.append(f"format {sizes[0]} {sizes[1]}")
        else:
            wrong = [at for at, byte in enumerate(body) if byte != 8]
            if wrong:
                return lines(f"bad store log {place + 5 + wrong[0]}"), 7
            told += ["audit begin"] * length
        place += 5 + length
    if place >= len(log):
        return lines(f"bad store log {place}"), 7
    return lines(*(f"{number} {line}" for number, line in enumerate(told))), 0


def dump(log: bytes) -> Run:
    told, status = read(log)
    return Run("", told, status, words="dump", before=lambda _: f.files(log=log, anchor=f.anchor()))


# Each row: a log, and what is told of it, which the rules above must give, too.
WORKED = [(name, bytes.fromhex(log), told) for name, log, told in [
    ("no byte", "", "unformatted"),
    ("an open gate alone", "a5", "unformatted"),
    ("a closed first gate", "00a5", "unformatted"),
    ("two bytes of the first batch", "a500", "bad store log 1"),
    ("the first batch without its last byte", "a50000000a010100000001000000", "bad store log 1"),
    ("no gate behind the first batch", "a50000000a01010000000100000001", "bad store log 15"),
    ("the first batch", "a50000000a0101000000010000000100", "0 format 1 1"),
    ("bytes behind a closed gate", "a50000000a01010000000100000001010000", "0 format 1 1"),
    ("a closed gate of another byte", "a50000000a01010000000100000001ff", "0 format 1 1"),
    ("a length of 100", "a50000000a01010000000100000001a50000006400", "bad store log 16"),
    ("a length of 0", "a50000000a01010000000100000001a50000000008", "bad store log 16"),
    ("a length of one more than there are bytes", "a50000000a01010000000100000001a50000000208", "bad store log 16"),
    ("a length of 2^30 + 1", "a50000000a01010000000100000001a54000000108", "bad store log 16"),
    ("a length that is cut short", "a50000000a01010000000100000001a50000", "bad store log 16"),
    ("a record of no row", "a50000000a01010000000100000001a500000002080000", "bad store log 21"),
    ("an audit that begins", "a50000000a01010000000100000001a5000000010800", "0 format 1 1; 1 audit begin"),
    ("an audit that begins first", "a5000000010800", "bad store log 5"),
]]


def worked(name: str, log: bytes, told: str) -> Case:
    run = dump(log)
    return Case(name, run, holds=lambda done: done[0].out == lines(told))


# Logs that are cut short, or in which one byte is another one.
SHORT = f.log(FIRST, f.batch(*[f.audit_begin()] * 3), f.batch(f.audit_begin()))
OTHERS = [(at, byte) for at in range(len(SHORT)) for byte in (0x00, 0x01, 0x08, 0xa4, 0xa5, 0xff)]


def other_byte(number: int) -> Run:
    at, byte = OTHERS[number]
    return dump(SHORT[:at] + f.byte(byte) + SHORT[at + 1:])


def refuses_alike(number: int) -> Run:
    """A restart refuses at the same place what can't be read."""
    log = SHORT[:number]
    told, status = read(log)
    return Run("open\n", told, status, after="same", before=lambda _: f.files(log=log, anchor=f.anchor()))


# Behind its first batch a log is read in parts of 262,144 bytes. The second batch of these is longer, or ends so that each byte of
# the third one stands once at the end of the first part and once behind it. Without the log's last byte its last gate is missing;
# without two the third batch is cut short. A commit has 9 bytes.
def long_log(commits: int, audits: int, more: int, cut: int) -> bytes:
    log = f.log(FIRST, f.batch(*[f.commit(1)] * commits, *[f.audit_begin()] * audits), f.batch(*[f.commit(1)] * more))
    return log[:len(log) - cut]


def counts(records: int) -> Callable[[str], bool]:
    return lambda out: out.count("\n") == records and f"\n{records - 1} " in out


LONG = [
    ("a second batch of 270,000 bytes", (30_000, 0, 1, 0), 30_002),
    ("a third batch of 270,000 bytes", (29_123, 3, 30_000, 0), 59_127),
    ("a batch of more than a mebibyte", (120_000, 0, 1, 0), 120_002),
]


def long(name: str, parts: tuple[int, int, int, int], records: int) -> Case:
    return Case(name, Run("", counts(records), words="dump", after="same"), files=f.files(log=long_log(*parts), anchor=f.anchor()))


def across(audits: int) -> Run:
    log = long_log(29_124, audits, 2, 0)
    return Run("", counts(29_127 + audits), words="dump", after="same", before=lambda _: f.files(log=log, anchor=f.anchor()))


def long_and_bad(name: str, cut: int, place: int) -> Case:
    run = Run("", lines(f"bad store log {place}"), 7, words="dump", after="same")
    return Case(name, run, files=f.files(log=long_log(29_124, 0, 1, cut), anchor=f.anchor()))


# A commit of a transaction that did nothing, where so many calls of its flush pass, and then a crash that keeps what wasn't synced
# or drops it: what the log has behind its first batch. The flush writes behind the closed gate, syncs, opens the gate, and syncs.
BODY = f.begin(1) + f.commit(1)
GATE, WRITTEN, WHOLE = f.CLOSED, f.CLOSED + f.u32(len(BODY)) + BODY + f.CLOSED, f.batch(BODY) + f.CLOSED
FLUSHES = [(0, GATE, GATE), (1, WRITTEN, GATE), (2, WRITTEN, WRITTEN), (3, WHOLE, WRITTEN), (4, WHOLE, WHOLE), (5, WHOLE, WHOLE)]


def flush(passes: int, left: bytes, choice: int) -> Case:
    commit = "1 commit ok" if passes >= 4 else "1 commit store stopped"
    run = Run(
        lines("size 1 1", f"fuse {passes}", "client 1; begin; commit; end", f"crash {choice}"),
        lines(f"fuse {passes}", "1 begin 1", commit, f"crash {choice}"),
        after=f.files(log=FIRST + left, anchor=f.anchor()))
    found = lines("rolled back none; deleted none; records 0")
    return Case(f"{passes} calls of a flush, crash {choice}", [run, Run(lines("open; show"), found)])


def flushes() -> Iterator[Case]:
    for passes, kept, dropped in FLUSHES:
        yield flush(passes, kept, 0)
        yield flush(passes, dropped, 1)


# A database is made by twelve calls: a sync, a length and a read; a length, two writes and two syncs; and a flush of the format.
MADE = 12


def fails_alone(call: int, left: bytes, choice: int) -> Case:
    """One call of the flush fails. It isn't made again, and none is made behind it, though each would pass."""
    script = lines("size 1 1", "client 1; begin; commit; end")
    run = Run(script, lines("1 begin 1; 1 commit store stopped"), fail_calls=[MADE + call], crash=choice,
              after=f.files(log=FIRST + left, anchor=f.anchor()))
    return Case(f"call {call} of a flush fails alone, crash {choice}", run)


# The same of a checkpoint, whose last four calls move the anchor: they write the next closed gate, sync, open the gate, and sync.
CALLS = range(60)
KEPT = [b"\0", b"\0\0", b"\0\0", b"\xa5\0", b"\xa5\0"]
DROPPED = [b"\0", b"\0", b"\0\0", b"\0\0", b"\xa5\0"]


def checkpoint(passes: int, choice: int) -> Run:
    return Run(lines("size 1 1", f"fuse {passes}", "checkpoint", f"crash {choice}"), None, before=lambda _: {})


def moves_at_last(anchors: list[bytes]) -> Callable[[list[Done]], bool]:
    """The first checkpoint that is told has made four calls more than one that leaves the anchor as it was."""
    def holds(done: list[Done]) -> bool:
        told = ["checkpoint 1\n" in it.out for it in done]
        passes = told.index(True)
        left = [it.files[ANCHOR] for it in done]
        return all(told[passes:]) and left[passes - 4:passes + 1] == anchors and set(left[:passes - 4]) == {f.anchor()} and (
            set(left[passes:]) == {f.anchor(1)})
    return holds


# The image's place is 35; what stands between the first batch and that place isn't read. Records before it: a format.
GAP = FIRST + bytes([7] * 20)
EMPTY = [f.region(), f.region({0: 1})]
IMAGE = f.image(f.Header(index=1, heap=1, number=1, place=35, records=1, length=10, next=1), EMPTY)


def gap() -> Files:
    return f.files(log=GAP + f.log(f.batch(f.begin(1), f.commit(1)), f.batch(f.begin(2))), a=IMAGE, anchor=f.anchor(1))


def grown(files: Files) -> bool:
    """The restart adds one batch, with its own record."""
    return files[LOG] == gap()[LOG][:-1] + f.log(f.batch(f.restarted([2])))


CASES = [
    *(worked(*row) for row in WORKED),
    Sweep("a log cut short at each place", lambda count: dump(SHORT[:count]), range(len(SHORT) + 1), least=31),
    Sweep("a restart of a log cut short", refuses_alike, range(len(SHORT)), least=30),
    Sweep("another byte at each place", other_byte, range(len(OTHERS)), least=180),
    *(long(*row) for row in LONG),
    Sweep("a third batch across the end of a part", across, range(48), least=48),
    long_and_bad("a long log without its last gate", 1, 262_150),
    long_and_bad("a long log whose last batch is cut short", 2, 262_137),
    *flushes(),
    *(fails_alone(call, kept, 0) for call, kept, _ in FLUSHES[:4]),
    *(fails_alone(call, dropped, 1) for call, _, dropped in FLUSHES[:4]),
    *(Case(f"the calls of a checkpoint, crash {choice}", [checkpoint(passes, choice) for passes in CALLS], holds=moves_at_last(anchors))
      for choice, anchors in ((0, KEPT), (1, DROPPED))),
    Case("bytes before the image's place", Run(lines("open; show"), lines("rolled back 2; deleted none; records 0"), after=grown),
         files=gap()),
]
