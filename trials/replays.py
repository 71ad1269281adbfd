"""Logs that were worked by hand: the program writes them byte for byte, restarts find in them what a replay finds, and `verify` tells
where a call's answer isn't what a replay gives.

In replays.txt each log is its name and, a line each, its records as bytes in base 16, which a program that knows nothing of this
repository spelled."""
from pathlib import Path

import formats as f
from shapes import LOG, Case, Files, Run, lines


def parts() -> dict[str, list[bytes]]:
    """The records by the name of the part of a log that they are."""
    found: dict[str, list[bytes]] = {}
    name = ""
    for line in Path(__file__).with_suffix(".txt").read_text().splitlines():
        if line[0] in "01":
            found[name].append(bytes.fromhex(line))
        else:
            name = line
            found[name] = []
    return found


PARTS = parts()
CHAIN = PARTS["first"] + PARTS["second"] + PARTS["chain"]
UNDONE_CHANGE = PARTS["first"] + PARTS["second"] + PARTS["undone change"]
DAMAGED_WRITER = PARTS["first"] + PARTS["damaged writer"]
ABORT = PARTS["abort"]
AUDITED = [f.audit_begin(), f.audit_clean(len(ABORT))]


def flushed(records: list[bytes]) -> bytes:
    """The log of these records where a batch ends behind the format, each commit, and each audit's end."""
    batches: list[list[bytes]] = [[]]
    for record in records:
        batches[-1].append(record)
        if record[0] in (1, 5, 9, 10):
            batches.append([])
    return f.log(*(f.batch(*it) for it in batches if it))


def written(name: str, size: str, client: str, told: str, records: list[bytes]) -> Case:
    run = Run(lines(size, "client 1", client, "end"), lines(*(f"1 {it}" for it in told.split("; "))),
              after=lambda files: files[LOG] == flushed(records))
    return Case(f"{name}, written", run)


def grown(records: list[bytes], restarted: bytes) -> Files:
    return f.files(log=flushed(records)[:-1] + f.log(f.batch(restarted)))


def found(name: str, records: list[bytes], lists: str, shown: str, restarted: bytes) -> Case:
    """The log as one that a restart finds: it adds its own record, and what a replay gives is what it shows, twice."""
    run = Run(lines("open; show; verify"), lines(lists, shown, "verify ok"),
              after=lambda files: files[LOG] == grown(records, restarted)[LOG])
    again = Run(lines("open; show; verify"), lines(lists, shown, "verify ok"))
    return Case(f"{name}, found", [run, again], files=f.files(log=flushed(records), anchor=f.anchor()))


def word(content: bytes) -> int:
    """The first word of a value."""
    return int.from_bytes(content.ljust(8, b"\0"), "big")


def behind_an_image() -> Case:
    """The undone change stands in the table of an image, which an audit behind it certifies. Transaction 3 reads a damaged word behind
    that audit; so its change before the image is left out, and transaction 4, which read it, too."""
    records = PARTS["undone change"]
    before = PARTS["first"] + PARTS["second"] + records[:4]
    audit = [f.audit_begin(), f.audit_clean(len(before))]
    behind = [*records[4:15], f.audit_begin(), f.audit_fail(len(before) + len(audit) + 11, [3])]
    front = [f.batch(*before[:1]), f.batch(*before[1:])]
    header = f.Header(index=2, heap=3, number=1, place=len(b"".join(front)), records=len(before), length=len(b"".join(before)), next=4)
    regions = [
        f.region({1: 1, 2: 4, 3: 0x19}),
        f.region({1: 1, 2: 5, 3: 0x21}),
        f.region({0: 1}),
        f.region({0: 1, 8: 1, 9: 4, 10: 3, 11: word(b"abc")}),
        f.region({0: 1, 8: 1, 9: 5, 10: 1, 11: word(b"q")}),
    ]
    undo = f.Undo(5, 4, f.undo_restore(1, 3, [word(b"xyz"), 0, 0, 0, 0]))
    image = f.image(header, regions, f.table(f.entry(3, 0, [undo])))
    run = Run(lines("open; show; verify"), lines("rolled back none; deleted 3 4; 4 abc; 5 xyz; records 2; verify ok"))
    files = f.files(log=f.log(*front, f.batch(*audit), f.batch(*behind)), a=image, anchor=f.anchor(1))
    return Case("an undone change, behind an image", run, files=files)


FIRST = "begin; insert 4 abc; commit"
SECOND = "begin; insert 5 xyz; commit; audit"
POKE = "poke 3 11 0100000000000000"
TOLD = "begin 1; insert ok; commit ok; begin 2; insert ok; commit ok; audit clean; poke ok"

CASES = [
    written(
        "a chain", "size 2 3",
        f"{FIRST}; {SECOND}; {POKE}; begin; get 4; insert 6 qq; commit; begin; update 5 y; commit; begin; get 6; commit; audit",
        f"{TOLD}; begin 3; got `bc; insert ok; commit ok; begin 4; update ok; commit ok; begin 5; got qq; commit ok; audit failed 3",
        CHAIN),
    found("a chain", CHAIN, "rolled back none; deleted 3 5", "4 abc; 5 y; records 2", f.restarted([], [3, 5])),
    written(
        "an undone change", "size 2 3",
        f"{FIRST}; {SECOND}; {POKE}; begin; update 5 q; get 4; commit; begin; get 5; commit; audit",
        f"{TOLD}; begin 3; update ok; got `bc; commit ok; begin 4; got q; commit ok; audit failed 3",
        UNDONE_CHANGE),
    found("an undone change", UNDONE_CHANGE, "rolled back none; deleted 3 4", "4 abc; 5 xyz; records 2", f.restarted([], [3, 4])),
    written(
        "a damaged writer", "size 2 3", f"{FIRST}; audit; {POKE}; begin; update 4 zz; commit; audit",
        "begin 1; insert ok; commit ok; audit clean; poke ok; begin 2; update ok; commit ok; audit failed 3",
        DAMAGED_WRITER),
    found("a damaged writer", DAMAGED_WRITER, "rolled back none; deleted 2", "4 abc; records 1", f.restarted([], [2])),
    written(
        "an abort and a removal", "size 1 1",
        "begin; insert 5 abc; commit; begin; delete 5; insert 5 z; abort; begin; get 5; commit; begin; delete 5; commit; audit",
        "begin 1; insert ok; commit ok; begin 2; delete ok; insert ok; abort ok; begin 3; got abc; commit ok; begin 4; delete ok; "
        "commit ok; audit clean",
        ABORT + AUDITED),
    found("an abort and a removal", ABORT + AUDITED, "rolled back none; deleted none", "records 0", f.restarted()),
    behind_an_image(),
    # Word 1 of the index region is the state of the entry that names key 5. The log has an insert that was answered ok.
    Case("a get that damage answers", Run(
        lines("size 1 1", "client 1; begin; insert 5 abc; commit; end", "poke 0 1 1", "client 1; begin; get 5; commit; end", "verify"),
        lines("1 begin 1; 1 insert ok; 1 commit ok", "poke ok", "1 begin 2; 1 get missing; 1 commit ok", "verify differs"))),
]
