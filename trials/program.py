"""The program's edge: its words, streams that fail, stores that it refuses, and what a later run finds in the files."""
from collections.abc import Callable, Sequence
from dataclasses import replace

import formats as f
import inserts
from shapes import LOG, Case, Run, Sweep, lines

USAGE = lines("usage: dali run [--precheck] [--log-limit N] | gen CLIENTS SIZE NUMBER | dump")

FORMATTED = f.files(log=f.log(f.formatted(1, 1)), anchor=f.anchor())

WITH_ONE_RECORD = f.files(log=f.log(f.formatted(1, 1), inserts.one_record()), anchor=f.anchor())

WITH_A_BEGIN = f.files(log=f.log(f.formatted(1, 1), f.batch(f.begin(1))), anchor=f.anchor())

# An audit failed in region 0, so that a restart reads the log twice. At this place stands the last byte of the region's number.
DAMAGED = f.files(log=f.log(f.formatted(1, 1), f.batch(f.audit_begin(), f.audit_fail(1, [0]))), anchor=f.anchor())
REGION_AT = len(DAMAGED[LOG]) - 2

RESTARTED = Run(lines("open"), lines("rolled back none; deleted none"))

UNSTEADY = replace(RESTARTED, out=lines("store unsteady"), status=12, after="same")

TWO_AND_A_LOSER = f.files(log=inserts.two_and_a_loser(), anchor=f.anchor())

ONE_RECORD = Run(
    lines("size 1 1; client 1; begin; insert 5 abc; commit; end; show"),
    lines("1 begin 1; 1 insert ok; 1 commit ok; 5 abc; records 1"))

FOUND = lines("rolled back none; deleted none; 5 abc; records 1")

DUMP = Run("", lines(
    "0 format 1 1",
    "1 begin 1",
    "2 op 1 0 5 look 2492492492492493 0000000000000000 0000000000000000",
    "3 op 1 1 5 put 000000000000ff00 0000000000000000 000000000000ff00",
    "4 op 1 0 5 add 000000000000000e 0000000000000000 000000000000000e",
    "5 done 1 insert 5 insert ok",
    "6 commit 1"), words="dump")

GENERATED = Run("", lines("clients 1; transactions 1; records 1; keys 1000000"), words="gen 1 1 9")

# Runs that are refused: their name, the run, and the files before it, which it leaves as they were.
REFUSED = [
    ("the empty script", Run("", lines("line 1: size or open wanted"), 2), {}),
    ("a value of 41 bytes",
        Run(lines("size 1 1; client 1; begin", f"insert 5 {41 * 'a'}", "commit; end"), lines("line 4: value"), 2), {}),
    ("a script of more than a MiB", Run(1_048_577 * "#", lines("script too long"), 3, reads_of=65_536), {}),
    ("another word", replace(ONE_RECORD, words="now", out=USAGE, status=1), {}),
    ("no words", replace(ONE_RECORD, words="", out=USAGE, status=1), {}),
    ("a size over a database", Run(lines("size 1 1"), lines("formatted"), 9), FORMATTED),
    ("a generated run over a database", replace(GENERATED, out=lines("formatted"), status=9), WITH_ONE_RECORD),
    ("an empty store", Run(lines("open"), lines("unformatted"), 8), {}),
    ("a batch without its bytes", Run(lines("open; show"), lines("bad store log 16"), 7),
        f.files(log=f.formatted(1, 1) + f.OPEN + f.u32(100) + f.CLOSED, anchor=f.anchor())),
    ("a log without its last gate", Run(lines("open"), lines("bad store log 15"), 7),
        f.files(log=f.formatted(1, 1), anchor=f.anchor())),
    ("a read that fails", replace(ONE_RECORD, fail_reads=[2], out=lines("read fault"), status=4), {}),
    ("a store that fails", replace(ONE_RECORD, fail_calls=[0], out=lines("store fault"), status=6), {}),
    ("a last line that can't be written", Run(lines("begin"), "", 2, fail_writes=[0]), {}),
]

# An audit makes four calls of the store, a commit four, a restart two or more: so one of each row's last commands makes the fortieth.
# In a row: what makes it, the script, the status, and how the output begins and ends.
AFTER_FORTY = [
    ("an audit", lines("size 1 1") + 10 * lines("audit"), 6, "", lines("audit clean; store fault")),
    ("a restart", lines("size 1 1") + 20 * lines("restart"), 6, "", lines("deleted none; store fault")),
    ("a commit, which stops the engine",
        lines("size 1 1; client 1") + 11 * lines("begin; commit") + lines("end; show"), 0,
        lines("1 begin 1; 1 commit ok; 1 begin 2"), lines("1 begin stopped store; show stopped store")),
    ("a restart under a fuse that was set anew",
        lines("size 1 1; crash 0; fuse 0; restart; fuse 1000") + 20 * lines("restart"), 6,
        lines("crash 0; fuse 0; restart store stopped; fuse 1000; rolled back none"), lines("deleted none; store fault")),
]


def long_run() -> Run:
    """Two transactions, the records of the first more than 64 KiB, those of both more than a MiB: an insert's have 300 bytes and more,
    a get's 220. So long is the script by the zeros before its numbers."""
    content = 40 * "a"
    inserts = [f"insert {key} {content}" for key in range(200)]
    records = [f"{key} {content}" for key in range(200)]
    script = [
        "size 200 400; client 1; begin", *inserts, "commit; begin", *4000 * ["get 0000000000000000007"],
        "commit; end; crash 0; restart; show",
    ]
    wanted = [
        "1 begin 1", *200 * ["1 insert ok"], "1 commit ok; 1 begin 2", *4000 * [f"1 got {content}"],
        "1 commit ok; crash 0; rolled back none; deleted none", *records, "records 200",
    ]
    return Run(
        lines(*script), lines(*wanted), reads_of=65_536, writes_of=65_536,
        after=lambda files: len(files[LOG]) > 1_048_576)


def block(client: int, keys: Sequence[int]) -> str:
    """A block of a client with a transaction for each key, which inserts it."""
    return lines(f"client {client}", *(f"begin; insert {key} v{key}; commit" for key in keys), "end")


INSERTED = [*range(1000, 1200), *range(2000, 2200)]

BESIDE_AUDITS = "".join([
    lines("size 20 70"), block(1, INSERTED[:200]), block(2, INSERTED[200:]), lines("client 3", *20 * ["audit"], "end; verify; show"),
])


def is_beside_audits(out: str) -> bool:
    """Whether all transactions commit, each audit is clean, and the records are those that were inserted."""
    written = out.splitlines()
    commits = sum(line.endswith(" commit ok") for line in written)
    records = lines("verify ok", *(f"{key} v{key}" for key in INSERTED), "records 400")
    return commits == 400 and written.count("3 audit clean") == 20 and out.endswith(records)


def starts_and_ends(first: str, last: str) -> Callable[[str], bool]:
    """A test of an output: how it begins and ends."""
    return lambda out: out.startswith(first) and out.endswith(last)


def is_cut(out: str) -> bool:
    """Whether these are some first bytes of the lines of one record, and not all."""
    return ONE_RECORD.out.startswith(out) and out != ONE_RECORD.out


CASES: Sequence[Case | Sweep] = [
    *(Case(name, replace(run, after="same"), files) for name, run, files in REFUSED),
    *(Case(f"the fortieth call of the store fails in {name}", Run(script, starts_and_ends(first, last), status, fail_calls=[40]))
        for name, script, status, first, last in AFTER_FORTY),
    Case("a restart leaves the fuse in its place", Run(
        lines("size 1 1; fuse 40; restart") + 11 * lines("audit"),
        starts_and_ends(lines("fuse 40; rolled back none; deleted none; audit clean"), lines("audit stopped store")))),

    Case("one record", replace(ONE_RECORD, after=WITH_ONE_RECORD)),
    Case("the same in pieces of one byte", replace(ONE_RECORD, reads_of=1, writes_of=1, after=WITH_ONE_RECORD)),
    Case("the last line without its line feed", replace(ONE_RECORD, script=ONE_RECORD.script.removesuffix("\n"))),
    Case("a database is made", Run(lines("size 1 1"), after=FORMATTED)),
    Case("a store with an anchor alone", replace(ONE_RECORD, after=WITH_ONE_RECORD), f.files(anchor=f.anchor())),
    Case("a transaction that had begun", Run(
        lines("open; client 1; begin; commit; end; show"),
        lines("rolled back 1; deleted none; 1 begin 2; 1 commit ok; records 0")), WITH_A_BEGIN),
    Case("two committed transactions and one that had begun", Run(
        lines("open; show; client 1; begin; get 5; get 8; commit; end"),
        lines(r"rolled back 3; deleted none; 5 abc; 7 \x00~; records 2; 1 begin 4; 1 got abc; 1 get missing; 1 commit ok")),
        TWO_AND_A_LOSER),
    Case("a generated run", GENERATED),
    Case("a dump", replace(DUMP, after="same"), WITH_ONE_RECORD),
    Case("long transactions survive a restart", long_run()),
    Case("two clients beside one that audits", Run(BESIDE_AUDITS, is_beside_audits)),

    Case("a later run finds what an earlier one logged, and formats nothing", [
        ONE_RECORD,
        Run(lines("open; show"), FOUND),
        Run(lines("size 1 1"), lines("formatted"), 9, after="same"),
    ]),
    Case("a dump behind a restart", [
        Run(lines("size 1 1; client 1; begin; insert 5 abc; commit; end; crash 0; restart"),
            lines("1 begin 1; 1 insert ok; 1 commit ok; crash 0; rolled back none; deleted none"),
            after=lambda files: files[LOG] == f.log(f.formatted(1, 1), inserts.one_record(), f.batch(f.restarted()))),
        replace(DUMP, out=DUMP.out + lines("7 restarted rolled back none deleted none"), after="same"),
    ]),

    Case("a write that fails", replace(ONE_RECORD, fail_writes=[2], out="1 begin 1\n", status=5)),
    Case("a summary that can't be written", replace(GENERATED, fail_writes=[1], out="clien", status=5)),
    Case("a dump that can't be written", replace(DUMP, fail_writes=[1], out="0 for", status=5, after="same"), WITH_ONE_RECORD),

    Case("a restart reads a log with a failed audit twice", RESTARTED, DAMAGED),
    Case("a log that reads otherwise the second time", replace(UNSTEADY, unsteady=(2, REGION_AT)), DAMAGED),
    Case("a log that reads otherwise from the first time on", replace(RESTARTED, unsteady=(0, REGION_AT)), DAMAGED),
    Case("a log that is bad the second time",
        replace(UNSTEADY, out=lines("bad store log 1"), status=7, unsteady=(2, 1)), DAMAGED),
    Case("a copy of a log is read once", Run(
        "", lines("records 0"), words="show", unsteady=(1, REGION_AT), after="same"), DAMAGED),

    Sweep("each read that fails is told",
        lambda read: replace(ONE_RECORD, fail_reads=[read], out=lines("read fault"), status=4, after={}),
        ONE_RECORD, least=8, of="reads"),
    Sweep("each write that fails ends the run there",
        lambda write: replace(ONE_RECORD, fail_writes=[write], out=is_cut, status=5),
        ONE_RECORD, least=11, of="writes"),
    Sweep("each call of the store that fails in a generated run is told",
        lambda call: replace(GENERATED, fail_calls=[call], out=lines("store fault"), status=6),
        GENERATED, least=10),
    Sweep("each call of the store that fails in a dump is told",
        lambda call: replace(DUMP, fail_calls=[call], out=lines("store fault"), status=6, after="same"),
        DUMP, least=2, files=WITH_ONE_RECORD),
]
