"""Calls on records: each answer, the words and log records that calls leave, refused and stopped ones, and clients side by side."""
from collections.abc import Callable, Sequence
from dataclasses import replace

import formats as f
from shapes import A, B, Case, Done, Files, Run, lines
from worked import DEAD, FREE, LIVE, Database, Log, words_of

FOUND = lines("rolled back none; deleted none")


def block(client: int, *commands: str) -> str:
    """A client's block."""
    return f"client {client}\n" + "".join(f"{it}\n" for it in commands) + "end\n"


def said(client: int, *answers: str) -> str:
    """A client's lines."""
    return "".join(f"{client} {it}\n" for it in answers)


# Each answer, over a new database.

ANSWERS = [
    *((f"insert {key} a", "insert ok") for key in range(1, 8)),
    # seven cells are all that a heap region has
    ("insert 8 a", "insert full heap"), ("insert 1 bb", "insert exists"), ("update 1 bb", "update ok"), ("get 1", "got bb"),
    ("update 8 bb", "update missing"), ("get 8", "get missing"), ("delete 8", "delete missing"), ("delete 1", "delete ok"),
    ("get 1", "get missing"), ("update 1 c", "update missing"), ("delete 1", "delete missing"),
    # a cell that was removed stays reserved until its transaction has ended
    ("insert 9 a", "insert full heap"), ("commit", "commit ok"),
    # its two removals took the numbers 2 and 3
    ("begin", "begin 4"), ("insert 9 a", "insert ok"), ("insert 1 a", "insert full heap"), ("commit", "commit ok"),
]
SEVEN = "".join(f"{key} a\n" for key in (2, 3, 4, 5, 6, 7, 9)) + "records 7\n"


def each_answer() -> Case:
    commands, answers = zip(*ANSWERS)
    script = "size 1 1\n" + block(1, "begin", *commands) + "show\nverify\n"
    return Case("each answer of the calls", Run(script, said(1, "begin 1", *answers) + SEVEN + "verify ok\n"))


# What a call leaves behind a log and an image that are handed in: checkpoint 1, and 1 as the next number.

def stored(database: Database, next_transaction: int = 1) -> Files:
    header = f.Header(database.index, database.heap, 1, 15, 1, 10, next_transaction)
    return f.files(f.log(f.formatted(database.index, database.heap)), f.image(header, database.regions()), anchor=f.anchor(1))


def over(name: str, database: Database, calls: Sequence[tuple[str, str]], leaves: Callable[[list[list[int]]], bool]) -> Case:
    """Calls of transaction 1, with their answers. A checkpoint then shows whether the words are what they leave."""
    commands, answers = zip(*calls)
    script = "open\n" + block(1, "begin", *commands, "commit") + "checkpoint\n"
    told = FOUND + said(1, "begin 1", *answers, "commit ok") + "checkpoint 2\n"

    def after(files: Files) -> bool:
        return leaves([words_of(files[B], region) for region in range(database.index + database.heap)])
    return Case(name, Run(script, told, after=after), stored(database))


def odd_record(place: int, cell: Sequence[int]) -> Database:
    """An entry of key 1 that names this place, and cell 1 of region 1 with this state, key and length."""
    database = Database(1, 1)
    database.words[0][1:4] = [LIVE, 1, place]
    database.words[1][8:11] = cell
    return database


ODD = [
    ("a place in the index region", 3, (LIVE, 1, 1)), ("a place behind all regions", 17, (LIVE, 1, 1)),
    ("cell 0", 8, (LIVE, 1, 1)), ("a free cell", 9, (FREE, 1, 1)), ("a dead cell", 9, (DEAD, 1, 1)),
    ("another key's cell", 9, (LIVE, 2, 1)), ("a cell of length 0", 9, (LIVE, 1, 0)), ("a cell of length 41", 9, (LIVE, 1, 41)),
]


def odd(call: str, name: str, place: int, cell: Sequence[int]) -> Case:
    """The place is told, and no word changes. A dead cell is freed where the database is opened."""
    state, *others = cell
    left = odd_record(place, [FREE if state == DEAD else state, *others])
    name_of_call = call.split()[0]
    answer = f"{name_of_call} odd {place}"
    return over(f"{name_of_call} over {name}", odd_record(place, cell), [(call, answer)], lambda words: words == left.words)


def full_index(database: Database, region: int) -> None:
    """Fills an index region with entries of other keys."""
    for entry in range(21):
        database.words[region][3 * entry + 1:3 * entry + 4] = [LIVE, 100 + entry, 9]


def full_heap(database: Database, region: int) -> None:
    """Fills a heap region with records of other keys."""
    for cell in range(1, 8):
        database.words[region][8 * cell:8 * cell + 3] = [LIVE, 100 + cell, 1]


def with_full(index: int, heap: int, *regions: int) -> Database:
    """A database of which these regions are full."""
    database = Database(index, heap)
    for region in regions:
        (full_index if region < index else full_heap)(database, region)
    return database


def put_goes_to(place: int, *full: int) -> Case:
    """An insert of transaction 1 where these of the heap regions 1, 2 and 3 are full. It begins with region 2."""
    name = f"a put where {' and '.join(map(str, full)) or 'no region'} of three is full"
    return over(name, with_full(1, 3, *full), [("insert 1 a", "insert ok")], lambda words: words[0][1:4] == [LIVE, 1, place])


def walk_over_full() -> Case:
    """Key 1 has its home in region 1, which is full: its entry goes to region 0, and names cell 1 of region 2."""
    def leaves(words: list[list[int]]) -> bool:
        return words[0][1:4] == [LIVE, 1, 17] and words[1][0] == 1 and words[2][8:11] == [LIVE, 1, 1]
    calls = [("insert 1 a", "insert ok"), ("get 1", "got a"), ("insert 1 b", "insert exists")]
    return over("a walk over a full index region", with_full(2, 1, 1), calls, leaves)


NO_ROOM = [
    # the put is taken back, and each overflow flag is raised
    over("an insert where the index region is full", with_full(1, 1, 0), [("insert 1 a", "insert full index")],
         lambda words: (words[0][0], words[1][8]) == (1, FREE)),
    over("an insert where both index regions are full", with_full(2, 1, 0, 1), [("insert 1 a", "insert full index")],
         lambda words: (words[0][0], words[1][0], words[2][8]) == (1, 1, FREE)),
    over("an insert where all heap regions are full", with_full(1, 3, 1, 2, 3), [("insert 1 a", "insert full heap")],
         lambda words: words[0][1] == FREE),
    put_goes_to(17), put_goes_to(25, 2), put_goes_to(9, 2, 3), put_goes_to(17, 1, 3),
    walk_over_full(),
]


# The log that calls leave, record by record, flushed by an audit.

def logs(name: str, script: str, out: str, database: Database, *records: bytes, words: str = "run") -> Case:
    """These records behind the format, and those of the audit."""
    log = Log(database.index, database.heap)
    log.flush(*records, f.audit_begin(), f.audit_clean(1 + len(records)))
    return Case(name, Run(f"size {database.index} {database.heap}\n{script}audit\n", f"{out}audit clean\n", words=words,
                          after=f.files(log.file(), anchor=f.anchor())))


def aborted() -> Case:
    """An abort takes an insert back, the last operation first."""
    database = Database(1, 1)
    records = [f.begin(1), *database.insert(1, 1, b"a", 1), f.back(1, database.free_entry(1, 0, 0)),
               f.back(1, database.free_cell(1, 1, 1)), f.ended(1)]
    out = said(1, "begin 1", "insert ok", "abort ok")
    return logs("an abort takes all back", block(1, "begin", "insert 1 a", "abort"), out, database, *records)


LIMIT = 4096


def length(records: Sequence[bytes]) -> int:
    return sum(map(len, records))


def refused() -> Case:
    """The log has room for an insert's look and put, and not for its entry. The put is taken back, which may go further; nothing
    else is logged of the call, and the transaction can be taken back."""
    database, value = Database(1, 1), b"a" * 40
    get = [f.operation(1, database.look(9, 0)), f.done(1, f.get(9), f.MISSING)]
    part = [f.operation(1, database.look(1, 0)), f.operation(1, database.put(1, 1, value))]
    gets = (LIMIT - 10 - length([f.begin(1), *part])) // length(get)
    records = [f.begin(1), *get * gets, *part]
    end = 10 + length(records)
    assert end <= LIMIT < end + length([f.operation(1, database.add(1, 0, 9))])
    records += [f.back(1, database.free_cell(1, 1, 1)), f.ended(1)]
    script = block(1, "begin", *["get 9"] * gets, f"insert 1 {value.decode()}")
    out = said(1, "begin 1", *["get missing"] * gets, f"insert log full {end} {LIMIT}", "aborted")
    return logs("a call that is refused leaves nothing", script, out, database, *records, words=f"run --log-limit {LIMIT}")


def side_by_side() -> Case:
    """The blocks of two inserts of one round stand beside each other in the log, and a restart finds both records."""
    script = "size 1 1\n" + block(1, "begin", "insert 4 a", "commit") + block(2, "begin", "insert 5 b", "commit") + "verify\n"
    out = said(1, "begin 1", "insert ok", "commit ok") + said(2, "begin 2", "insert ok", "commit ok") + "verify ok\n"

    def mixed(dump: str) -> bool:
        owners = [line.split()[2] for line in dump.splitlines() if line.split()[1] == "op"]
        return owners.count("1") == owners.count("2") == 3 and owners not in (sorted(owners), sorted(owners, reverse=True))
    runs = [Run(script, out), Run(words="dump", out=mixed), Run("open\nshow\n", FOUND + lines("4 a; 5 b; records 2"))]
    return Case("two inserts side by side", runs)


def dead_in_put() -> Case:
    """A client dies in a put, which isn't logged; another one that meets its latch ends its transaction, and puts there."""
    database = Database(1, 1)
    records = [f.begin(1), f.operation(1, database.look(4, 0)), f.begin(2), f.operation(2, database.look(5, 0)), f.ended(1),
               f.operation(2, database.put(5, 1, b"b")), f.operation(2, database.add(5, 0, 9)), f.done(2, f.insert(5, b"b"), f.OK)]
    script = block(1, "begin", "die 2", "insert 4 a") + "next\n" + block(2, "begin", "insert 5 b", "die 1", "get 9")
    out = said(1, "begin 1", "died") + said(2, "begin 2", "insert ok", "died")
    return logs("a client that dies in a put", script, out, database, *records)


LOGGED = [aborted(), refused(), dead_in_put()]


# What meets a call within it, sooner or later: runs in which another client takes more and more turns before. Each leaves what it
# may, and in one of them the other client comes between two operations.

NOTHING = "poke 0 63 1"
"""It takes a turn, and changes a word that no call reads."""


def meets(name: str, runs: Callable[[int], list[Run]], comes_between: Callable[[Done], bool]) -> Case:
    both = [runs(turns) for turns in range(16)]
    each = [replace(run, before=lambda _: {}) if number == 0 else run for row in both for number, run in enumerate(row)]
    return Case(name, each, holds=lambda done: any(comes_between(it) for it in done[::len(both[0])]))


def says_one_of(*allowed: str) -> Callable[[str], bool]:
    """Whether one of these lines stands in the output."""
    return lambda out: any(f"{it}\n" in out for it in allowed)


def stopped_amid(turns: int) -> list[Run]:
    """Client 2 damages a region, and its audit stops the engine; the insert that is under way stays half done, and is rolled back
    by the next run."""
    script = "size 1 1\n" + block(1, "begin", *["get 9"] * turns, "insert 1 a") + block(2, "poke 1 63 1", "audit")
    return [Run(script, says_one_of("2 audit failed 1")),
            Run("open\nshow\n", lines("rolled back 1; deleted none; records 0"))]


def entry_changed(word: int, mask: int) -> Callable[[int], list[Run]]:
    """Client 2 changes the entry of key 1 while client 1 deletes its record. Where it does so behind the kill of the cell, that is
    taken back, and the place is told as odd. A checkpoint then fails, and its image shows the cell."""
    def runs(turns: int) -> list[Run]:
        changes = block(2, *[NOTHING] * turns, f"poke 0 {word} {mask:x}")
        script = ("size 1 1\n" + block(1, "begin", "insert 1 a", "commit") + "next\n"
                  + block(1, "begin", "delete 1", "commit") + changes + "checkpoint\n")
        return [Run(script, says_one_of("1 delete ok", "1 delete missing", "1 delete odd 9"))]
    return runs


def cell_lives(done: Done) -> bool:
    return "1 delete odd 9\n" in done.out and words_of(done.files[A], 1)[8:10] == [LIVE, 1]


def freed_later(turns: int) -> list[Run]:
    """Client 1 removes its record and commits beside an insert of client 2. The removal is freed before or behind it; a restart
    finds the other record alone."""
    script = ("size 1 1\n" + block(1, "begin", "insert 1 a", "delete 1", "commit")
              + block(2, *[NOTHING, NOTHING] * turns, "begin", "insert 2 b", "commit") + "checkpoint\nshow\nverify\n")
    told = lines("2 b; records 1")
    return [Run(script, lambda out: out.endswith(f"checkpoint 1\n{told}verify ok\n")), Run("open\nshow\n", FOUND + told)]


def second_of_both(done: Done) -> bool:
    """The first entry and cell are free, and the second ones live."""
    index, heap = words_of(done.files[A], 0), words_of(done.files[A], 1)
    return (index[1], index[4], heap[8], heap[16]) == (FREE, LIVE, FREE, LIVE)


def older_waits() -> Case:
    """Both read key 6. The younger one has inserted key 1, for which the older one waits, and gets its value."""
    script = ("size 1 1\n" + block(1, "begin", "get 6", "get 6", "get 6", "get 6", "get 1", "commit")
              + block(2, "begin", "get 6", "insert 1 a", "get 6", "get 6", "commit"))
    out = (said(1, "begin 1", *["get missing"] * 4, "got a", "commit ok")
           + said(2, "begin 2", "get missing", "insert ok", "get missing", "get missing", "commit ok"))
    return Case("an older one waits for a younger one", Run(script, out))


def younger_is_busy() -> Case:
    """The younger one wants to write key 6, which the older one has read: it is taken back, and tried again behind it."""
    script = ("size 1 1\n" + block(1, "begin", "get 6", "get 9", "insert 1 a", "commit")
              + block(2, "begin", "get 9", "get 9", "insert 6 b", "get 1", "commit"))
    out = (said(1, "begin 1", "get missing", "get missing", "insert ok", "commit ok")
           + said(2, "begin 2", "get missing", "get missing", "aborted", "begin 3", "get missing", "get missing", "insert ok", "got a",
                  "commit ok"))
    return Case("a younger one is taken back", Run(script, out))


# A damaged region, with the precheck and without. The codeword of a heap region with one record is the exclusive-or of the 1 in
# word 0, of state 1, key 4 and length 3, and of the value; that of a formatted index region is 0.

def damaged(precheck: bool) -> Case:
    script = ("size 1 1\n" + block(1, "begin", "insert 4 abc", "commit") + "poke 1 11 100000000000000\n"
              + block(1, "begin", "get 4", "insert 5 d", "abort"))
    words = "6162630000000007 6062630000000007"
    refused = ["get damaged 1 " + words, "insert damaged 1 " + words]
    out = (said(1, "begin 1", "insert ok", "commit ok") + "poke ok\n"
           + said(1, "begin 2", *(refused if precheck else ["got `bc", "insert ok"]), "abort ok"))
    name = f"a damaged heap region {'with' if precheck else 'without'} the precheck"
    return Case(name, Run(script, out, words="run --precheck" if precheck else "run"))


def damaged_behind() -> Case:
    """What takes back doesn't look at the codeword: an insert before the damage is taken back, as is that of a dead client."""
    script = "size 1 1\n" + block(1, "begin", "insert 4 abc", "die 1", "get 9") + "poke 1 11 100000000000000\ncleanup\nshow\n"
    out = said(1, "begin 1", "insert ok", "died") + lines("poke ok; cleaned 1; records 0")
    return Case("what takes back over damage", Run(script, out, words="run --precheck"))


def damaged_index() -> Case:
    script = "size 1 1\npoke 0 63 4\n" + block(1, "begin", "insert 4 a", "commit")
    refused = f"insert damaged 0 {0:016x} {4:016x}"
    return Case("a damaged index region with the precheck",
                Run(script, "poke ok\n" + said(1, "begin 1", refused, "commit ok"), words="run --precheck"))


CASES = [
    each_answer(),
    *(odd(call, *row) for call in ("get 1", "update 1 v", "delete 1") for row in ODD),
    *NO_ROOM,
    *LOGGED,
    meets("an engine that stops amid a call", stopped_amid, lambda done: "1 insert stopped damage 1\n" in done.out),
    meets("an entry that becomes free amid a delete", entry_changed(1, 1), cell_lives),
    meets("an entry that dies amid a delete", entry_changed(1, 3), cell_lives),
    meets("an entry of another key amid a delete", entry_changed(2, 3), cell_lives),
    meets("a removal that is freed behind another's insert", freed_later, second_of_both),
    side_by_side(), older_waits(), younger_is_busy(),
    damaged(True), damaged(False), damaged_behind(), damaged_index(),
]
