"""What `show` and `status` tell of files, which they only read: eight calls of the store, and the same files afterwards."""
from collections.abc import Iterator

import formats as f
from dumps import FORMAT, INSERTED, RESTARTED, TRANSACTION
from shapes import Case, Done, Files, Run, Sweep, lines

WORDS = ("show", "status")


def told(word: str, out: str, status: int = 0) -> Run:
    return Run("", out, status, words=word, after="same")


def state(sizes: str, records: int, cells: str, entries: str, log: int, image: str, rolled_back: str = "none", deleted: str = "none") -> str:
    """The lines of a status."""
    return lines(f"size {sizes}", f"records {records}", f"cells {cells}", f"entries {entries}", f"log {log} of 67108864", f"image {image}",
                 f"rolled back {rolled_back}", f"deleted {deleted}")


def eight_calls(done: list[Done]) -> bool:
    return all(it.calls == 8 for it in done)


BEGUN = f.log(f.formatted(1, 1), f.batch(f.begin(1)))
# The record of a restart has nine bytes, and eight more for each transaction that it names; that of a begin has nine.
LISTED = 9 + 8

# The name, the files, what `show` prints, and what `status` prints.
STORES: list[tuple[str, Files, str, str]] = [
    ("a formatted log", f.files(log=f.log(f.formatted(2, 3)), anchor=f.anchor()), lines("records 0"), state("2 3", 0, "0 of 21", "0 of 42", 10, "none")),
    ("a transaction that had begun", f.files(log=BEGUN, anchor=f.anchor()), lines("records 0"),
     state("1 1", 0, "0 of 7", "0 of 21", 10 + 9 + LISTED, "none", rolled_back="1")),
    ("one record, and a restart", f.files(log=INSERTED, anchor=f.anchor()), lines("5 abc", "records 1"),
     state("1 1", 1, "1 of 7", "1 of 21", sum(map(len, [FORMAT, *TRANSACTION, RESTARTED])), "none")),
]

# The name, the files, the status, and the last line.
REFUSED: list[tuple[str, Files, int, str]] = [
    ("an empty folder", {}, 8, "unformatted"),
    ("a log of one byte", f.files(log=f.CLOSED), 8, "unformatted"),
    ("a closed gate", f.files(log=f.CLOSED * 2), 8, "unformatted"),
    ("a record of no kind behind the format", f.files(log=f.log(f.formatted(1, 1), f.batch(b"\xff")), anchor=f.anchor()), 7, "bad store log 20"),
    ("a log without an anchor", f.files(log=BEGUN), 7, "bad store anchor 0"),
    ("an image that isn't there", f.files(log=BEGUN, anchor=f.anchor(1)), 7, "bad store a 0"),
]


def cases() -> Iterator[Case | Sweep]:
    for name, files, shown, status in STORES:
        yield Case(f"{name}: show", told("show", shown), files, eight_calls)
        yield Case(f"{name}: status", told("status", status), files, eight_calls)
        yield Case(f"{name}: a script shows the same", Run(lines("open", "show"), lambda out, shown=shown: out.endswith(shown)), files)
    for name, files, status, line in REFUSED:
        for word in WORDS:
            yield Case(f"{name}: {word}", told(word, lines(line), status), files, eight_calls)
    files = f.files(log=BEGUN, anchor=f.anchor())
    # A restart's image stands before its record: it knows two records, which end behind two batches of 15 and 14 bytes.
    yield Case("a status behind a restart", [
        Run(lines("open"), lines("rolled back 1", "deleted none")),
        told("status", state("1 1", 0, "0 of 7", "0 of 21", 10 + 9 + LISTED, "a 2 at 29", rolled_back="1")),
    ], files)
    for word in WORDS:
        yield Sweep(f"each call of the store that fails in {word}",
                    lambda number, word=word: Run("", lines("store fault"), 6, words=word, after="same", fail_calls=[number]),
                    Run("", None, words=word), 8, files=files)
        yield Case(f"standard output that fails in {word}", Run("", "", 5, words=word, after="same", fail_writes=[0]), files)


CASES = list(cases())
