"""Records as bytes: what `dump` makes of them, byte strings at which none begins, and records that are cut short.

Each line of records.txt is bytes in base 16, and the line of `dump` behind the record's number, or `refused` where none begins there.
The bytes were made by a model that knows nothing of this repository."""
from pathlib import Path

import formats as f
from shapes import Case, Files, Run, Sweep, lines

ROWS = [line.split(" = ") for line in Path(__file__).with_suffix(".txt").read_text().splitlines()]
SPELLED = [(bytes.fromhex(digits), line) for digits, line in ROWS if line != "refused"]
REFUSED = [bytes.fromhex(digits) for digits, line in ROWS if line == "refused"]

# The first batch ends at 15, and the body of the second one begins at 20.
BODY = 20


def files(*body: bytes) -> Files:
    return f.files(log=f.log(f.formatted(1, 1), f.batch(*body)), anchor=f.anchor())


def dumped(*records: str) -> str:
    return lines(*(f"{number} {record}" for number, record in enumerate(["format 1 1", *records])))


def refused(at: int) -> Run:
    return Run("", lines(f"bad store log {at}"), 7, words="dump", after="same")


# The first record of each row of the table of records, each operation, outcome, undo, call and answer, by their first bytes.
KINDS = [next(it for it, line in SPELLED if line.startswith(begin)) for begin in (
    "format", "begin", "op 1 0 6 look", "op 1 1 5 put", "op 1 0 5 add", "op 3 4 21 read", "op 1 1 5 change", "done 1 insert",
    "done 7 delete", "commit", "ended", "solo", "audit begin", "audit clean", "audit fail", "restarted", "back 1")]
CUTS = [(record, count) for record in KINDS for count in range(1, len(record))]


def each_refused(number: int) -> Run:
    return Run("", lines(f"bad store log {BODY}"), 7, words="dump", before=lambda _: files(REFUSED[number]))


def each_cut(number: int) -> Run:
    """The batch ends within its second record."""
    record, count = CUTS[number]
    begun = f.begin(7)
    return Run("", lines(f"bad store log {BODY + len(begun)}"), 7, words="dump", before=lambda _: files(begun, record[:count]))


CASES = [
    Case("each record in one line", Run("", dumped(*(line for _, line in SPELLED)), words="dump", after="same"),
         files=files(*(record for record, _ in SPELLED))),
    Case("a record behind all others is refused", refused(BODY + sum(len(it) for it, _ in SPELLED)),
         files=files(*(it for it, _ in SPELLED), REFUSED[0])),
    Sweep("bytes at which no record begins", each_refused, range(len(REFUSED)), least=200),
    Sweep("a record that is cut short", each_cut, range(len(CUTS)), least=600),
]
