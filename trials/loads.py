"""What `load` reads, stores and tells."""
from collections.abc import Iterator

import formats as f
from dumps import INSERTED
from shapes import LOG, Case, Done, Run, Sweep, lines

# The name, standard input, the first wrong line, and its fault.
REFUSED: list[tuple[str, str, int, str]] = [
    ("one word", "unformatted\n", 1, "arguments"),
    ("three words", "1 a\n2 b c\n", 2, "arguments"),
    ("a last line that was cut", "1 a\n2", 2, "arguments"),
    ("a key that is no number", "x a\n", 1, "number"),
    ("a key of 2^64", "18446744073709551616 a\n", 1, "number"),
    ("a key twice", "5 a\n5 b\n", 2, "number"),
    ("a key below the one before it", "5 a\n\n# more\n4 b\n", 4, "number"),
    ("a value with half a byte", "1 a\\x4\n", 1, "value"),
    ("a value of 41 bytes", f"1 {'a' * 41}\n", 1, "value"),
    ("a wrong key is told before a wrong value", "1 a\n1 \\\n", 2, "number"),
    ("a number of rows that is too small", "1 a\n2 b\nrecords 1\n", 3, "number"),
    ("a number of rows that is too great", "1 a\nrecords 2\n", 2, "number"),
    ("a number of rows that is none", "records x\n", 1, "number"),
    ("a row behind their number", "1 a\nrecords 1\n2 b\n", 3, "place"),
    ("their number twice", "records 0\nrecords 0\n", 2, "place"),
    ("one word behind their number", "records 0\nx\n", 2, "place"),
]

# The name, standard input, and what `show` prints of it.
TAKEN: list[tuple[str, str, str]] = [
    ("nothing", "", lines("records 0")),
    ("no rows", "records 0\n", lines("records 0")),
    ("three rows", "5 abc\n7 hello\\x20world\n9 z\nrecords 3\n", lines("5 abc", "7 hello\\x20world", "9 z", "records 3")),
    ("without their number", "5 abc\n7 z\n", lines("5 abc", "7 z", "records 2")),
    ("without the last line feed", "5 abc", lines("5 abc", "records 1")),
    ("blanks, comments and empty lines", "# rows\n\n \t5\tabc \r\n#6 z\n7  z\n\nrecords 2\n\n# end\n", lines("5 abc", "7 z", "records 2")),
    ("other spellings", "007 \\x41\\x5c\n8 \\XY\n".replace("\\XY", "\\xfF"), lines("7 A\\x5c", "8 \\xff", "records 2")),
    ("the least and the greatest key", "0 a\n18446744073709551615 b\n", lines("0 a", "18446744073709551615 b", "records 2")),
    ("a value of forty bytes", f"1 {'a' * 40}\n", lines(f"1 {'a' * 40}", "records 1")),
    ("as many as a heap region has cells", "".join(f"{key} v\n" for key in range(7)), lines(*(f"{key} v" for key in range(7)), "records 7")),
]

ROWS = "".join(f"{key} v{key}\n" for key in range(17)) + "records 17\n"


def load(rows: str, out: str, status: int = 0, sizes: str = "1 1", **more: object) -> Run:
    return Run(rows, out, status, words=f"load {sizes}", **more)


def is_refused(number: int, done: list[Done]) -> bool:
    return (done[0].status, done[0].out) in ((6, "store fault\n"), (15, "not loaded\n"))


def cases() -> Iterator[Case | Sweep]:
    for name, rows, line, kind in REFUSED:
        yield Case(f"refused: {name}", load(rows, lines(f"line {line}: {kind}"), 2, after={}))
    for name, rows, shown in TAKEN:
        count = shown.splitlines()[-1]
        yield Case(f"taken: {name}", [
            load(rows, lines(count)),
            Run("", shown, words="show", after="same"),
            Run(lines("open", "verify", "show"), lambda out, shown=shown: out.endswith("verify ok\n" + shown)),
        ])
    yield Case("what show prints is loaded into a larger database", [
        load(ROWS, lines("records 17"), sizes="1 3"), Run("", ROWS, words="show"),
        Run(ROWS, lines("records 17"), words="load 4 9", before=lambda files: {}), Run("", ROWS, words="show", after="same"),
    ])
    yield Case("one row more than the heap has cells", load("".join(f"{key} v\n" for key in range(8)), lines("too small"), 14, after={}))
    yield Case("one row more than the index has entries", load("".join(f"{key} v\n" for key in range(22)), lines("too small"), 14, sizes="1 4", after={}))
    yield Case("as many as the index has entries", load("".join(f"{key} v\n" for key in range(21)), lines("records 21"), sizes="1 3"))
    yield Case("as many as the index has entries, with one home", load("".join(f"{2 * key} v\n" for key in range(42)), lines("records 42"), sizes="2 6"))
    yield Case("no room, where there is a database", load("".join(f"{key} v\n" for key in range(8)), lines("too small"), 14, after="same"), f.files(log=INSERTED, anchor=f.anchor()))
    yield Case("there is a database", load(ROWS, lines("formatted"), 9, sizes="1 3", after=lambda files: files[LOG] == INSERTED), f.files(log=INSERTED, anchor=f.anchor()))
    yield Case("standard output that fails", load(ROWS, "", 5, sizes="1 3", fail_writes=[0]))
    yield Case("standard output that fails behind the first bytes", load(ROWS, "recor", 5, sizes="1 3", fail_writes=[1]))
    whole = load(ROWS, lines("records 17"), sizes="1 3")
    yield Sweep("each read that fails", lambda number: load(ROWS, lines("read fault"), 4, sizes="1 3", fail_reads=[number], after={}), whole, 16, "reads")
    yield Sweep("each call of the store that fails", lambda number: load(ROWS, None, None, sizes="1 3", fail_calls=[number]), whole, 20, holds=is_refused)
    yield Sweep("a store that fails from a call on", lambda number: load(ROWS, None, None, sizes="1 3", passes=number), whole, 20, holds=is_refused)


CASES = list(cases())
