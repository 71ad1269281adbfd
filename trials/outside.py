"""Stores that a program which knows nothing of this repository wrote and damaged, and what it says that a restart makes of them.

Each line of outside.txt is a name, the four files with a stroke between two, and what `open` and `show` tell, with a semicolon
between two lines. The bytes of a file are digits in base 16, and `*N` for so many zeros."""
import re
from pathlib import Path

import formats as f
from shapes import Case, Run, lines

STATUSES = {"bad store": 7, "unformatted": 8}


def content(words: str) -> bytes:
    """The bytes that these words spell."""
    return b"".join(bytes(int(it[1:])) if it.startswith("*") else bytes.fromhex(it) for it in words.split())


def case(line: str) -> Case:
    name, files, told = re.fullmatch(r"(.*?): (.*?) = (.*)", line).groups()  # type: ignore[union-attr]
    status = next((number for begin, number in STATUSES.items() if told.startswith(begin)), 0)
    run = Run("open\nshow\n", lines(told), status, after=None if status == 0 else "same")
    return Case(name, run, f.files(*(content(it) for it in files.split("/"))))


CASES = [case(line) for line in Path(__file__).with_suffix(".txt").read_text().splitlines()]
