"""What a trial is made of.

A `Case` is a name, the files that lie there before, and runs of the program, each over the files that the one before left.
A `Sweep` is a case for each of many numbers, such as each call of the store that can fail.
Faults and the crash at the end are those that crates/dali_trial makes; docs/SCRIPT.md and docs/FORMATS.md say what is wanted."""
from collections.abc import Callable, Sequence
from dataclasses import dataclass, field
from typing import Literal

Files = dict[str, bytes]
"""Bytes by the name of a file. A file that isn't named is absent."""

Verdict = bool | str
"""What a test of an outcome says: True or nothing where all is well, False or what is wrong else."""

LOG, A, B, ANCHOR = NAMES = ("dali.log", "dali.a", "dali.b", "dali.anchor")


def lines(*texts: str) -> str:
    """The lines of these texts, each with its line feed. In a text a semicolon and a blank stand between two lines."""
    return "".join(f"{line}\n" for text in texts for line in text.split("; "))


@dataclass(frozen=True)
class Done:
    """How a run ended."""
    out: str
    status: int
    files: Files
    reads: int
    writes: int
    calls: int


@dataclass(frozen=True)
class Run:
    """One run of the program, and what is wanted of it."""
    script: str | bytes = ""
    """Standard input."""
    out: str | Callable[[str], Verdict] | None = ""
    """Standard output, or a test of it. None: any."""
    status: int | None = 0
    """The status that the run ends with. None: any."""
    words: str | Sequence[str] = "run"
    """The program's words, with blanks between them; a list where one is empty or has a blank."""
    after: Files | Literal["same"] | Callable[[Files], Verdict] | None = None
    """The files afterwards: all of them, or 'same' as before, or a test of them. None: any."""
    before: Callable[[Files], Files] | None = None
    """Changes the files before the run."""
    reads_of: int = 7
    """How many bytes a read gives at most."""
    writes_of: int = 5
    """How many bytes a write takes at most."""
    fail_reads: Sequence[int] = ()
    """The reads of the script that fail, by their numbers from 0."""
    fail_writes: Sequence[int] = ()
    """The writes of standard output that fail, by their numbers from 0."""
    fail_calls: Sequence[int] = ()
    """The calls of the store that fail, by their numbers from 0."""
    passes: int | None = None
    """How many calls of the store pass before each one fails."""
    crash: int | None = None
    """A crash at the end: 0 keeps what was written and not synced, 1 drops it, every other choice mixes it."""
    unsteady: tuple[int, int] | None = None
    """A byte of the log reads as one more than it is: from the read of the log with this number on, from 0, at this place."""


@dataclass(frozen=True)
class Case:
    """Runs, one after another."""
    name: str
    runs: Run | Sequence[Run]
    files: Files = field(default_factory=dict)
    holds: Callable[[list[Done]], Verdict] = lambda done: True
    """What must hold of all runs together, beside what each wants."""


@dataclass(frozen=True)
class Sweep:
    """A case at each of many numbers."""
    name: str
    runs: Callable[[int], Run | Sequence[Run]]
    """The runs at a number."""
    numbers: Run | Sequence[int]
    """The numbers. A run is made first, over the same files; the numbers are then those below the count of its calls."""
    least: int
    """The sweep fails where it has fewer numbers than these."""
    of: Literal["reads", "writes", "calls"] = "calls"
    """Which calls of the first run are counted."""
    files: Files = field(default_factory=dict)
    made: Run | Sequence[Run] = ()
    """Runs that are made once, over `files`: all else begins with the files that they leave."""
    holds: Callable[[int, list[Done]], Verdict] = lambda number, done: True
    """What must hold at a number of all its runs together, beside what each wants."""
