"""The grammar of scripts: which are taken, and which line of the others is refused, with what kind of fault.

grammar.txt has a case a line: `ok` or the one line that is wanted, `=` and the script, in which one character stands for each byte
that can't be seen. Its first 846 come from a model that was written apart from this repository, the other 230, whole examples of the
language and each of its rules by itself, from docs/SCRIPT.md alone."""
from pathlib import Path

from shapes import Case, Run

SEEN = {"/": "\n", "^": "\r", "|": "\t", "@": "\0", "$": "\x01", "%": "\x7f", "&": "\xb2", "(": "\xc3", ")": "\xa9", "?": "\xe9"}
"""The bytes that these characters stand for."""

TABLE = [line.partition("=") for line in (Path(__file__).parent / "grammar.txt").read_text(encoding="ascii").splitlines()]


def is_taken(text: str) -> bool:
    """Each command of a script that is taken prints its own lines, and none is a fault of a line."""
    return not text.startswith("line ")


def case(number: int, wanted: str, seen: str) -> Case:
    script = "".join(SEEN.get(character, character) for character in seen).encode("latin-1")
    name = f"{number}: {seen[:60]}"
    if wanted == "ok":
        return Case(name, Run(script, is_taken, None, reads_of=65_536, writes_of=65_536, passes=0))
    return Case(name, Run(script, f"{wanted}\n", 2, after={}))


# A megabyte of calls in one block, whose store fails before the first.
LONG = Case("a script of nearly a MiB", Run(
    "size 1 1\nclient 1\nbegin\n" + 174_700 * "get 1\n" + "commit\nend\n", "store fault\n", 6,
    passes=0, reads_of=65_536, writes_of=65_536))

CASES = [case(number, wanted, script) for number, (wanted, _, script) in enumerate(TABLE, 1)] + [LONG]
