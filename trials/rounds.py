"""Rounds of one and of several clients, from their commands to their lines.

Blocks are those of clients 1, 2 and so on, with ` | ` between them and `-` for a client that has none; between two commands, and
between two lines, stands ` / `. `9 * TEXT` stands for nine of them. A `poke 9 0 1` is out of range: it lets a turn pass.
Clients go on by turns, each with one step; so what is said beside others follows from how many steps each call takes."""
from collections.abc import Sequence
from dataclasses import dataclass

from shapes import Case, Run, Sweep


def spelled(text: str) -> list[str]:
    """What stands between the marks, each as often as it says."""
    found: list[str] = []
    for part in text.split(" / "):
        times, star, told = part.strip().partition(" * ")
        found += int(times) * [told] if star else [part.strip()]
    return found


def script(blocks: str) -> str:
    """The blocks of a round, as a script has them."""
    parts: list[str] = []
    for client, block in enumerate(blocks.split(" | "), 1):
        if block.strip() != "-":
            parts += [f"client {client}", *spelled(block), "end"]
    return "".join(f"{part}\n" for part in parts)


def said(text: str) -> str:
    """The lines that are wanted."""
    return "".join(f"{line}\n" for line in spelled(text))


@dataclass(frozen=True)
class Rounds:
    """Rounds over a new database."""
    name: str
    sizes: tuple[int, int]
    """How many index and heap regions it has."""
    rounds: Sequence[tuple[str, str]]
    """The blocks of each round, and what its clients say."""
    words: str = "run"

    def case(self) -> Case:
        index, heap = self.sizes
        told = "next\n".join(script(blocks) for blocks, _ in self.rounds)
        wanted = "".join(said(lines) for _, lines in self.rounds)
        return Case(self.name, Run(f"size {index} {heap}\n{told}", wanted, words=self.words, reads_of=65_536, writes_of=65_536))


# One client alone.
ONE_CLIENT = [
    Rounds("the block ends in the transaction", (1, 1), rounds=[
        ("begin / insert 5 abc / commit",
         "1 begin 1 / 1 insert ok / 1 commit ok"),
        ("begin / delete 5 / insert 5 z / abort / begin / get 5 / commit",
         "1 begin 2 / 1 delete ok / 1 insert ok / 1 abort ok / 1 begin 3 / 1 got abc / 1 commit ok"),
        ("begin / update 5 q / get 5 / insert 5 z",
         "1 begin 4 / 1 update ok / 1 got q / 1 insert exists / 1 aborted"),
        ("begin / get 5 / update 6 q / delete 6 / commit",
         "1 begin 5 / 1 got abc / 1 update missing / 1 delete missing / 1 commit ok"),
    ]),
    Rounds("a dead cell stays reserved until its transaction has ended; two solos take the numbers 2 and 3", (1, 1), rounds=[
        ("begin / insert 1 a / insert 2 a / insert 3 a / insert 4 a / insert 5 a / insert 6 a / insert 7 a / insert 8 a / "
         "delete 1 / insert 8 a / commit / begin / insert 8 a / commit",
         "1 begin 1 / 7 * 1 insert ok / 1 insert full heap / 1 delete ok / 1 insert full heap / 1 commit ok / 1 begin 4 / "
         "1 insert ok / 1 commit ok"),
    ]),
    Rounds("a chain of two and a survivor, before its restart", (2, 3), rounds=[
        ("begin / insert 4 abc / commit / begin / insert 5 xyz / commit / checkpoint / poke 3 11 0100000000000000 / "
         "begin / get 4 / insert 6 qq / commit / begin / update 5 y / commit / begin / get 6 / commit / audit",
         "1 begin 1 / 1 insert ok / 1 commit ok / 1 begin 2 / 1 insert ok / 1 commit ok / 1 checkpoint 1 / 1 poke ok / "
         "1 begin 3 / 1 got `bc / 1 insert ok / 1 commit ok / 1 begin 4 / 1 update ok / 1 commit ok / 1 begin 5 / "
         "1 got qq / 1 commit ok / 1 audit failed 3"),
    ]),
]

# Clients that want the same keys.
CONFLICTS = [
    Rounds("the older one waits for the younger one", (1, 1), rounds=[
        ("begin / get 9 / insert 5 a / commit | begin / insert 5 b / commit",
         "1 begin 1 / 1 get missing / 1 insert exists / 1 commit ok / 2 begin 2 / 2 insert ok / 2 commit ok"),
    ]),
    Rounds("the younger one gives way", (1, 1), rounds=[
        ("begin / insert 5 a / commit | begin / insert 5 b / commit",
         "1 begin 1 / 1 insert ok / 1 commit ok / 2 begin 2 / 2 aborted / 2 begin 3 / 2 insert exists / 2 commit ok"),
        ("- | - | begin / get 5",
         "3 begin 4 / 3 got a / 3 aborted"),
    ]),
    Rounds("two have it shared, and both want it alone", (1, 1), rounds=[
        ("begin / get 5 / insert 5 a / commit | begin / get 5 / insert 5 b / commit",
         "1 begin 1 / 1 get missing / 1 insert ok / 1 commit ok / 2 begin 2 / 2 get missing / 2 aborted / 2 begin 3 / "
         "2 got a / 2 insert exists / 2 commit ok"),
    ]),
    Rounds("a get doesn't wait for a get", (1, 1), rounds=[
        ("begin / get 5 / commit | begin / get 5 / commit",
         "1 begin 1 / 1 get missing / 1 commit ok / 2 begin 2 / 2 get missing / 2 commit ok"),
    ]),
    Rounds("in a new try the counting of operations begins again: the insert's last one is the fourth", (1, 1), rounds=[
        ("begin / insert 5 a / abort | begin / die 5 / get 7 / insert 5 b / commit",
         "1 begin 1 / 1 insert ok / 1 abort ok / 2 begin 2 / 2 get missing / 2 aborted / 2 begin 3 / 2 get missing / "
         "2 insert ok / 2 commit ok"),
    ]),
    Rounds("the second and the third one give way to the first one, and then the third one to the second one", (1, 1), rounds=[
        ("begin / insert 5 a / commit | begin / insert 5 b / commit | begin / get 5 / commit",
         "1 begin 1 / 1 insert ok / 1 commit ok / 2 begin 2 / 2 aborted / 2 begin 4 / 2 insert exists / 2 commit ok / "
         "3 begin 3 / 3 aborted / 3 begin 5 / 3 aborted / 3 begin 6 / 3 got a / 3 commit ok"),
    ]),
    Rounds("the third one gives way to the second one, for which the first one waits, and then to the first one", (1, 1), rounds=[
        ("begin / get 9 / insert 5 a / commit | begin / insert 5 b / commit | begin / insert 5 c / commit",
         "1 begin 1 / 1 get missing / 1 insert exists / 1 commit ok / 2 begin 2 / 2 insert ok / 2 commit ok / 3 begin 3 / "
         "3 aborted / 3 begin 4 / 3 aborted / 3 begin 5 / 3 insert exists / 3 commit ok"),
    ]),
    Rounds("three on disjoint keys", (2, 3), rounds=[
        ("begin / insert 1 a / commit / begin / get 1 / commit | begin / insert 2 b / update 2 c / commit | begin / "
         "insert 3 d / delete 3 / commit",
         "1 begin 1 / 1 insert ok / 1 commit ok / 1 begin 4 / 1 got a / 1 commit ok / 2 begin 2 / 2 insert ok / "
         "2 update ok / 2 commit ok / 3 begin 3 / 3 insert ok / 3 delete ok / 3 commit ok"),
    ]),
]

# Clients that die.
DEATHS = [
    Rounds("an insert's three operations are made, and the next one is the fourth", (1, 1), rounds=[
        ("begin / die 4 / insert 5 abc / insert 6 d / commit / audit",
         "1 begin 1 / 1 insert ok / 1 died"),
    ]),
    Rounds("a client dies between its look and its put", (1, 1), rounds=[
        ("begin / die 2 / insert 5 abc",
         "1 begin 1 / 1 died"),
        ("- | begin / insert 6 d / get 5 / commit",
         "2 begin 2 / 2 insert ok / 2 get missing / 2 commit ok"),
    ]),
    Rounds("a count that isn't reached is forgotten, and a second one replaces the first", (1, 1), rounds=[
        ("begin / die 5 / insert 5 a / commit / begin / die 1 / die 9 / insert 6 a / insert 7 a / commit",
         "1 begin 1 / 1 insert ok / 1 commit ok / 1 begin 2 / 1 insert ok / 1 insert ok / 1 commit ok"),
    ]),
    Rounds("another client meets a dead one's latch", (1, 1), rounds=[
        ("begin / die 1 / insert 5 abc | begin / get 9 / insert 5 d / commit",
         "1 begin 1 / 1 died / 2 begin 2 / 2 get missing / 2 insert ok / 2 commit ok"),
    ]),
    Rounds("another client meets a dead one's lock", (1, 1), rounds=[
        ("begin / die 2 / insert 5 abc | 10 * poke 9 0 1 / begin / get 9 / insert 5 d / commit",
         "1 begin 1 / 1 died / 10 * 2 poke out of range / 2 begin 2 / 2 get missing / 2 insert ok / 2 commit ok"),
    ]),
    Rounds("the holder lives still when another client gives way to it", (1, 1), rounds=[
        ("begin / die 3 / insert 5 abc | begin / get 9 / insert 5 d / commit",
         "1 begin 1 / 1 died / 2 begin 2 / 2 get missing / 2 aborted / 2 begin 3 / 2 get missing / 2 insert ok / 2 commit ok"),
    ]),
    Rounds("a dead client's latch is met by one that is to die there, which cleans it up first", (1, 1), rounds=[
        ("begin / die 1 / insert 5 abc | poke 9 0 1 / begin / die 1 / insert 6 d",
         "1 begin 1 / 1 died / 2 poke out of range / 2 begin 2 / 2 died"),
        ("begin / get 5 / get 6 / commit",
         "1 begin 3 / 1 get missing / 1 get missing / 1 commit ok"),
    ]),
    Rounds("an audit stops the engine between a client's request and its look, which meets a dead one's latch", (1, 1), rounds=[
        ("begin / die 1 / insert 5 abc | 3 * poke 9 0 1 / begin / get 9 / commit | poke 1 9 ff / audit",
         "1 begin 1 / 1 died / 3 * 2 poke out of range / 2 begin 2 / 2 get stopped damage 1 / 2 commit stopped damage 1 / "
         "3 poke ok / 3 audit failed 1"),
    ]),
    Rounds("what a commit frees stands on a region that a dead client has latched", (1, 1), rounds=[
        ("begin / insert 5 abc / commit",
         "1 begin 1 / 1 insert ok / 1 commit ok"),
        ("begin / delete 5 / commit | 7 * poke 9 0 1 / begin / die 1 / get 9",
         "1 begin 2 / 1 delete ok / 1 commit ok / 7 * 2 poke out of range / 2 begin 3 / 2 died"),
        ("begin / get 5 / insert 5 z / insert 9 z / commit",
         "1 begin 6 / 1 get missing / 1 insert ok / 1 insert ok / 1 commit ok"),
    ]),
    Rounds("what an abort takes back stands on a region that a dead client has latched", (1, 1), rounds=[
        ("begin / insert 5 abc / abort | 13 * poke 9 0 1 / begin / die 1 / get 9",
         "1 begin 1 / 1 insert ok / 1 abort ok / 13 * 2 poke out of range / 2 begin 2 / 2 died"),
        ("begin / get 5 / insert 9 z / commit",
         "1 begin 3 / 1 get missing / 1 insert ok / 1 commit ok"),
    ]),
    Rounds("what a call takes back isn't counted as an operation", (1, 4), rounds=[
        ("begin / insert 1 a / insert 2 a / insert 3 a / insert 4 a / insert 5 a / insert 6 a / insert 7 a / insert 8 a / "
         "insert 9 a / insert 10 a / insert 11 a / commit",
         "1 begin 1 / 11 * 1 insert ok / 1 commit ok"),
        ("begin / insert 12 a / insert 13 a / insert 14 a / insert 15 a / insert 16 a / insert 17 a / insert 18 a / "
         "insert 19 a / insert 20 a / insert 21 a / commit",
         "1 begin 2 / 10 * 1 insert ok / 1 commit ok"),
        ("begin / die 5 / insert 22 a / get 1 / commit",
         "1 begin 3 / 1 insert full index / 1 died"),
    ]),
]

# Stray writes, audits and prechecks.
STRAYS = [
    Rounds("with a precheck a failed audit stops an insert whose put waits to be taken back", (1, 1), words="run --precheck", rounds=[
        ("begin / insert 5 a / commit | 4 * poke 9 0 1 / poke 0 60 1 | 15 * poke 9 0 1 / audit",
         "1 begin 1 / 1 insert stopped damage 0 / 1 commit stopped damage 0 / 4 * 2 poke out of range / 2 poke ok / "
         "15 * 3 poke out of range / 3 audit failed 0"),
    ]),
    Rounds("two masks that cancel are found by no audit", (1, 1), rounds=[
        ("poke 2 0 1 / poke 1 9 1 / poke 1 10 1 / audit | audit",
         "1 poke out of range / 1 poke ok / 1 poke ok / 1 audit clean / 2 audit clean"),
    ]),
    Rounds("the engine stops in another client's insert, and a poke needs no engine", (1, 1), rounds=[
        ("poke 1 9 ff / audit / poke 0 0 1 | begin / insert 5 a / commit / begin / get 5 / commit / audit",
         "1 poke ok / 1 audit failed 1 / 1 poke ok / 2 begin 1 / 2 insert stopped damage 1 / 2 commit stopped damage 1 / "
         "2 begin stopped damage 1 / 2 audit stopped damage 1"),
        ("begin / get 5 / commit / checkpoint",
         "1 begin stopped damage 1 / 1 checkpoint stopped damage 1"),
    ]),
    Rounds("a stop leaves a transaction open", (1, 1), rounds=[
        ("poke 1 9 ff / audit | begin / insert 5 a",
         "1 poke ok / 1 audit failed 1 / 2 begin 1 / 2 insert stopped damage 1 / 2 left open"),
    ]),
    Rounds("a stop refuses an abort", (1, 1), rounds=[
        ("poke 1 9 ff / audit | begin / insert 5 a / abort",
         "1 poke ok / 1 audit failed 1 / 2 begin 1 / 2 insert stopped damage 1 / 2 abort stopped damage 1"),
    ]),
    Rounds("who waits for a holder goes on where the engine stops", (1, 1), rounds=[
        ("begin / insert 5 a / get 6 / get 7 / commit | begin / insert 5 b / commit | poke 1 9 ff / audit",
         "1 begin 1 / 1 insert stopped damage 1 / 1 get stopped damage 1 / 1 get stopped damage 1 / "
         "1 commit stopped damage 1 / 2 begin 2 / 2 aborted / 2 begin stopped damage 1 / 3 poke ok / 3 audit failed 1"),
    ]),
    Rounds("an audit stops the engine behind the last kill of a delete", (1, 1), rounds=[
        ("begin / insert 5 abc / commit",
         "1 begin 1 / 1 insert ok / 1 commit ok"),
        ("begin / delete 5 / commit | 5 * poke 9 0 1 / poke 1 60 1 / audit",
         "1 begin 2 / 1 delete stopped damage 1 / 1 commit stopped damage 1 / 5 * 2 poke out of range / 2 poke ok / "
         "2 audit failed 1"),
    ]),
    Rounds("an audit stops the engine behind the answer of a delete", (1, 1), rounds=[
        ("begin / insert 5 abc / commit",
         "1 begin 1 / 1 insert ok / 1 commit ok"),
        ("begin / delete 5 / commit | 6 * poke 9 0 1 / poke 1 60 1 / audit",
         "1 begin 2 / 1 delete ok / 1 commit stopped damage 1 / 6 * 2 poke out of range / 2 poke ok / 2 audit failed 1"),
    ]),
    Rounds("an audit stops the engine behind the commit's record, which its flush takes along", (1, 1), rounds=[
        ("begin / insert 5 abc / commit",
         "1 begin 1 / 1 insert ok / 1 commit ok"),
        ("begin / delete 5 / commit | 7 * poke 9 0 1 / poke 1 60 1 / audit",
         "1 begin 2 / 1 delete ok / 1 commit ok / 7 * 2 poke out of range / 2 poke ok / 2 audit failed 1"),
    ]),
    Rounds("an audit stops the engine behind the commit's own flush", (1, 1), rounds=[
        ("begin / insert 5 abc / commit",
         "1 begin 1 / 1 insert ok / 1 commit ok"),
        ("begin / delete 5 / commit | 8 * poke 9 0 1 / poke 1 60 1 / audit",
         "1 begin 2 / 1 delete ok / 1 commit ok / 8 * 2 poke out of range / 2 poke ok / 2 audit failed 1"),
    ]),
    Rounds("an audit stops the engine behind the commit's first removal", (1, 1), rounds=[
        ("begin / insert 5 abc / commit",
         "1 begin 1 / 1 insert ok / 1 commit ok"),
        ("begin / delete 5 / commit | 11 * poke 9 0 1 / poke 1 60 1 / audit",
         "1 begin 2 / 1 delete ok / 1 commit ok / 11 * 2 poke out of range / 2 poke ok / 2 audit failed 1"),
    ]),
    Rounds("an audit stops the engine behind the commit's last removal, and the next round finds it stopped", (1, 1), rounds=[
        ("begin / insert 5 abc / commit",
         "1 begin 1 / 1 insert ok / 1 commit ok"),
        ("begin / delete 5 / commit | 14 * poke 9 0 1 / poke 1 60 1 / audit",
         "1 begin 2 / 1 delete ok / 1 commit ok / 14 * 2 poke out of range / 2 poke ok / 2 audit failed 1"),
        ("begin / get 5 / commit",
         "1 begin stopped damage 1"),
    ]),
    Rounds("a precheck refuses the call, and the transaction goes on", (2, 3), words="run --precheck", rounds=[
        ("begin / insert 4 abc / commit / poke 3 11 0100000000000000 / begin / get 4",
         "1 begin 1 / 1 insert ok / 1 commit ok / 1 poke ok / 1 begin 2 / "
         "1 get damaged 3 6162630000000007 6062630000000007 / 1 aborted"),
        ("audit",
         "1 audit failed 3"),
    ]),
    Rounds("a precheck refuses the put of an insert", (1, 1), words="run --precheck", rounds=[
        ("poke 1 9 ff / begin / insert 5 a / get 5 / commit",
         "1 poke ok / 1 begin 1 / 1 insert damaged 1 0000000000000001 00000000000000fe / 1 get missing / 1 commit ok"),
    ]),
    Rounds("the put is taken back where the entry's region is damaged", (1, 1), words="run --precheck", rounds=[
        ("begin / insert 5 a / commit | 3 * poke 9 0 1 / poke 0 60 1",
         "1 begin 1 / 1 insert damaged 0 0000000000000000 0000000000000001 / 1 commit ok / 3 * 2 poke out of range / "
         "2 poke ok"),
    ]),
    Rounds("another client has begun an operation in the region of a put that is taken back, and dies in it", (1, 1), words="run --precheck", rounds=[
        ("begin / die 2 / insert 6 abc | begin / insert 5 a / commit | 8 * poke 9 0 1 / poke 0 60 1",
         "1 begin 1 / 1 died / 2 begin 2 / 2 insert damaged 0 0000000000000000 0000000000000001 / 2 commit ok / "
         "8 * 3 poke out of range / 3 poke ok"),
    ]),
    Rounds("in a damaged region no client dies: the operation isn't made, and the next one is the first", (1, 1), words="run --precheck", rounds=[
        ("begin / die 1 / insert 5 a / get 5 / commit | poke 0 60 1 / 3 * poke 9 0 1 / poke 0 60 1",
         "1 begin 1 / 1 insert damaged 0 0000000000000000 0000000000000001 / 1 died / 2 poke ok / "
         "3 * 2 poke out of range / 2 poke ok"),
    ]),
]

# Checkpoints beside writers and beside each other.
CHECKPOINTS = [
    Rounds("a checkpoint beside a writer, and one beside a reader", (1, 1), rounds=[
        ("checkpoint | begin / insert 5 a / commit",
         "1 checkpoint 1 / 2 begin 1 / 2 insert ok / 2 commit ok"),
        ("begin / get 5 / commit | checkpoint",
         "1 begin 2 / 1 got a / 1 commit ok / 2 checkpoint 2"),
    ]),
    Rounds("one checkpoint at a time: the first one ends in its seventh step", (1, 1), rounds=[
        ("checkpoint | checkpoint / 5 * poke 9 0 1 / checkpoint / checkpoint",
         "1 checkpoint 1 / 2 checkpoint in progress / 5 * 2 poke out of range / 2 checkpoint 2 / 2 checkpoint 3"),
    ]),
    Rounds("a checkpoint that finds damage stops the engine", (1, 1), rounds=[
        ("poke 1 9 ff / checkpoint / checkpoint / audit",
         "1 poke ok / 1 checkpoint failed 1 / 1 checkpoint stopped damage 1 / 1 audit stopped damage 1"),
    ]),
    Rounds("another client's audit fails while a checkpoint audits", (1, 1), rounds=[
        ("checkpoint | poke 1 9 ff / audit",
         "1 checkpoint stopped damage 1 / 2 poke ok / 2 audit failed 1"),
    ]),
    Rounds("another client's audit fails while a checkpoint copies", (1, 3), rounds=[
        ("3 * poke 9 0 1 / checkpoint / checkpoint | poke 1 9 ff / audit",
         "3 * 1 poke out of range / 1 checkpoint stopped damage 1 / 1 checkpoint stopped damage 1 / 2 poke ok / "
         "2 audit failed 1"),
    ]),
    Rounds("an open transaction of a dead client is no hindrance", (1, 2), rounds=[
        ("begin / die 5 / insert 5 abc / insert 6 d | 33 * poke 9 0 1 / checkpoint",
         "1 begin 1 / 1 insert ok / 1 died / 33 * 2 poke out of range / 2 checkpoint 1"),
    ]),
]

# From how many calls behind the making of the database on, and below how many: what is said where so many pass.
FAULTS = [
    (0, 4, "begin / insert 5 a / commit / begin / get 5 / commit",
     "1 begin 1 / 1 insert ok / 1 commit store stopped / 1 begin stopped store"),
    (4, 8, "begin / insert 5 a / commit / begin / get 5 / commit",
     "1 begin 1 / 1 insert ok / 1 commit ok / 1 begin 2 / 1 got a / 1 commit store stopped"),
    (8, 9, "begin / insert 5 a / commit / begin / get 5 / commit",
     "1 begin 1 / 1 insert ok / 1 commit ok / 1 begin 2 / 1 got a / 1 commit ok"),
    (0, 4, "audit / audit",
     "1 audit store stopped / 1 audit stopped store"),
    (4, 8, "audit / audit",
     "1 audit clean / 1 audit store stopped"),
    (8, 9, "audit / audit",
     "1 audit clean / 1 audit clean"),
    # the cause of the stop stays that of the audit
    (0, 4, "poke 1 9 ff / audit / audit",
     "1 poke ok / 1 audit store stopped / 1 audit stopped damage 1"),
    (4, 5, "poke 1 9 ff / audit / audit",
     "1 poke ok / 1 audit failed 1 / 1 audit stopped damage 1"),
    # a checkpoint writes a header, two regions and a table; it flushes its audit by four calls, syncs the image, and moves
    # the anchor by four
    (0, 13, "checkpoint / begin",
     "1 checkpoint store stopped / 1 begin stopped store"),
    (13, 14, "checkpoint / begin",
     "1 checkpoint 1 / 1 begin 1 / 1 aborted"),
    (4, 8, "poke 1 9 ff / checkpoint / begin",
     "1 poke ok / 1 checkpoint store stopped / 1 begin stopped damage 1"),
    (8, 9, "poke 1 9 ff / checkpoint / begin",
     "1 poke ok / 1 checkpoint failed 1 / 1 begin stopped damage 1"),
    # two commits are logged before the first flush, which serves both
    (0, 4, "begin / commit | begin / commit",
     "1 begin 1 / 1 commit store stopped / 2 begin 2 / 2 commit store stopped"),
    (4, 5, "begin / commit | begin / commit",
     "1 begin 1 / 1 commit ok / 2 begin 2 / 2 commit ok"),
    # others are refused from then on
    (0, 4, "begin / insert 5 a / commit | begin / insert 6 b / get 6 / commit",
     "1 begin 1 / 1 insert ok / 1 commit store stopped / 2 begin 2 / 2 insert stopped store / 2 get stopped store / "
     "2 commit stopped store"),
    # who waits for the holder begins again, and is refused
    (0, 4, "begin / insert 5 a / commit | begin / insert 5 b / commit",
     "1 begin 1 / 1 insert ok / 1 commit store stopped / 2 begin 2 / 2 aborted / 2 begin stopped store"),
    # what is open stays open
    (0, 4, "begin / insert 5 a / commit | begin / insert 6 b",
     "1 begin 1 / 1 insert ok / 1 commit store stopped / 2 begin 2 / 2 insert stopped store / 2 left open"),
    (4, 5, "begin / insert 5 a / commit | begin / insert 6 b",
     "1 begin 1 / 1 insert ok / 1 commit ok / 2 begin 2 / 2 insert ok / 2 aborted"),
    (0, 4, "begin / insert 5 a / commit | begin / insert 6 b / abort",
     "1 begin 1 / 1 insert ok / 1 commit store stopped / 2 begin 2 / 2 insert stopped store / 2 abort stopped store"),
    # a client died before
    (0, 4, "begin / die 1 / insert 5 abc | poke 9 0 1 / begin / insert 6 d / commit / begin",
     "1 begin 1 / 1 died / 2 poke out of range / 2 begin 2 / 2 insert ok / 2 commit store stopped / 2 begin stopped store"),
    # a checkpoint starts behind the entry: it flushes what is logged by four calls, and writes the header; it copies a
    # region in the turns of the answer and of the commit's record, so that where the second copy fails the commit finds the
    # failure in place of its flush; that is the eighth call to the eleventh
    (0, 5, "begin / insert 5 a / commit | 18 * poke 9 0 1 / checkpoint",
     "1 begin 1 / 1 insert stopped store / 1 commit stopped store / 18 * 2 poke out of range / 2 checkpoint store stopped"),
    (5, 6, "begin / insert 5 a / commit | 18 * poke 9 0 1 / checkpoint",
     "1 begin 1 / 1 insert ok / 1 commit stopped store / 18 * 2 poke out of range / 2 checkpoint store stopped"),
    (6, 7, "begin / insert 5 a / commit | 18 * poke 9 0 1 / checkpoint",
     "1 begin 1 / 1 insert ok / 1 commit store stopped / 18 * 2 poke out of range / 2 checkpoint store stopped"),
    (7, 11, "begin / insert 5 a / commit | 18 * poke 9 0 1 / checkpoint",
     "1 begin 1 / 1 insert ok / 1 commit store stopped / 18 * 2 poke out of range / 2 checkpoint stopped store"),
    (11, 13, "begin / insert 5 a / commit | 18 * poke 9 0 1 / checkpoint",
     "1 begin 1 / 1 insert ok / 1 commit ok / 18 * 2 poke out of range / 2 checkpoint store stopped"),
]


def fault(passes: int, blocks: str, wanted: str) -> Case:
    """A round whose store passes so many calls, and fails all later ones."""
    return Case(f"{passes} calls pass of: {blocks}", Run(f"size 1 1\nfuse {passes}\n{script(blocks)}", f"fuse {passes}\n{said(wanted)}"))


def lines_of(client: int, text: str) -> list[str]:
    return [line for line in text.splitlines() if line.startswith(f"{client} ")]


# As many clients as a round may have, each with a key of its own. They begin by ascending number.
SIXTY_FOUR = Rounds("sixty-four clients", (7, 13), rounds=[
    (" | ".join(f"begin / insert {client}000000 a / commit" for client in range(1, 65)),
     " / ".join(f"{client} begin {client} / {client} insert ok / {client} commit ok" for client in range(1, 65)))])


def beside_audits() -> Run:
    """Two clients with keys of their own make 200 transactions of one insert each, and a third one makes 20 audits."""
    writers = [" / ".join(f"begin / insert {client}000{key} a / commit" for key in range(200)) for client in (1, 2)]
    return Run("size 20 70\n" + script(" | ".join([*writers, "20 * audit"])), all_well_beside_audits, reads_of=65_536, writes_of=65_536)


def all_well_beside_audits(text: str) -> bool | str:
    """No stray write comes, so each audit is clean; no key is another client's, so each insert is made in its first try. The two
    share out the numbers of 400 transactions."""
    begun = sorted(int(line.split()[2]) for line in text.splitlines() if line.split()[1] == "begin")
    if begun != list(range(1, 401)):
        return "the transactions aren't 1 to 400"
    for client in (1, 2):
        if [line.split()[1] for line in lines_of(client, text)] != 200 * ["begin", "insert", "commit"]:
            return f"client {client} has other lines"
    if not all(line.endswith(" ok") or line.split()[1] == "begin" for client in (1, 2) for line in lines_of(client, text)):
        return "a call isn't ok"
    return lines_of(3, text) == 20 * ["3 audit clean"] and len(text.splitlines()) == 1220


def death(call: str, operation: int) -> Rounds:
    """A client dies in an operation of a call, and the next one finds the record as it was, or none."""
    return Rounds(f"a death in operation {operation} of {call}", (1, 1), rounds=[
        ("begin / insert 5 abc / commit", "1 begin 1 / 1 insert ok / 1 commit ok"),
        (f"begin / die {operation} / {call} / commit", "1 begin 2 / 1 died"),
        ("- | begin / get 6 / get 5 / insert 6 y / commit / audit",
         "2 begin 3 / 2 get missing / 2 got abc / 2 insert ok / 2 commit ok / 2 audit clean")])


# Who read damage, and who read from that one, are deleted, and rounds go on over what is left.
BEHIND_A_RESTART = Case("rounds go on behind a restart", Run(
    "size 2 3\n"
    + script("begin / insert 4 abc / commit / begin / insert 5 xyz / commit / checkpoint / poke 3 11 0100000000000000 / "
             "begin / get 4 / insert 6 qq / commit / begin / update 5 y / commit / begin / get 6 / commit / audit")
    + "crash 0\nrestart\n"
    + script("begin / get 4 / get 5 / commit | begin / get 6"),
    said("1 begin 1 / 1 insert ok / 1 commit ok / 1 begin 2 / 1 insert ok / 1 commit ok / 1 checkpoint 1 / 1 poke ok / "
         "1 begin 3 / 1 got `bc / 1 insert ok / 1 commit ok / 1 begin 4 / 1 update ok / 1 commit ok / 1 begin 5 / 1 got qq / "
         "1 commit ok / 1 audit failed 3 / crash 0 / rolled back none / deleted 3 5 / "
         "1 begin 6 / 1 got abc / 1 got y / 1 commit ok / 2 begin 7 / 2 get missing / 2 aborted")))

# Thirteen transactions of one insert leave no room for the fourteenth one's entry: 10 bytes and 289 for each with its end, which the
# next flush takes along.
SHORT_LOG = Case("fourteen transactions fill the log", Run(
    "size 1 2\n" + script(" / ".join(f"begin / insert {key} abc / commit" for key in range(1, 15))
                          + " / begin / insert 99 z / commit / poke 9 0 1"),
    said(" / ".join(f"1 begin {key} / 1 insert ok / 1 commit ok" for key in range(1, 14))
         + " / 1 begin 14 / 1 insert log full 4073 4096 / 1 commit ok / 1 begin log full 4148 4096 / 1 poke out of range"),
    words="run --log-limit 4096"))


def shared_in_turn() -> Run:
    """Clients 1 and 3 have the key shared in turn, so that there is always an older holder: each transaction takes fourteen turns, and
    the third client's begin seven behind the first one's. Client 2 wants it alone."""
    holder = " / ".join(520 * ["begin / get 5 / get 6 / get 6 / get 6 / abort"] + ["poke 9 0 1"])
    return Run("size 1 1\n" + script(f"{holder} | begin / insert 5 v / get 5 / commit / begin / get 7 / commit | 7 * poke 9 0 1 / {holder}"),
               gives_up_behind_a_thousand, words="run --log-limit 100000000", reads_of=65_536, writes_of=65_536)


def gives_up_behind_a_thousand(text: str) -> bool:
    """It has a begin and an end for each of a thousand tries, then the holder, and the three lines of what stands behind its
    transaction."""
    tries = [line for number in range(2, 2000, 2) for line in (f"2 begin {number}", "2 aborted")]
    return lines_of(2, text) == tries + ["2 begin 2000", "2 busy 1999", "2 aborted", "2 begin 2002", "2 get missing", "2 commit ok"]


CASES: list[Case | Sweep] = [
    *[rounds.case() for rounds in (*ONE_CLIENT, *CONFLICTS, *DEATHS, *STRAYS, *CHECKPOINTS, SIXTY_FOUR)],
    *[death(call, operation).case()
      for call, operations in (("insert 6 z", 3), ("update 5 z", 2), ("delete 5", 3), ("get 5", 2))
      for operation in range(1, operations + 1)],
    *[fault(passes, blocks, wanted) for low, high, blocks, wanted in FAULTS for passes in range(low, high)],
    Case("two clients beside one that audits", beside_audits()),
    BEHIND_A_RESTART,
    SHORT_LOG,
    Case("the thousandth try is the last", shared_in_turn()),
]
