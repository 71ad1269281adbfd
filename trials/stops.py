"""Stops: a store that fails once or from some call on, in the middle of any command or of a restart, and is cut there by a crash."""
from dataclasses import replace

import formats as f
from shapes import Case, Done, Run, Sweep, lines

EACH_COMMAND = Run(
    lines("size 1 2; client 1; begin; insert 5 abc; commit; checkpoint; begin; update 5 z; end; audit; crash 0; restart; show"),
    lines(
        "1 begin 1; 1 insert ok; 1 commit ok; 1 checkpoint 1; 1 begin 2; 1 update ok; 1 aborted; audit clean; crash 0",
        "rolled back none; deleted none; 5 abc; records 1"))

WITH_A_BEGIN = f.files(log=f.log(f.formatted(1, 1), f.batch(f.begin(1))), anchor=f.anchor())

DUMP = Run("", lines("0 format 1 1; 1 begin 1"), words="dump")

LATER = Run(lines("open; show"), None, None)
"""Whatever it finds."""


def keeps_what_was_told(_number: int, done: list[Done]) -> bool | str:
    """Whether the first run ended as one that the store failed in, and the later one finds the commit where it was told. Else it finds the
    record or none, or no database."""
    first, later = done
    if first.out == EACH_COMMAND.out:
        return "the store didn't fail"
    if first.status not in (0, 6) or (first.status == 6) != first.out.endswith("store fault\n"):
        return f"the first ends with {first.status} and {first.out!r}"
    if later.status == 0 and later.out.endswith("deleted none\n5 abc\nrecords 1\n"):
        return True
    if "1 commit ok" in first.out:
        return f"the later one ends with {later.status} and {later.out!r}"
    nothing = (later.status, later.out) == (8, "unformatted\n")
    return nothing or later.status == 0 and later.out.endswith("deleted none\nrecords 0\n")


# Client 1 reads a damaged word in transaction 3, which writes key 6; transaction 5 reads that. The audit names region 3.
CHAIN = Run(
    lines(
        "size 2 3; client 1; begin; insert 4 abc; commit; begin; insert 5 xyz; commit; checkpoint; poke 3 11 0100000000000000",
        "begin; get 4; insert 6 qq; commit; begin; update 5 y; commit; begin; get 6; commit; audit; end; crash 0"),
    lines(
        "1 begin 1; 1 insert ok; 1 commit ok; 1 begin 2; 1 insert ok; 1 commit ok; 1 checkpoint 1; 1 poke ok",
        "1 begin 3; 1 got `bc; 1 insert ok; 1 commit ok; 1 begin 4; 1 update ok; 1 commit ok; 1 begin 5; 1 got qq; 1 commit ok",
        "1 audit failed 3; crash 0"))

RECOVERED = lines("rolled back none; deleted 3 5; 4 abc; 5 y; records 2")

WHOLE_CHAIN = replace(CHAIN, script=CHAIN.script + lines("restart; show"), out=CHAIN.out + RECOVERED)

# What stands behind so many of the chain's commits, where no audit has told of the damage.
BEHIND = [[], ["4 abc"], ["4 abc", "5 xyz"], ["4 abc", "5 xyz", "6 qq"], ["4 abc", "5 y", "6 qq"], ["4 abc", "5 y", "6 qq"]]


def keeps_the_chain(_number: int, done: list[Done]) -> bool | str:
    """Whether the later run finds the commits that were told, one more at most, and just those of the chain deleted where the audit was
    told; with all commits it may know of the damage before that."""
    first, later = done
    if first.out == WHOLE_CHAIN.out:
        return "the store didn't fail"
    if first.status not in (0, 6) or (first.status == 6) != first.out.endswith("store fault\n"):
        return f"the first ends with {first.status} and {first.out!r}"
    if first.status == 0 and "store stopped\n" not in first.out:
        return f"no line tells that the store failed: {first.out!r}"
    told = first.out.count("1 commit ok")
    if later.status == 8:
        return told == 0 or f"{told} commits were told, and there is no database"
    rolled_back, deleted, *records = later.out.split("\n")[:-2]
    if later.status != 0 or later.out.split("\n")[-2] != f"records {len(records)}":
        return f"the later one ends with {later.status} and {later.out!r}"
    if rolled_back != "rolled back none" and rolled_back != f"rolled back {told + 1}":
        return f"{told} commits were told; {later.out!r}"
    if deleted == "deleted 3 5":
        return told == 5 and records == ["4 abc", "5 y"] or f"{told} commits were told; {later.out!r}"
    if "1 audit failed 3" in first.out:
        return f"the audit was told; {later.out!r}"
    there = [number for number in (told, told + 1) if number <= 5 and records == BEHIND[number]]
    return deleted == "deleted none" and there != [] or f"{told} commits were told; {later.out!r}"


# How many calls of the store the restart behind the chain makes.
CALLS = 40


def stopped_by_a_fuse(number: int, choice: int) -> Run:
    """The chain, whose first restart is stopped by a fuse, and the store cut then."""
    script = CHAIN.script + lines(f"fuse {number}; restart; crash {choice}; restart; show")
    first = "restart store stopped" if number < CALLS else "rolled back none; deleted 3 5"
    return Run(script, CHAIN.out + lines(f"fuse {number}; {first}; crash {choice}") + RECOVERED)


def stopped_by_the_store(number: int, choice: int) -> list[Run]:
    """A restart of the chain's files that is stopped by the store, which a crash cuts then, and one behind it."""
    return [
        Run(lines("open"), lines("store fault"), 6, passes=number, crash=choice),
        Run(lines("open; show"), RECOVERED),
    ]


def fails_at_its_number(call: int, done: list[Done]) -> bool:
    """Whether the run ended at the call behind this one, or this one was its last."""
    return done[0].calls == call + (2 if done[0].status == 6 else 1)


CASES = [
    Sweep("the store gets each call once, so that just the one with the number fails",
        lambda call: replace(DUMP, fail_calls=[call + 1], passes=1000, out=None, status=None),
        DUMP, least=2, files=WITH_A_BEGIN, holds=fails_at_its_number),
    Sweep("a call of the store that fails once loses nothing that was told",
        lambda call: [replace(EACH_COMMAND, fail_calls=[call], out=None, status=None), LATER],
        EACH_COMMAND, least=31, holds=keeps_what_was_told),
    *(Sweep(f"a store that stops loses nothing that was told, cut by {choice}",
        lambda call, choice=choice: [replace(EACH_COMMAND, passes=call, crash=choice, out=None, status=None), LATER],
        EACH_COMMAND, least=31, holds=keeps_what_was_told) for choice in range(5)),
    Case("the whole chain", WHOLE_CHAIN),
    Sweep("a call of the store that fails once in the whole chain loses nothing that was told",
        lambda call: [replace(WHOLE_CHAIN, fail_calls=[call], out=None, status=None), LATER],
        WHOLE_CHAIN, least=60, holds=keeps_the_chain),
    *(Sweep(f"a store that stops in the whole chain loses nothing that was told, cut by {choice}",
        lambda call, choice=choice: [replace(WHOLE_CHAIN, passes=call, crash=choice, out=None, status=None), LATER],
        WHOLE_CHAIN, least=60, holds=keeps_the_chain) for choice in range(5)),
    Case("the chain without a stop", [CHAIN, Run(lines("open; show"), RECOVERED)]),
    *(Sweep(f"a restart that a fuse stops, cut by {choice}",
        lambda number, choice=choice: stopped_by_a_fuse(number, choice), range(CALLS + 1), least=10) for choice in range(5)),
    *(Sweep(f"a restart that the store stops, cut by {choice}",
        lambda number, choice=choice: stopped_by_the_store(number, choice), Run(lines("open"), lines("rolled back none; deleted 3 5")),
        least=10, made=CHAIN) for choice in range(5)),
]
