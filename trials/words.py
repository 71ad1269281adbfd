"""The words of the command line: those that mean a task, and those that mean none."""
from shapes import Case, Run, lines

USAGE = lines("usage: dali run [--precheck] [--log-limit N] | gen CLIENTS SIZE NUMBER | dump")

# Two blanks that meet have an empty word between them, and so has one at an end.
REFUSED = """\

 run
RUN
ru\N{LATIN SMALL LETTER N WITH CARON}
run\N{SPACE}
run now
run run
run --Precheck
run --pre
run -p
run --precheck=1
run --precheck=
run --precheck --precheck
run --log-limit
run --log-limit\N{SPACE}
run --log-limit=
run --log-limit 0
run --log-limit 4095
run --log-limit 268435457
run --log-limit +4096
run --log-limit -4096
run --log-limit 4_096
run --log-limit 0x1000
run --log-limit \N{FULLWIDTH DIGIT FOUR}\N{FULLWIDTH DIGIT ZERO}\N{FULLWIDTH DIGIT NINE}\N{FULLWIDTH DIGIT SIX}
run --log-limit 000000000000000004096
run --log-limit 4096 4096
run --log-limit 4096 --log-limit 4096
run --log-limit --precheck
--precheck run
-- run
gen
gen 1 1
gen 1 1 1 1
gen 0 1 1
gen 65 1 1
gen 1 0 1
gen 1 1001 1
gen 1 1\N{SPACE}
gen 1 1 -1
gen 1 1 1a
gen 1 1 18446744073709551616
gen 1 1 99999999999999999999
gen 1 1 000000000000000000001
gen --precheck 1 1 1
load
load 1
load 0 1
load 32769 1
load 1 0
load 1 65537
load 1 1 1
load -- 1
load 1 1a
load --precheck 1 1
dump x
dump --precheck
help
help run
run help
--help
-h
run --help
gen -h
--version
-V
run --version
"""

# A mask that a get meets: with a precheck the get is refused, without one it reads what is there. The codeword is the exclusive-or of the
# region's words: the 1 of a heap region, the cell's state 1, its key 5, its length 1 and its value.
DAMAGED = lines("size 1 1; client 1; begin; insert 5 a; commit; poke 1 11 0100000000000000; begin; get 5; commit; end")
UNCHECKED = lines("1 begin 1; 1 insert ok; 1 commit ok; 1 poke ok; 1 begin 2; 1 got `; 1 commit ok")
CHECKED = lines("1 begin 1; 1 insert ok; 1 commit ok; 1 poke ok; 1 begin 2; 1 get damaged 1 6100000000000004 6000000000000004; 1 commit ok")

PRECHECKS = [
    ("run", UNCHECKED),
    ("run --precheck", CHECKED),
    ("run --log-limit=5000 --precheck", CHECKED),
    ("run --precheck --log-limit 4412", CHECKED),
    ("run --", UNCHECKED),
]

# Gets of a missing key, 68 bytes each, fill the log to its limit: 10 bytes, a begin of 9, and the answer of the last get would go past
# what a commit and an end of 18 leave.
LIMITS = [
    ("run --log-limit 4096", 4_096),
    ("run --log-limit 04096", 4_096),
    ("run --log-limit=00000000000000004096", 4_096),
    ("run --log-limit=5000 --precheck", 5_000),
    ("run --precheck --log-limit 4412", 4_412),
]


def full(words: str, limit: int) -> Case:
    """The line of a call for which the log has no room tells the limit."""
    return Case(f"{words}: the limit is {limit}", Run(
        "size 1 1\nclient 1\nbegin\n" + 80 * "get 5\n" + "commit\nend\n",
        lambda text: any(line.startswith("1 get log full ") and line.endswith(f" {limit}") for line in text.splitlines()),
        words=words, reads_of=65_536, writes_of=65_536))


# So many clients, transactions each, and any number below 2 to the 64th: where the store fails at once, that is the answer.
GENERATES = ["gen 1 1 0", "gen 5 40 6667177209515339942", "gen 64 1000 18446744073709551615", "gen 064 01 007", "gen 1 -- 2 3"]

CASES = [
    *[Case(f"`{words}` means nothing", Run("", USAGE, 1, words=words.split(" "), after={})) for words in REFUSED.splitlines()],
    Case("no words", Run("", USAGE, 1, words=[], after={})),
    *[Case(f"`{words}`: a precheck, or none", Run(DAMAGED, out, words=words)) for words, out in PRECHECKS],
    *[full(words, limit) for words, limit in LIMITS],
    Case("the greatest limit", Run(lines("size 1 1"), "", words="run --log-limit 268435456")),
    *[Case(f"`{words}` generates", Run("", "store fault\n", 6, words=words, passes=0)) for words in GENERATES],
    Case("`dump` asks for a log", Run("", "unformatted\n", 8, words="dump", after={})),
]
