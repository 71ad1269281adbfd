"""What a generated run leaves. The summaries come from a plain map in which each call was made, by a program that was written apart."""
from shapes import Case, Run, lines

SUMMARIES = [
    ("gen 5 40 6667177209515339942", "clients 5; transactions 200; records 153; keys 459003161"),
    ("gen 64 1 2524375581608789717", "clients 64; transactions 64; records 64; keys 2080000000"),
    ("gen 1 10 4265010084902496249", "clients 1; transactions 10; records 7; keys 7000032"),
    ("gen 1 1 8300736830845468918", "clients 1; transactions 1; records 1; keys 1000000"),
    ("gen 1 1 9", "clients 1; transactions 1; records 1; keys 1000000"),
]

# The store passes the eleven calls that make a database, and fails behind them.
SIZES = Case("the sizes of the greatest generated run", [
    Run("", None, 6, words="gen 64 1000 7", passes=11),
    Run("", lines("0 format 6401 12801"), words="dump"),
])

CASES = [
    *[Case(f"the summary of {words}", Run("", lines(out), words=words, reads_of=65_536, writes_of=65_536)) for words, out in SUMMARIES],
    SIZES,
]
