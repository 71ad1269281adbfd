"""How values are spelled, in scripts and in lines, and the longest lists and greatest numbers that fit into a run."""
from shapes import Case, Run, lines

# A value as a script spells it, and as `get` and `show` do.
SPELLED = [
    ("the least and the greatest byte that stand for themselves", "!~", "!~"),
    ("a backslash", "\\x5c", "\\x5c"),
    ("a byte that could stand for itself", "\\x61", "a"),
    ("blanks, zeros and bytes behind the letters", "\\x00\\x20\\x7f\\xff", "\\x00\\x20\\x7f\\xff"),
    ("capital digits", "\\xfF\\xFf", "\\xff\\xff"),
    ("forty bytes", "p_&^\",}:\"1q)8rku/Wy[q+{:AA%s\"}uwwa\\x1ds/((", "p_&^\",}:\"1q)8rku/Wy[q+{:AA%s\"}uwwa\\x1ds/(("),
]

KEYS = [0, 7, 18446744073709551615]


def record(name: str, key: int, spelled: str, shown: str) -> Case:
    return Case(f"{name}, key {key}", [
        Run(lines("size 1 1; client 1; begin", f"insert {key} {spelled}", f"get {key}", "commit; end; show"),
            lines("1 begin 1; 1 insert ok", f"1 got {shown}", "1 commit ok", f"{key} {shown}", "records 1")),
        Run(lines("open; show"), lines("rolled back none; deleted none", f"{key} {shown}", "records 1")),
    ])


CASES = [record(name, key, spelled, shown) for name, spelled, shown in SPELLED for key in KEYS]
