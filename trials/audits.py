"""Audits: which damage they find, what they log, where the log has no room for them, and who stops behind one that failed."""
from itertools import repeat

import formats as f
from shapes import Case, Run, lines

# Two index regions, 0 and 1, and a heap region, 2: their damage as region, word and mask, who fails, and what is logged.
CLEAN = [f.audit_begin(), f.audit_clean(1)]
POKED: list[tuple[str, list[str], str, list[bytes]]] = [
    ("no damage", [], "clean", CLEAN),
    ("two masks that cancel are missed", ["1 3 5", "1 60 5"], "clean", CLEAN),
    ("two equal masks in two regions", ["0 3 5", "1 3 5"], "failed 0 1", [f.audit_begin(), f.audit_fail(1, [0, 1])]),
    ("the last bit of a region", ["1 63 8000000000000000"], "failed 1", [f.audit_begin(), f.audit_fail(1, [1])]),
    ("two masks that don't cancel", ["1 3 5", "1 60 4"], "failed 1", [f.audit_begin(), f.audit_fail(1, [1])]),
    ("two regions", ["0 9 6", "2 0 1"], "failed 0 2", [f.audit_begin(), f.audit_fail(1, [0, 2])]),
]


def poked(name: str, pokes: list[str], found: str, logged: list[bytes]) -> Case:
    """An audit, and a second one, which is refused where the first one failed."""
    second = "audit clean" if found == "clean" else f"audit stopped damage {found.split()[1]}"
    batches = [f.formatted(2, 1), f.batch(*logged)]
    if found == "clean":
        batches.append(f.batch(f.audit_begin(), f.audit_clean(3)))
    run = Run(lines("size 2 1", *(f"poke {it}" for it in pokes), "audit; audit"),
              lines(*repeat("poke ok", len(pokes)), f"audit {found}", second),
              after=f.files(log=f.log(*batches), anchor=f.anchor()))
    return Case(name, run)


# A format has 10 bytes, each transaction that does nothing 27, an audit that finds nothing 10. The limit is 4096; what ends a
# transaction is logged past it, and an audit may go 2^20 further.
LIMITED = "run --log-limit 4096"


def filled(transactions: int, audits: int) -> tuple[str, str]:
    """A script, and what it tells, of so many transactions and audits."""
    script = lines("size 1 1", *repeat("audit", audits), "client 1", *repeat("begin; commit", transactions), "end")
    told = lines(*repeat("audit clean", audits)) + "".join(f"1 begin {it + 1}\n1 commit ok\n" for it in range(transactions))
    return script, told


def limited(name: str, transactions: int, audits: int, script: str, told: str) -> Case:
    first, first_told = filled(transactions, audits)
    return Case(name, Run(first + lines(script), first_told + lines(told), words=LIMITED))


CASES = [
    *(poked(*row) for row in POKED),
    limited("a begin that fills the log to its limit", 151, 0, "next; client 1; begin; insert 5 abc; commit; begin; commit; end; audit",
            "1 begin 152; 1 insert log full 4096 4096; 1 commit ok; 1 begin log full 4114 4096; audit clean"),
    limited("a begin for which the log lacks a byte", 4, 397, "next; client 1; begin; end; audit",
            "1 begin log full 4088 4096; audit clean"),
    Case("an audit whose records can't be synced", Run(
        lines("size 1 1; fuse 1; audit; audit; checkpoint; client 1; begin; end"),
        lines("fuse 1; audit store stopped; audit stopped store; checkpoint stopped store; 1 begin stopped store"),
        after=f.files(log=f.formatted(1, 1) + f.CLOSED + f.u32(10) + b"".join(CLEAN) + f.CLOSED, anchor=f.anchor()))),
    Case("who stops behind a failed audit", Run(
        lines("size 1 1", "client 1; begin; insert 5 abc; commit; audit; poke 1 0 1; audit; begin; end; next", "client 2; begin; end",
              "checkpoint; cleanup; show; verify"),
        lines("1 begin 1; 1 insert ok; 1 commit ok; 1 audit clean; 1 poke ok; 1 audit failed 1; 1 begin stopped damage 1",
              "2 begin stopped damage 1",
              "checkpoint stopped damage 1; cleanup stopped damage 1; show stopped damage 1; verify stopped damage 1"))),
]
