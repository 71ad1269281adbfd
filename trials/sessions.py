"""Scripts of one run over an empty folder with what it writes, worked out by hand from docs/SCRIPT.md and docs/MODEL.md."""
import formats as f
from shapes import Case, Run, lines

# In each row a name, the script, and its lines.
TABLE = [
    ("each command of one client, and where the engine is stopped",
        lines(
            "size 1 1; client 1; begin; get 5; update 5 z; delete 5; commit; poke 0 1 ff; audit; checkpoint",
            "begin; die 3; abort; end; audit; poke 1 2 3; checkpoint; cleanup; show; verify; next; fuse 1000; crash 0",
            "restart; client 2; begin; end; client 3; end; show"),
        lines(
            "1 begin 1; 1 get missing; 1 update missing; 1 delete missing; 1 commit ok; 1 poke ok",
            "1 audit failed 0; 1 checkpoint stopped damage 0; 1 begin stopped damage 0; audit stopped damage 0; poke ok",
            "checkpoint stopped damage 0; cleanup stopped damage 0; show stopped damage 0; verify stopped damage 0; fuse 1000",
            "crash 0; rolled back none; deleted 1; 2 begin 2; 2 aborted; records 0")),
    ("an audit stops the engine",
        lines("size 2 3; poke 3 11 1; audit; client 1; begin; commit; end; crash 0; restart; audit"),
        lines("poke ok; audit failed 3; 1 begin stopped damage 3; crash 0; rolled back none; deleted none; audit clean")),
    ("a failed audit whose end can't be written",
        lines("size 2 3; poke 3 11 1; fuse 0; audit; audit; show"),
        lines("poke ok; fuse 0; audit store stopped; audit stopped damage 3; show stopped damage 3")),
    ("a dead client is rolled back",
        lines("size 1 1; client 1; begin; die 4; insert 5 abc; insert 6 d; end; audit; crash 1; restart; show"),
        lines("1 begin 1; 1 insert ok; 1 died; audit clean; crash 1; rolled back 1; deleted none; records 0")),
    ("a dead cell stays reserved",
        lines(
            "size 1 1; client 1; begin", *(f"insert {key} a" for key in range(1, 8)), "insert 8 a; delete 1; insert 8 a; commit; begin; insert 8 a; commit; end"),
        lines(
            "1 begin 1", *7 * ["1 insert ok"], "1 insert full heap; 1 delete ok; 1 insert full heap; 1 commit ok; 1 begin 4; 1 insert ok; 1 commit ok")),
    ("a delete and an insert are taken back",
        lines("size 1 1; client 1; begin; insert 5 abc; commit; begin; delete 5; insert 5 z; abort; begin; get 5; commit; end"),
        lines(
            "1 begin 1; 1 insert ok; 1 commit ok; 1 begin 2; 1 delete ok; 1 insert ok; 1 abort ok",
            "1 begin 3; 1 got abc; 1 commit ok")),
    ("a change before the damaged read is undone",
        lines(
            "size 2 3; client 1; begin; insert 4 abc; commit; begin; insert 5 xyz; commit; checkpoint",
            "poke 3 11 0100000000000000; begin; update 5 q; get 4; commit; begin; get 5; commit; audit; end; crash 0; restart",
            "show"),
        lines(
            "1 begin 1; 1 insert ok; 1 commit ok; 1 begin 2; 1 insert ok; 1 commit ok; 1 checkpoint 1; 1 poke ok",
            "1 begin 3; 1 update ok; 1 got `bc; 1 commit ok; 1 begin 4; 1 got q; 1 commit ok; 1 audit failed 3; crash 0",
            "rolled back none; deleted 3 4; 4 abc; 5 xyz; records 2")),
    ("a writer of damaged words is deleted",
        lines(
            "size 2 3; client 1; begin; insert 4 abc; commit; end; audit; poke 3 11 0100000000000000; client 1",
            "begin; update 4 zz; commit; end; audit; crash 0; restart; show"),
        lines(
            "1 begin 1; 1 insert ok; 1 commit ok; audit clean; poke ok; 1 begin 2; 1 update ok; 1 commit ok; audit failed 3",
            "crash 0; rolled back none; deleted 2; 4 abc; records 1")),
    ("a dead client in another one's way",
        lines("size 1 1; client 1; begin; die 2; insert 5 abc; end; next; client 2; begin; insert 6 d; get 5; commit; end; show"),
        lines("1 begin 1; 1 died; 2 begin 2; 2 insert ok; 2 get missing; 2 commit ok; 6 d; records 1")),
    ("an image with what a dead client left",
        lines("size 1 2; client 1; begin; die 5; insert 5 abc; insert 6 d; end; checkpoint; cleanup; crash 0; restart; show"),
        lines("1 begin 1; 1 insert ok; 1 died; checkpoint 1; cleaned 1; crash 0; rolled back 1; deleted none; records 0")),
    ("masks that cancel",
        lines("size 2 3; poke 3 11 1; poke 3 12 1; audit"),
        lines("poke ok; poke ok; audit clean")),
    ("a commit cut by a fuse of 2",
        lines(
            "size 1 1; client 1; begin; insert 5 abc; commit; end; fuse 2; client 1; begin; insert 6 d; commit; end; crash 0",
            "restart; show"),
        lines(
            "1 begin 1; 1 insert ok; 1 commit ok; fuse 2; 1 begin 2; 1 insert ok; 1 commit store stopped; crash 0",
            "rolled back none; deleted none; 5 abc; records 1")),
    ("a commit cut by a fuse of 3, kept by the crash",
        lines(
            "size 1 1; client 1; begin; insert 5 abc; commit; end; fuse 3; client 1; begin; insert 6 d; commit; end; crash 0",
            "restart; show"),
        lines(
            "1 begin 1; 1 insert ok; 1 commit ok; fuse 3; 1 begin 2; 1 insert ok; 1 commit store stopped; crash 0",
            "rolled back none; deleted none; 5 abc; 6 d; records 2")),
    ("a commit cut by a fuse of 3, dropped by the crash",
        lines(
            "size 1 1; client 1; begin; insert 5 abc; commit; end; fuse 3; client 1; begin; insert 6 d; commit; end; crash 1",
            "restart; show"),
        lines(
            "1 begin 1; 1 insert ok; 1 commit ok; fuse 3; 1 begin 2; 1 insert ok; 1 commit store stopped; crash 1",
            "rolled back none; deleted none; 5 abc; records 1")),
    ("commands while the program is down",
        lines(
            "size 1 1; crash 0; client 1; begin; commit; end; poke 0 0 1; audit; show; next; fuse 0; restart; show; crash 0",
            "restart; show"),
        lines(
            "crash 0; round down; poke down; audit down; show down; fuse 0; restart store stopped; show down; crash 0",
            "rolled back none; deleted none; records 0")),
    ("an audit cut by a fuse",
        lines("size 1 1; fuse 0; audit; audit; show; poke 0 0 1; client 1; begin; get 5; commit; end"),
        lines("fuse 0; audit store stopped; audit stopped store; show stopped store; poke ok; 1 begin stopped store")),
    ("a fuse that lets one audit pass, of four calls",
        lines("size 1 1; fuse 4; audit; audit; show"),
        lines("fuse 4; audit clean; audit store stopped; show stopped store")),
    ("a fuse stays blown until the next one",
        lines("size 1 1; fuse 0; audit; crash 0; fuse 0; restart; restart; fuse 1000; restart; show"),
        lines(
            "fuse 0; audit store stopped; crash 0; fuse 0; restart store stopped; restart store stopped; fuse 1000",
            "rolled back none; deleted none; records 0")),
    ("a value of 40 bytes",
        lines("size 1 1; client 1; begin", f"insert 5 {40 * 'a'}", "commit; end; show"),
        lines("1 begin 1; 1 insert ok; 1 commit ok", f"5 {40 * 'a'}", "records 1")),
    ("a poke out of range",
        lines("size 1 1; poke 2 0 1"),
        lines("poke out of range")),
    ("a full region's records go on in the next one",
        lines("size 2 4; client 1; begin", *(f"insert {key} v" for key in range(0, 44, 2)), "get 42; commit; end; show"),
        lines(
            "1 begin 1", *22 * ["1 insert ok"], "1 got v; 1 commit ok",
            *(f"{key} v" for key in range(0, 44, 2)), "records 22")),
    ("an index that is full",
        lines("size 1 4; client 1; begin", *(f"insert {key} a" for key in range(1, 23)), "commit; end; crash 0; restart; show"),
        lines(
            "1 begin 1", *21 * ["1 insert ok"], "1 insert full index; 1 commit ok; crash 0; rolled back none; deleted none",
            *(f"{key} a" for key in range(1, 22)), "records 21")),
    ("a restart moves the anchor too",
        lines("size 1 1; checkpoint; checkpoint; crash 1; restart; checkpoint"),
        lines("checkpoint 1; checkpoint 2; crash 1; rolled back none; deleted none; checkpoint 4")),
    ("two clients insert one key",
        lines("size 1 1; client 1; begin; insert 5 a; commit; end; client 2; begin; insert 5 b; commit; end; show"),
        lines(
            "1 begin 1; 1 insert ok; 1 commit ok; 2 begin 2; 2 aborted; 2 begin 3; 2 insert exists; 2 commit ok; 5 a",
            "records 1")),
    ("the same, the second block first: clients go by their numbers",
        lines("size 1 1; client 2; begin; insert 5 b; commit; end; client 1; begin; insert 5 a; commit; end; show"),
        lines(
            "1 begin 1; 1 insert ok; 1 commit ok; 2 begin 2; 2 aborted; 2 begin 3; 2 insert exists; 2 commit ok; 5 a",
            "records 1")),
]



def stands_where_the_walk_leads(files: dict[str, bytes]) -> bool | str:
    """Whether key 42 has entry 0 of region 1 and cell 1 of region 2, and the flag of region 0 is up, in the image of the first checkpoint."""
    def word(region: int, number: int) -> int:
        at = HEADER + 8 * (f.WORDS * region + number)
        return int.from_bytes(files["dali.a"][at:at + 8], "big")

    entry, cell = [word(1, number) for number in (1, 2, 3)], [word(2, number) for number in (8, 9, 10)]
    flags = [word(0, 0), word(1, 0)]
    return entry == [1, 42, 8 * 2 + 1] and cell == [1, 42, 1] and flags == [1, 0] or f"{entry}, {cell}, {flags}"


HEADER = 64
"""The bytes of an image before its regions."""

CASES = [Case(name, Run(script, wanted)) for name, script, wanted in TABLE] + [
    Case("where the first record of a full region's walk stands", Run(
        lines("size 2 4; client 1; begin", *(f"insert {key} v" for key in range(0, 44, 2)), "commit; checkpoint; end"),
        lines("1 begin 1", *22 * ["1 insert ok"], "1 commit ok; 1 checkpoint 1"),
        after=stands_where_the_walk_leads)),
]
