"""Clients beside each other: who waits for a key and who is tried again; and clients that die, whose transactions are taken back, each
with the operation in which its client died."""
import formats as f
from shapes import Case, Run, lines
from worked import FREE, Database, words_of

DEAD_IN_PUT = "client 1; begin; insert 5 abc; die 2; insert 6 x; end"
DEAD_TOLD = "1 begin 1; 1 insert ok; 1 died"

# The even keys' index region is 0, the odd ones' 1, and the heap region 2. Client 1 dies in its second insert's last operation, on
# region 0, and client 2 in its put on region 2, where the first one's record stands.
TWO_DEAD = ["size 2 1", "client 1; begin; insert 4 abc; die 3; insert 6 x; end; next", "client 2; begin; die 2; insert 5 y; end"]
TWO_TOLD = ["1 begin 1; 1 insert ok; 1 died", "2 begin 2; 2 died"]

# Both read key 9, and one of them writes it, too: the older one waits for the younger one, which is tried again where it is the writer.
KEY = ["size 1 1", "client 1; begin; insert 9 a; commit; end; next"]
KEY_TOLD = "1 begin 1; 1 insert ok; 1 commit ok"
READS = "begin; get 9; get 9; get 9; get 9; commit"
WRITES = "begin; get 9; update 9 b; commit"
READ_FIRST = "got a; got a; got a; got a; commit ok"


def said(client: int, told: str) -> str:
    return lines(*(f"{client} {line}" for line in told.split("; ")))


def shared(name: str, first: str, second: str, first_told: str, second_told: str) -> Case:
    script = lines(*KEY, "client 1", first, "end", "client 2", second, "end", "show")
    return Case(name, Run(script, lines(KEY_TOLD) + said(1, first_told) + said(2, second_told) + lines("9 b; records 1")))


def the_put_is_durable(files: dict[str, bytes]) -> bool | str:
    """Whether the log has the look and the put of the insert of key 5, and nothing of its add."""
    database = Database(1, 1)
    made = [f.operation(1, database.look(5, 0)), f.operation(1, database.put(5, 1, b"abc"))]
    whole = f.log(f.formatted(1, 1), f.batch(f.begin(1), *made, f.audit_begin(), f.audit_clean(4)))
    return files["dali.log"] == whole or f"{files['dali.log'].hex()}, wanted {whole.hex()}"


def the_cell_is_free(files: dict[str, bytes]) -> bool | str:
    """Whether the first cell of the heap region is free in the image that the restart wrote, which is the first one."""
    state = words_of(files["dali.a"], 1)[8]
    return state == FREE or f"the cell's state is {state}"


CASES = [
    Case("a put that is logged and flushed, and whose insert isn't done, is rolled back", [
        Run(lines("size 1 1; client 1; begin; die 3; insert 5 abc; end; audit"), lines("1 begin 1; 1 died; audit clean"),
            crash=1, after=the_put_is_durable),
        Run(lines("open; show"), lines("rolled back 1; deleted none; records 0"), after=the_cell_is_free),
    ]),
    shared("an older reader that writes", WRITES, READS, "begin 2; got a; update ok; commit ok", f"begin 3; {READ_FIRST}"),
    shared("a younger reader that writes", READS, WRITES, f"begin 2; {READ_FIRST}",
           "begin 3; got a; aborted; begin 4; got a; update ok; commit ok"),
    Case("nobody is dead", Run(lines("size 1 1; client 1; begin; insert 5 abc; commit; end; cleanup; show"),
                               lines("1 begin 1; 1 insert ok; 1 commit ok; cleaned none; 5 abc; records 1"))),
    Case("one who died in an operation", Run(lines("size 1 1", DEAD_IN_PUT, "cleanup; cleanup; show; audit; verify"),
                                             lines(DEAD_TOLD, "cleaned 1; cleaned none; records 0; audit clean; verify ok"))),
    Case("two of whom one is in the other's way", Run(lines(*TWO_DEAD, "cleanup; show; audit; verify"),
                                                      lines(*TWO_TOLD, "cleaned 1 2; records 0; audit clean; verify ok"))),
    Case("two who are taken back unasked", Run(lines(*TWO_DEAD, "show"), lines(*TWO_TOLD, "records 0"))),
    Case("the key of a dead one", Run(lines("size 1 1", DEAD_IN_PUT, "next; client 2; begin; insert 5 z; commit; end; cleanup; show"),
                                      lines(DEAD_TOLD, "2 begin 2; 2 insert ok; 2 commit ok; cleaned none; 5 z; records 1"))),
    Case("a dead one and a damaged region", Run(lines("size 1 1", DEAD_IN_PUT, "poke 0 63 1; audit; cleanup; crash 1; restart; show"),
                                                lines(DEAD_TOLD, "poke ok; audit failed 0; cleanup stopped damage 0; crash 1",
                                                      "rolled back 1; deleted none; records 0"))),
    Case("a dead one and a store that failed", Run(lines("size 1 1", DEAD_IN_PUT, "fuse 0; audit; cleanup; crash 1; restart; show"),
                                                   lines(DEAD_TOLD, "fuse 0; audit store stopped; cleanup stopped store; crash 1",
                                                         "rolled back none; deleted none; records 0"))),
]
