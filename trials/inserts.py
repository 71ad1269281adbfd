"""Records that calls log, put together by hand from docs/MODEL.md, docs/FORMATS.md and the table of operations there."""
from collections.abc import Mapping

import formats as f

ENTRIES = 21
"""How many entries an index region has: entry e has its state, its key and its place in the words from 1 + 3 e on."""

NOTHING: Mapping[int, int] = {}


def words_of(content: bytes) -> list[int]:
    """The five words of a value: its bytes, and zeros behind them."""
    padded = content.ljust(40, b"\0")
    return [int.from_bytes(padded[at:at + 8], "big") for at in range(0, 40, 8)]


def inserted(
    transaction: int,
    key: int,
    content: bytes,
    index: int,
    heap: int,
    cell: int = 1,
    entry: int = 0,
    look: Mapping[int, int] = NOTHING,
    search: Mapping[int, int] = NOTHING,
) -> list[bytes]:
    """What the insert of a new key logs: it looks for the key in its index region, puts the value into a cell of a heap region that was
    never used, and adds the entry. `look` and `search` have the words that the look, and the search for a free entry, read beside the
    overflow flag and the states that are 0."""
    states = {1 + 3 * it: 0 for it in range(ENTRIES)}
    cells, place = 8 * cell, 8 * heap + cell
    words = [1, key, len(content), *words_of(content)]
    return [
        f.operation(transaction, f.block(key, index, f.LOOK, f.absent(), reads={0: 0} | states | dict(look))),
        f.operation(transaction, f.block(
            key, heap, f.put(content), f.was_put(cell), undo=f.undo_free_cell(cell),
            reads={cells + at: 0 for at in range(8)},
            writes={cells + at: word for at, word in enumerate(words)})),
        f.operation(transaction, f.block(
            key, index, f.add(place), f.added(entry), undo=f.undo_free_entry(entry),
            reads={1 + 3 * entry + at: 0 for at in range(3)} | dict(search),
            writes={1 + 3 * entry + at: word for at, word in enumerate([1, key, place])})),
        f.done(transaction, f.insert(key, content), f.OK),
    ]


def one_record() -> bytes:
    """The batch of transaction 1, which inserts `abc` under key 5 into a database of one index and one heap region."""
    return f.batch(f.begin(1), *inserted(1, 5, b"abc", index=0, heap=1), f.commit(1))


def two_and_a_loser() -> bytes:
    """The log of 2 index and 3 heap regions: 1 inserts 5 and 2 inserts 7 with the bytes 00 and 7e, and both have ended; 3 inserts 8, and
    never committed. The look for 7 meets the entry of 5."""
    return f.log(
        f.formatted(2, 3),
        f.batch(f.begin(1), *inserted(1, 5, b"abc", index=1, heap=3), f.commit(1)),
        f.batch(f.ended(1), f.begin(2),
            *inserted(2, 7, b"\0\x7e", index=1, heap=4, entry=1, look={1: 1, 2: 5}, search={1: 1}), f.commit(2)),
        f.batch(f.ended(2), f.begin(3), *inserted(3, 8, b"lost", index=0, heap=2)))
